#!/usr/bin/env python3
"""Writes the world and the script of each workload into a folder.

    python3 bench/workloads.py FOLDER [WORKLOAD [SIZE]]

A workload is two texts, FOLDER/WORKLOAD/world.txt and FOLDER/WORKLOAD/script.txt. Doubling SIZE doubles its work. With no WORKLOAD
all are written, each at its own SIZE, which stands in WORKLOADS below and can be doubled twice within the limits of the texts.
"""

import sys
from pathlib import Path

FILE_LIMIT = 16_777_216
TICK_LIMIT = 10_000
SECTION_LIMIT = 16_384


def idle(size):
    """SIZE regions of one loaded chunk each, in which nothing happens, tick 200 times each."""
    yield from grid(0, 1, 1, 2, 1, 6)
    yield from script()
    for region in range(size):
        yield f"load {8 * (region % 64)} {8 * (region // 64)}"
    yield from run(200)


def entities(size):
    """SIZE entities walk for 50 ticks over one region of 32 by 32 chunks, each its own way."""
    yield from grid(2, 1, 1, 2, 1, 6)
    for number in range(size):
        x, z = 37 * number % 512, 91 * number % 512
        vx, vz = number % 33 - 16, number // 33 % 33 - 16
        yield f"entity {number + 1} {x} {number % 256} {z} {vx} {vz}"
    yield from script()
    yield from square(0, 0, 32, 32)
    yield from run(50)


def posts(size):
    """SIZE tasks that set blocks in 16 regions, due over 100 ticks."""
    yield from grid(0, 1, 1, 2, 1, 6)
    yield from script()
    for region in range(16):
        yield f"load {8 * region} 0"
    for number in range(size):
        chunk = 8 * (number % 16)
        x, y = 16 * chunk + number % 16, number // 16 % 256
        yield f"post {chunk} 0 {1 + number % 100} set {x} {y} {number % 7} {1 + number % 65_535}"
    yield from run(100)


def merges(size):
    """SIZE times, 32 regions with 100 blocks each become 16 by a chunk between each two, and 32 again when it goes."""
    pairs = [32 * pair for pair in range(16)]
    yield from grid(0, 1, 1, 2, 1, 6)
    for left in pairs:
        for chunk in (left, left + 6):
            for number in range(100):
                yield f"block {16 * chunk + number % 16} {number // 16} 0 {number + 1}"
    yield from script()
    for left in pairs:
        yield f"load {left} 0"
        yield f"load {left + 6} 0"
    for _ in range(size):
        for left in pairs:
            yield f"load {left + 3} 0"
        yield from run(1)
        for left in pairs:
            yield f"unload {left + 3} 0"
        yield from run(1)


def large(size):
    """One region of SIZE sections, 50 wide, looks for parts at the end of each of 20 ticks, before each of which a chunk comes or goes."""
    yield from grid(0, 1, 1, 1, 0, 1)
    yield from script()
    yield from square(0, 0, 48, size // 50 - 2)
    for _ in range(10):
        yield "load 48 0"
        yield from run(1)
        yield "unload 48 0"
        yield from run(1)


def table(size):
    """SIZE times, 1,024 regions of 16 sections fill the table of 16,384 sections, and all go in one tick."""
    corners = [(8 * (region % 32), 8 * (region // 32)) for region in range(SECTION_LIMIT // 16)]
    chunks = [(x + dx, z + dz) for x, z in corners for dz in (0, 1) for dx in (0, 1)]
    yield from grid(0, 1, 1, 2, 1, 6)
    yield from script()
    for _ in range(size):
        for x, z in chunks:
            yield f"load {x} {z}"
        for x, z in chunks:
            yield f"unload {x} {z}"
        yield from run(1)


def crowds(size):
    """SIZE entities in each of 64 regions of 16 chunks in a row walk for 400 ticks."""
    corners = [(24 * (region % 8), 8 * (region // 8)) for region in range(64)]
    yield from grid(0, 1, 1, 2, 1, 6)
    for region, (left, top) in enumerate(corners):
        for number in range(size):
            x, z = 16 * left + 37 * number % 256, 16 * top + 7 * number % 16
            yield f"entity {size * region + number + 1} {x} {number % 256} {z} {number % 7 - 3} {number % 2}"
    yield from script()
    for left, top in corners:
        yield from square(left, top, 16, 1)
    yield from run(400)


def corners(size):
    """SIZE entities in each of 64 regions of 15 chunks, a square without one corner, walk for 400 ticks."""
    places = [(24 * (region % 8), 24 * (region // 8)) for region in range(64)]
    yield from grid(0, 1, 1, 2, 1, 6)
    for region, (left, top) in enumerate(places):
        for number in range(size):
            x, z = 16 * left + 37 * number % 48, 16 * top + 7 * number % 48
            yield f"entity {size * region + number + 1} {x} {number % 256} {z} {number % 7 - 3} {number % 5 - 2}"
    yield from script()
    for left, top in places:
        yield from square(left, top, 4, 3)
        yield from square(left, top + 3, 3, 1)
    yield from run(400)


def chains(size):
    """SIZE tasks in 256 regions repeat 20 times each: they set blocks, post to another region, send entities there, and load a chunk."""
    corners = [(8 * (region % 16), 8 * (region // 16)) for region in range(256)]
    yield from grid(0, 1, 1, 2, 1, 6, version=2)
    for number, (x, z) in enumerate(corners, 1):
        yield f"entity {number} {16 * x} 64 {16 * z} 0 0"
    yield from script()
    for x, z in corners:
        yield f"load {x} {z}"
    for number in range(size):
        (x, z), (far_x, far_z) = corners[number % 256], corners[(91 * number + 7) % 256]
        action = (
            f"set {16 * x} {number % 256} {16 * z} {number % 65_536}",
            f"post {far_x} {far_z} {1 + number % 9} set {16 * far_x} 0 {16 * far_z} 1",
            f"send {1 + number % 256} {16 * far_x} 64 {16 * far_z}",
            f"load {x} {z}",
        )[number % 4]
        yield f"every {x} {z} {1 + number % 20} {1 + number % 10} 20 {action}"
    yield from run(300)


def churn(size):
    """SIZE times, 300 pairs of regions are joined by a chunk between them and parted again, half of them while the regions tick."""
    pairs = [(12 * (pair % 20), 8 * (pair // 20)) for pair in range(300)]
    yield from grid(0, 1, 1, 2, 1, 6)
    for number, (x, z) in enumerate(pairs, 1):
        yield f"entity {number} {16 * x} 64 {16 * z} 1 0"
        for place in range(16):
            yield f"block {16 * x + place} 0 {16 * z} {place + 1}"
    yield from script()
    for x, z in pairs:
        yield f"load {x} {z}"
        yield f"load {x + 6} {z}"
    for time in range(size):
        for what in ("load", "unload"):
            inside = [f"{what} {x + 3} {z}" for x, z in pairs[time % 2 :: 2]]
            yield from (f"{what} {x + 3} {z}" for x, z in pairs[1 - time % 2 :: 2])
            yield from run(2, inside)


def repeating(size):
    """One task repeats for 2,000 ticks in a region of SIZE chunks, 60 wide, in which nothing else happens."""
    yield from grid(0, 1, 1, 2, 1, 6, version=2)
    yield from script()
    yield from square(0, 0, 60, size // 60)
    yield "every 0 0 1 1 2000 set 0 0 0 1"
    yield from run(2_000)


def beside(size):
    """A chunk beside a region of SIZE chunks and one inside it come and go, 500 times each, with a tick after each."""
    yield from grid(0, 1, 1, 2, 1, 6)
    yield from script()
    yield from square(0, 0, 60, size // 60)
    for _ in range(500):
        for what, x, z in (("load", 60, 0), ("unload", 60, 0), ("unload", 30, 1), ("load", 30, 1)):
            yield f"{what} {x} {z}"
            yield from run(1)


def sets(size):
    """SIZE tasks set as many blocks in one region of 16 by 16 chunks, in no order, over 100 ticks."""
    yield from grid(0, 1, 1, 2, 1, 6)
    yield from script()
    yield from square(0, 0, 16, 16)
    for number in range(size):
        x, z, y = spread(number)
        yield f"post {x // 16} {z // 16} {1 + number % 100} set {x} {y} {z} {1 + number % 65_535}"
    yield from run(100)


def laid(size):
    """The world has SIZE blocks in one region of 16 by 16 chunks, in no order, and ticks ten times."""
    yield from grid(0, 1, 1, 2, 1, 6)
    for number in range(size):
        x, z, y = spread(number)
        yield f"block {x} {y} {z} {1 + number % 65_535}"
    yield from script()
    yield from square(0, 0, 16, 16)
    yield from run(10)


def standing(size):
    """SIZE entities stand in one region of 16 by 16 chunks for 500 ticks, and ten more walk."""
    yield from grid(0, 1, 1, 2, 1, 6)
    for number in range(size + 10):
        x, z, y = spread(number)
        yield f"entity {number + 1} {x} {y} {z} {int(number >= size)} 0"
    yield from script()
    yield from square(0, 0, 16, 16)
    yield from run(500)


def far(size):
    """20,000 loads and unloads of chunks far from a region of SIZE chunks and from each other, with ten ticks."""
    yield from grid(0, 1, 1, 2, 1, 6)
    yield from script()
    yield from square(0, 0, 60, size // 60)
    for turn in range(10):
        places = [(2_000 + 8 * (place % 40), 8 * (place // 40)) for place in range(1_000)]
        yield from (f"load {x} {z}" for x, z in places)
        yield from run(1)
        yield from (f"unload {x} {z}" for x, z in places)


def players(size):
    """The areas of 60 players, 5 by 5 chunks each, walk SIZE steps through the world, meet, merge and part; a tick after each step."""
    yield from grid(0, 1, 1, 2, 1, 6)
    yield from script()
    ways = ((1, 0), (0, 1), (-1, 0), (0, -1))
    places = [(20 * (player % 8), 20 * (player // 8)) for player in range(60)]
    for x, z in places:
        yield from square(x, z, 5, 5)
    for step in range(size):
        for player, (x, z) in enumerate(places):
            dx, dz = ways[(player + step // 40) % 4]
            yield from edge("load", x + dx, z + dz, dx, dz)
            yield from edge("unload", x, z, -dx, -dz)
            places[player] = x + dx, z + dz
        yield from run(1)


# Each workload with its least size.
WORKLOADS = {
    "idle": (idle, 450),
    "entities": (entities, 10_000),
    "posts": (posts, 60_000),
    "merges": (merges, 100),
    "large": (large, 2_500),
    "table": (table, 4),
    "crowds": (crowds, 50),
    "corners": (corners, 50),
    "chains": (chains, 2_500),
    "churn": (churn, 25),
    "repeating": (repeating, 900),
    "beside": (beside, 900),
    "sets": (sets, 60_000),
    "laid": (laid, 100_000),
    "standing": (standing, 5_000),
    "far": (far, 900),
    "players": (players, 40),
}


def grid(*numbers, version=1):
    """The two first lines of a world."""
    yield f"world {version}"
    yield "grid " + " ".join(str(number) for number in numbers)


def script():
    """Marks where the script begins."""
    yield None


def square(left, top, width, height):
    """Loads a rectangle of chunks, row by row."""
    for z in range(top, top + height):
        for x in range(left, left + width):
            yield f"load {x} {z}"


def edge(what, left, top, dx, dz):
    """The side of an area of 5 by 5 chunks to which (dx, dz) points."""
    for place in range(5):
        x = left + (place if dz else (4 if dx > 0 else 0))
        z = top + (place if dx else (4 if dz > 0 else 0))
        yield f"{what} {x} {z}"


def spread(number):
    """A place in the first 16 by 16 chunks, another for each number below 16,777,216, in no order of places."""
    place = number * 9_973 % 16_777_216
    return place % 256, place // 256 % 256, place // 65_536


def run(ticks, inside=()):
    """A phase, with these lines inside."""
    yield f"run {ticks}"
    yield from inside
    yield "end"


def texts(lines):
    """The world text and the script text of these lines."""
    parts = [[], []]
    place = 0
    for line in lines:
        if line is None:
            place += 1
        else:
            parts[place].append(line)
    return ["".join(line + "\n" for line in part) for part in parts]


def check(name, size, world, commands):
    """Stops where a text is past the limits of the program."""
    ticks = sum(int(line[4:]) for line in commands.splitlines() if line.startswith("run "))
    for what, number, limit in (
        ("bytes of the world", len(world), FILE_LIMIT),
        ("bytes of the script", len(commands), FILE_LIMIT),
        ("ticks", ticks, TICK_LIMIT),
    ):
        if number > limit:
            sys.exit(f"{name} {size}: {number} {what} are more than {limit}")


def write(folder, name, size):
    """Writes a workload."""
    make, _ = WORKLOADS[name]
    world, commands = texts(make(size))
    check(name, size, world, commands)
    place = Path(folder) / name
    place.mkdir(parents=True, exist_ok=True)
    (place / "world.txt").write_text(world)
    (place / "script.txt").write_text(commands)


def main(words):
    if not 1 <= len(words) <= 3 or (len(words) > 1 and words[1] not in WORKLOADS):
        sys.exit(__doc__ + "\nWorkloads: " + ", ".join(WORKLOADS))
    if len(words) == 1:
        for name, (_, size) in WORKLOADS.items():
            write(words[0], name, size)
    else:
        size = int(words[2]) if len(words) == 3 else WORKLOADS[words[1]][1]
        write(words[0], words[1], size)


if __name__ == "__main__":
    main(sys.argv[1:])
