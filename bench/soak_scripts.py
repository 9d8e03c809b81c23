#!/usr/bin/env python3
"""Makes up worlds and scripts for soak.py, each from its kind and a seed.

    bench/soak_scripts.py FOLDER KIND SEED      writes FOLDER/world.txt and FOLDER/script.txt

FIXED has the kinds whose last state is the same in whatever order the regions tick; soak.py compares it. There regions either stay so far
from each other within a phase that none sees what another does, or what passes between them commutes and has come to its end before the
last phase. FREE has the kinds where everything may meet.
"""

import random
import sys
from pathlib import Path

MOST_POSTS = 8
EDGE = 1_000_000


class Grid:
    """The numbers of a grid. Chunks whose sections are `far` or more apart never come into one region by themselves."""

    def __init__(self, shift, create, merge, least=2, num=1, den=6):
        self.numbers = shift, create, merge, least, num, den
        self.unit, self.create, self.merge = 1 << shift, create, merge
        self.far = 2 * create + merge + 1


class Texts:
    """A world and a script in the making."""

    def __init__(self, rng, grid):
        self.rng, self.grid = rng, grid
        self.version = rng.choice((1, 2))
        self.world, self.script = [], []
        self.blocks, self.entity_count = set(), 0

    def block(self, at):
        if at not in self.blocks:
            self.blocks.add(at)
            self.world.append(f"block {words(at)} {self.rng.randint(0, 65_535)}")

    def entity(self, at, vx, vz):
        self.entity_count += 1
        self.world.append(f"entity {self.entity_count} {words(at)} {vx} {vz}")
        return self.entity_count

    def line(self, line):
        self.script.append(line)

    def run(self, ticks, inside=()):
        self.script += [f"run {ticks}", *inside, "end"]

    def texts(self):
        self.rng.shuffle(self.world)
        grid = "grid " + words(self.grid.numbers)
        return tuple("".join(f"{line}\n" for line in lines) for lines in ([f"world {self.version}", grid, *self.world], self.script))


class Place:
    """Some chunks, the entities that begin there, and what may be asked of them."""

    def __init__(self, texts, chunks, far=(), speed=16):
        self.rng, self.texts, self.chunks = texts.rng, texts, chunks
        # Chunks that are loaded again and again and never unloaded, and chunks that are kept loaded.
        self.far, self.kept = list(far), set()
        self.entities = [texts.entity(self.at(), *self.velocity(speed)) for _ in range(self.rng.randint(0, 4))]
        for _ in range(self.rng.randint(0, 6)):
            texts.block(self.at())

    def velocity(self, speed):
        return self.rng.randint(-speed, speed), self.rng.randint(-speed, speed)

    def chunk(self):
        return self.rng.choice(self.chunks)

    def at(self):
        """One of a few blocks, so that tasks meet there."""
        return block_in(self.chunk(), self.rng.choice((0, 7, 15)), self.rng.choice((0, 64, 255)), self.rng.choice((0, 15)))

    def loaded(self):
        return self.rng.choice(self.far) if self.far and self.rng.random() < 0.2 else self.chunk()

    def unloaded(self):
        chunk = self.chunk()
        return (EDGE, EDGE) if chunk in self.kept else chunk

    def action(self, posts=MOST_POSTS - 1):
        kind = self.rng.choice(("set", "set", "copy", "load", "unload", "post", "send", "foreign"))
        if kind == "set":
            return f"set {words(self.at())} {self.rng.randint(0, 65_535)}"
        if kind == "copy":
            return f"copy {words(self.at())} {words(self.at())}"
        if kind == "load":
            return f"load {words(self.loaded())}"
        if kind == "unload":
            return f"unload {words(self.unloaded())}"
        if kind == "send" and self.entities:
            return f"send {self.rng.choice(self.entities)} {words(self.at())}"
        if kind == "post" and posts:
            return f"post {words(self.chunk())} {self.delay()} {self.action(posts - 1)}"
        return "set -15999999 3 -15999999 1"

    def delay(self):
        return 1_000_000 if self.rng.random() < 0.02 else self.rng.randint(1, 9)

    def post(self):
        if self.texts.version == 2 and self.rng.random() < 0.3:
            return f"every {words(self.chunk())} {self.delay()} {self.rng.randint(1, 4)} {self.rng.randint(1, 12)} {self.action()}"
        return f"post {words(self.chunk())} {self.delay()} {self.action()}"

    def line(self):
        kind = self.rng.random()
        if kind < 0.25:
            return f"load {words(self.loaded())}"
        if kind < 0.4:
            return f"unload {words(self.unloaded())}"
        return self.post()


def words(numbers):
    return " ".join(str(number) for number in numbers)


def block_in(chunk, dx, y, dz):
    return 16 * chunk[0] + dx, y, 16 * chunk[1] + dz


def chunks_in(rng, grid, section, width, count):
    """Some chunks of a square of sections that begins at this one."""
    corner = [grid.unit * part for part in section]
    side = grid.unit * width
    return list({(corner[0] + rng.randrange(side), corner[1] + rng.randrange(side)) for _ in range(count)})


def first_of(grid, section):
    """The first chunk of a section."""
    return grid.unit * section[0], grid.unit * section[1]


def cells(rng, width, count, pitch_z):
    """Where so many squares begin, each with the room of so many sections."""
    left, top = rng.randint(-40, 10), rng.randint(-40, 10)
    return [(left + width * (at % 4), top + pitch_z * (at // 4)) for at in range(count)]


def near_grid(rng):
    return Grid(rng.choice((0, 0, 1, 2, 4)), rng.randint(1, 2), rng.randint(1, 3), *cleaning(rng))


def cleaning(rng):
    return rng.choice((1, 2, 9, 30, 200)), *rng.choice(((1, 6), (0, 1), (1, 2), (1, 1), (1000, 1)))


# ---- kinds whose last state does not depend on the order


def islands(rng):
    """Each region keeps to a square in which it never parts; tasks load, unload, post and send within it, and load chunks that none sees."""
    grid = near_grid(rng)
    texts = Texts(rng, grid)
    side, far = grid.far, grid.far
    places = []
    for x, z in cells(rng, side + 2 * far, rng.choice((2, 6, 20, 60)), side + far):
        alone = chunks_in(rng, grid, (x + side - 1 + far, z), 1, 2)
        places.append(Place(texts, chunks_in(rng, grid, (x, z), side, rng.randint(1, 8)), alone))
    for _ in range(rng.randint(3, 8)):
        texts.script += [rng.choice(places).line() for _ in range(rng.randint(5, 200))]
        texts.run(rng.randint(1, 20))
    return texts


def bridges(rng):
    """Two squares each, joined and parted between the phases by a chunk in the middle, with tasks that keep to their square."""
    grid = near_grid(rng)
    texts = Texts(rng, grid)
    side, gap = rng.randint(1, grid.far), rng.randint(grid.far, 2 * (grid.far - 1))
    places, middles = [], []
    for x, z in cells(rng, 2 * side + gap + grid.far, rng.choice((2, 8, 30)), side + grid.far):
        right = x + side + gap - 1
        for left, kept in ((x, (x + side - 1, z)), (right, (right, z))):
            place = Place(texts, chunks_in(rng, grid, (left, z), side, rng.randint(1, 5)) + [first_of(grid, kept)])
            place.kept.add(place.chunks[-1])
            texts.line(f"load {words(place.chunks[-1])}")
            places.append(place)
        middles.append(first_of(grid, (x + side - 1 + (gap + 1) // 2, z)))
    for _ in range(rng.randint(4, 12)):
        lines = [rng.choice(places).line() for _ in range(rng.randint(5, 120))]
        lines += [f"{rng.choice(('load', 'unload'))} {words(middle)}" for middle in middles]
        rng.shuffle(lines)
        texts.script += lines
        texts.run(rng.randint(1, 9))
    return texts


class Harbour:
    """One kept chunk: blocks that are set once each, entities that stand still, and chunks near and far."""

    def __init__(self, texts, section):
        rng, grid = texts.rng, texts.grid
        x, z = section
        self.chunk, self.texts, self.set_count = first_of(grid, section), texts, 0
        self.alone = first_of(grid, (x + 3 * grid.far, z))
        self.pier = first_of(grid, (x + rng.randint(1, grid.far - 1), z))
        self.entities = [texts.entity(block_in(self.chunk, 1, 1, 1), 0, 0) for _ in range(rng.randint(0, 3))]
        self.pier_goes = rng.random() < 0.5
        texts.script += [f"load {words(self.chunk)}"] + [f"load {words(self.pier)}"] * self.pier_goes

    def set(self):
        self.set_count += 1
        count = self.set_count
        return f"set {words(block_in(self.chunk, count % 16, count // 256, count // 16 % 16))} {1 + count}"

    def action(self, others):
        """Something whose place in the order does not matter."""
        rng, other = self.texts.rng, self.texts.rng.choice(others)
        kind = rng.randrange(6)
        if kind == 0 and self.entities:
            return f"send {self.entities.pop()} {words(block_in(other.chunk, rng.randrange(16), 2, 3))}"
        if kind == 1:
            return f"load {words(other.chunk)}"
        if kind < 4:
            return f"post {words(other.chunk)} {rng.randint(1, 3)} {other.action_of_two(others)}"
        return self.set()

    def action_of_two(self, others):
        """The same, or one that another harbour sets a block for."""
        other = self.texts.rng.choice(others)
        return f"post {words(other.chunk)} {self.texts.rng.randint(1, 3)} {other.set()}" if self.texts.rng.random() < 0.4 else self.set()

    def post(self, others):
        rng = self.texts.rng
        head = f"{words(self.chunk)} {rng.randint(1, 3)}"
        if self.texts.version == 2 and rng.random() < 0.2:
            return f"every {head} {rng.randint(1, 2)} {rng.randint(1, 3)} {self.set()}"
        return f"post {head} {self.action(others)}"

    def inside(self, others):
        """Lines inside the first phase."""
        yield from (self.post(others) for _ in range(self.texts.rng.randint(0, 12)))
        yield f"load {words(self.alone)}"
        yield f"{'unload' if self.pier_goes else 'load'} {words(self.pier)}"
        yield f"unload {EDGE} {words(self.chunk[1:])}"


def harbours(rng):
    """Lines inside a run, and tasks that post, send and load from region to region, all of which commute and come to their end."""
    grid = near_grid(rng)
    texts = Texts(rng, grid)
    others = [Harbour(texts, section) for section in cells(rng, 6 * grid.far, rng.choice((2, 12, 40)), 3 * grid.far)]
    for harbour in others:
        texts.script += [harbour.post(others) for _ in range(rng.randint(0, 12))]
    inside = [line for harbour in others for line in harbour.inside(others)]
    rng.shuffle(inside)
    texts.run(rng.randint(3, 12), inside)
    for _ in range(5):
        texts.run(8)
    return texts


def full(rng):
    """A table of sections without room: whatever would need another section is refused, in phases too, until a region goes."""
    create = rng.choice((2, 3, 8))
    grid = Grid(rng.choice((0, 3)), create, rng.randint(1, 4), 2, 1, 6)
    texts = Texts(rng, grid)
    room = (2 * create + 1) ** 2
    count = 16_384 // room
    chunks = [first_of(grid, (grid.far * (at % 50), grid.far * (at // 50))) for at in range(count)]
    beyond = [first_of(grid, (grid.far * at, -2 * grid.far)) for at in range(5)]
    texts.script += [f"load {words(chunk)}" for chunk in chunks + beyond]
    for chunk in rng.sample(chunks, min(count, 40)):
        mover = texts.entity(block_in(chunk, 5, 5, 5), rng.randint(-3, 3), 1)
        other = words(rng.choice(beyond))
        far_block = words(block_in(beyond[0], 0, 0, 0))
        for action in rng.sample((f"load {other}", f"post {other} 2 set {far_block} 5", f"send {mover} {far_block}", f"unload {other}", f"load {words(chunk)}"), 3):
            texts.line(f"post {words(chunk)} {rng.randint(1, 3)} {action}")
    texts.run(3, [f"load {words(rng.choice(beyond))}", f"post {words(beyond[1])} 1 load 0 0"])
    texts.script += [f"unload {words(chunks[-1])}", f"load {words(beyond[2])}"]
    texts.run(2)
    texts.script += [f"load {words(beyond[2])}", f"load {words(beyond[3])}"]
    texts.run(1)
    return texts


# ---- kinds where the order may decide


def melee(rng):
    """A few regions on little ground that merge, part, send and post across as it comes."""
    grid = Grid(rng.choice((0, 0, 0, 1, 3)), rng.choice((1, 1, 2, 3)), rng.randint(1, 4), *cleaning(rng))
    texts = Texts(rng, grid)
    side = rng.randint(2, 8) * grid.far
    chunks = chunks_in(rng, grid, (rng.randint(-side, 0), rng.randint(-side, 0)), side, rng.randint(4, 60))
    places = [Place(texts, chunks) for _ in range(rng.randint(1, 6))]
    for _ in range(rng.randint(4, 20)):
        texts.script += [rng.choice(places).line() for _ in range(rng.randint(5, 100))]
        texts.run(rng.randint(1, 20), [rng.choice(places).line() for _ in range(rng.choice((0, 3, 80)))])
    return texts


def straits(rng):
    """A row of chunks with a chunk between each two that comes and goes, by lines inside runs and by tasks."""
    grid = Grid(rng.choice((0, 1)), 1, rng.randint(1, 2), *cleaning(rng))
    texts = Texts(rng, grid)
    count = rng.randint(4, 40)
    lands = [first_of(grid, ((grid.far + 1) * at, 0)) for at in range(count)]
    middles = [first_of(grid, ((grid.far + 1) * at + grid.far // 2 + 1, 0)) for at in range(count - 1)]
    texts.script += [f"load {words(land)}" for land in lands]
    for land in lands:
        texts.entity(block_in(land, 8, 64, 8), rng.randint(-16, 16), 0)

    def line():
        what, middle, land = rng.choice(("load", "load", "unload")), words(rng.choice(middles)), words(rng.choice(lands))
        kind = rng.randrange(4)
        if kind == 0:
            return f"{what} {middle}"
        if kind == 1:
            return f"post {land} {rng.randint(1, 4)} set {words(block_in(rng.choice(lands), 0, 0, 0))} {rng.randint(0, 9)}"
        return f"post {land} {rng.randint(1, 4)} {rng.choice(('', f'post {middle} 2 '))}{what} {middle}"

    for _ in range(rng.randint(4, 20)):
        texts.script += [line() for _ in range(rng.randint(2, 60))]
        texts.run(rng.randint(1, 12), [line() for _ in range(rng.choice((0, 10, 80)))])
    return texts


def border(rng):
    """Regions come and go, by lines inside runs and by tasks, where the table of sections has hardly room."""
    create = rng.choice((4, 8))
    grid = Grid(rng.choice((0, 2, 5)), create, rng.randint(1, 4), *cleaning(rng))
    texts = Texts(rng, grid)
    pitch = rng.choice((grid.far, grid.far, 2 * create))
    count = 16_384 // (2 * create + 1) ** 2 + rng.randint(3, 30)
    chunks = [first_of(grid, (pitch * (at % 16), pitch * (at // 16))) for at in range(count)]
    texts.script += [f"load {words(chunk)}" for chunk in chunks]
    place = Place(texts, chunks)
    for _ in range(rng.randint(2, 4)):
        texts.script += [place.line() for _ in range(60)]
        texts.run(rng.randint(1, 4), [place.line() for _ in range(60)])
    return texts


def wide(rng):
    """The widest sections and margins, out to the last chunks of the world."""
    grid = Grid(rng.randint(3, 5), rng.randint(1, 8), rng.randint(1, 4), *cleaning(rng))
    texts = Texts(rng, grid)
    edges = (-EDGE, -EDGE + 40, EDGE - 40 * grid.unit, EDGE)
    chunks = [(rng.choice(edges), rng.choice(edges)) for _ in range(6)] + chunks_in(rng, grid, (-20, -20), 40, 30)
    place = Place(texts, chunks)
    for _ in range(rng.randint(2, 5)):
        texts.script += [place.line() for _ in range(rng.randint(5, 60))]
        texts.run(rng.randint(1, 6), [place.line() for _ in range(rng.choice((0, 30)))])
    return texts


FIXED = {make.__name__: make for make in (islands, bridges, harbours, full)}
FREE = {make.__name__: make for make in (melee, straits, border, wide)}


def made(kind, seed):
    """The world text and the script text of this kind and seed."""
    return {**FIXED, **FREE}[kind](random.Random(f"{kind} {seed}")).texts()


def write(folder, kind, seed):
    """Writes both texts."""
    folder = Path(folder)
    folder.mkdir(parents=True, exist_ok=True)
    for name, text in zip(("world.txt", "script.txt"), made(kind, seed)):
        (folder / name).write_text(text)


if __name__ == "__main__":
    if len(sys.argv) != 4 or sys.argv[2] not in {**FIXED, **FREE}:
        sys.exit(f"{__doc__}\nKinds: {', '.join((*FIXED, *FREE))}")
    write(*sys.argv[1:])
