#!/usr/bin/env python3
"""Tells whether a report can be the report of its world and its script, by a replay of its events by the rules.

    bench/replay.py WORLD SCRIPT REPORT WORKERS

It shares no line with the program: it goes through the events one by one, tells for each whether the rules of docs/MODEL.md allow it with
its answer, and compares the rows behind the events with the world that it comes to.
"""

import sys

SECTION_LIMIT = 16_384
TICK_LIMIT = 10_000
READY, TRANSIENT, TICKING = "ready", "transient", "ticking"


class Wrong(Exception):
    """What is wrong with a report."""


def need(holds, *words):
    if not holds:
        raise Wrong(" ".join(str(word) for word in words))


# ---- words


class Words:
    """The words of a line, taken one by one."""

    def __init__(self, words):
        self.words, self.place = words, 0

    def word(self):
        need(self.place < len(self.words), "a line ends too early")
        self.place += 1
        return self.words[self.place - 1]

    def number(self):
        word = self.word()
        need(word.removeprefix("-").isdigit() and word == str(int(word)), word, "is no number")
        return int(word)

    def count(self):
        number = self.number()
        need(number >= 0, number, "is no count")
        return number

    def numbers(self, count):
        return tuple(self.number() for _ in range(count))

    def action(self):
        """An action as a tuple: its word, then its fields, positions and inner actions as tuples."""
        word = self.word()
        if word in ("load", "unload"):
            return word, self.numbers(2)
        if word == "set":
            return word, self.numbers(3), self.number()
        if word == "copy":
            return word, self.numbers(3), self.numbers(3)
        if word in ("send", "arrive"):
            return word, self.number(), self.numbers(3)
        if word == "post":
            return word, self.numbers(2), self.number(), self.action()
        need(word == "every", word, "is no action")
        return word, self.number(), self.number(), self.action()

    def end(self):
        need(self.place == len(self.words), "a line goes on:", *self.words)


def shown(value):
    """The words of an action."""
    if isinstance(value, tuple):
        return " ".join(shown(part) for part in value)
    return str(value)


def plain(action):
    """What a task does: of a repeating one, what it repeats."""
    return action[3] if action[0] == "every" else action


def chunk_of(block):
    return block[0] >> 4, block[2] >> 4


def by_row(place):
    return place[1], place[0]


# ---- the world


class Region:
    def __init__(self, number, tick=0, owed=0):
        self.number, self.state, self.tick, self.owed = number, READY, tick, owed
        self.sections = set()
        self.waits = set()


class Task:
    def __init__(self, number, chunk, rest, action):
        self.number, self.chunk, self.rest, self.action = number, chunk, rest, action


class Wish:
    """What a tick asks to be accepted at its end; `back` is the block that a sent entity left."""

    def __init__(self, chunk, delay, action, back=None):
        self.chunk, self.delay, self.action, self.back = chunk, delay, action, back


class OpenTick:
    """A tick between its begin and its end, and the answers of its loads and unloads so far."""

    def __init__(self, region, chunks, due):
        self.region, self.chunks, self.due = region, chunks, due
        self.asked = [task for task in due if plain(task.action)[0] in ("load", "unload")]
        self.answers = {}


class World:
    def __init__(self, grid, blocks, entities):
        self.shift, self.create, self.merge, self.least, self.num, self.den = grid
        self.tickets, self.holds = {}, {}
        self.chunks_in = {}  # section: its loaded chunks
        self.support = {}  # section: how many sections with loaded chunks have it in their margin
        self.owner = {}  # section: the number of its region
        self.regions, self.next_region = {}, 1
        self.transient = set()
        self.tasks_in, self.next_task = {}, 1  # section: its queued tasks by number
        self.blocks = blocks
        self.speed = {number: speed for number, (_, speed) in entities.items()}
        self.places, self.entities_in = {}, {}
        for number, (block, _) in entities.items():
            self.put_entity(number, block)
        self.ticks = {}  # worker: its open tick
        self.in_phase, self.phase_ticks, self.finished = False, 0, False

    # ---- holds and regions

    def section(self, chunk):
        return chunk[0] >> self.shift, chunk[1] >> self.shift

    @staticmethod
    def around(section, radius):
        x, z = section
        return [(x + dx, z + dz) for dz in range(-radius, radius + 1) for dx in range(-radius, radius + 1)]

    def add_hold(self, chunk):
        """The answer to one hold more: nothing, or the two numbers where there is no room."""
        section = self.section(chunk)
        wanted = [place for place in self.around(section, self.create) if place not in self.owner]
        if len(self.owner) + len(wanted) > SECTION_LIMIT:
            return len(self.owner), len(wanted)
        self.holds[chunk] = self.holds.get(chunk, 0) + 1
        chunks = self.chunks_in.setdefault(section, set())
        if not chunks:
            self.support_margin(section, 1)
        chunks.add(chunk)
        if wanted:
            self.own(wanted, section)
        return None

    def own(self, wanted, section):
        """These sections come, near this one."""
        near = {self.owner[place] for place in self.around(section, self.create + self.merge) if place in self.owner}
        idle = sorted(number for number in near if self.regions[number].state != TICKING)
        if idle:
            target = self.regions[min(idle, key=lambda number: (-len(self.regions[number].sections), number))]
        else:
            target = self.new_region(0, 0)
        for number in idle:
            if number != target.number:
                self.join(self.regions[number], target)
        for place in wanted:
            self.owner[place] = target.number
        target.sections.update(wanted)
        target.waits.update(number for number in near if number not in idle)
        self.settle(target)

    def new_region(self, tick, owed):
        region = Region(self.next_region, tick, owed)
        self.regions[region.number] = region
        self.next_region += 1
        return region

    def join(self, region, target):
        """The region becomes part of the target."""
        for place in region.sections:
            self.owner[place] = target.number
        target.sections |= region.sections
        target.waits |= region.waits
        target.waits.discard(target.number)
        target.owed = max(target.owed, region.owed)
        self.transient.discard(region.number)
        del self.regions[region.number]

    def settle(self, region):
        region.state = TRANSIENT if region.waits else READY
        (self.transient.add if region.waits else self.transient.discard)(region.number)

    def support_margin(self, section, change):
        for place in self.around(section, self.create):
            count = self.support.get(place, 0) + change
            if count:
                self.support[place] = count
            else:
                del self.support[place]

    def drop_hold(self, chunk):
        self.holds[chunk] -= 1
        if self.holds[chunk] == 0:
            del self.holds[chunk]
            section = self.section(chunk)
            self.chunks_in[section].discard(chunk)
            if not self.chunks_in[section]:
                del self.chunks_in[section]
                self.support_margin(section, -1)

    def release(self, region):
        waiting = sorted(number for number in self.transient if region.number in self.regions[number].waits)
        for number in waiting:
            self.join(self.regions[number], region)
        self.settle(region)
        if region.waits:
            return
        dead = [place for place in region.sections if place not in self.support]
        size = len(region.sections)
        if waiting or len(dead) == size or (size >= self.least and len(dead) * self.den >= size * self.num):
            self.clean(region, dead)

    def clean(self, region, dead):
        """The dead sections go, and each part of the others becomes a region where there are several."""
        for place in dead:
            del self.owner[place]
        region.sections.difference_update(dead)
        parts = self.parts(region.sections)
        if len(parts) != 1:
            del self.regions[region.number]
            for part in parts:
                new = self.new_region(region.tick, region.owed)
                new.sections = part
                for place in part:
                    self.owner[place] = new.number

    def parts(self, sections):
        rest, parts = set(sections), []
        for first in sorted(sections, key=by_row):
            if first in rest:
                rest.discard(first)
                part, ahead = {first}, [first]
                while ahead:
                    found = rest.intersection(self.around(ahead.pop(), self.merge))
                    rest -= found
                    part |= found
                    ahead += found
                parts.append(part)
        return parts

    # ---- tasks and entities

    def accept(self, chunk, delay, action):
        """The number of the task, or the two numbers where there is no room."""
        full = self.add_hold(chunk)
        if full:
            return None, full
        task = Task(self.next_task, chunk, delay, action)
        self.next_task += 1
        self.tasks_in.setdefault(self.section(chunk), {})[task.number] = task
        return task.number, None

    def put_entity(self, number, block):
        self.places[number] = block
        self.entities_in.setdefault(chunk_of(block), set()).add(number)

    def take_entity(self, number):
        self.entities_in[chunk_of(self.places[number])].discard(number)

    def take_due(self, region):
        """A tick of the region begins: its tasks come nearer, and those that are due leave."""
        due = []
        for place in region.sections & self.tasks_in.keys():
            tasks = self.tasks_in[place]
            for task in tasks.values():
                task.rest -= 1
            ripe = [task for task in tasks.values() if task.rest == 0]
            for task in ripe:
                del tasks[task.number]
            if not tasks:
                del self.tasks_in[place]
            due += ripe
        return sorted(due, key=lambda task: task.number)

    def act(self, tick, task, wishes):
        """What a task of a tick comes to."""
        action = plain(task.action)
        outcome = getattr(self, "do_" + action[0])(tick, task, wishes, *action[1:])
        if task.action[0] == "every" and task.action[2] >= 2:
            _, period, left, inner = task.action
            wishes.append(Wish(task.chunk, period, ("every", period, left - 1, inner)))
        return outcome

    def do_set(self, tick, _task, _wishes, at, number):
        if chunk_of(at) not in tick.chunks:
            return "foreign"
        self.blocks[at] = number
        return "done"

    def do_copy(self, tick, _task, _wishes, at, to):
        if chunk_of(at) not in tick.chunks or chunk_of(to) not in tick.chunks:
            return "foreign"
        self.blocks[to] = self.blocks.get(at, 0)
        return "done"

    def do_load(self, tick, task, _wishes, _chunk):
        return "full" if tick.answers[task.number] == "full" else "done"

    def do_unload(self, tick, task, _wishes, _chunk):
        return "noticket" if tick.answers[task.number] == "noticket" else "done"

    def do_post(self, _tick, _task, wishes, chunk, delay, action):
        wishes.append(Wish(chunk, delay, action))
        return "done"

    def do_send(self, tick, _task, wishes, number, to):
        back = self.places.get(number)
        if not isinstance(back, tuple) or chunk_of(back) not in tick.chunks:
            return "absent"
        self.take_entity(number)
        self.places[number] = None
        wishes.append(Wish(chunk_of(to), 1, ("arrive", number, to), back))
        return "done"

    def do_arrive(self, _tick, _task, _wishes, number, to):
        self.put_entity(number, to)
        return "done"

    def move_entities(self, chunks):
        here = [number for chunk in chunks if chunk in self.entities_in for number in self.entities_in[chunk]]
        for number in sorted(here):
            x, y, z = self.places[number]
            to = x + self.speed[number][0], y, z + self.speed[number][1]
            if to != (x, y, z) and chunk_of(to) in chunks:
                self.take_entity(number)
                self.put_entity(number, to)

    # ---- events

    def load(self, words):
        caller, chunk, answer = words.number(), words.numbers(2), words.word()
        self.asked_by(caller, "load", chunk, answer)
        full = self.add_hold(chunk)
        need(answer == ("full" if full else "counted"), "a load is answered", answer)
        if full:
            need(words.numbers(2) == full, "full is answered with other numbers than", *full)
        else:
            self.tickets[chunk] = self.tickets.get(chunk, 0) + 1

    def unload(self, words):
        caller, chunk, answer = words.number(), words.numbers(2), words.word()
        self.asked_by(caller, "unload", chunk, answer)
        tickets = self.tickets.get(chunk, 0)
        need(answer == ("lowered" if tickets else "noticket"), "an unload is answered", answer)
        if tickets:
            self.tickets[chunk] = tickets - 1
            self.drop_hold(chunk)

    def asked_by(self, caller, word, chunk, answer):
        """A load or an unload is of the script, or of the next task of a tick that asks for one."""
        if caller:
            need(caller in self.ticks and self.ticks[caller].asked, "worker", caller, "asks for nothing")
            tick = self.ticks[caller]
            task = tick.asked.pop(0)
            need(plain(task.action) == (word, chunk), "task", task.number, "asks for something else")
            tick.answers[task.number] = answer

    def post(self, words):
        need(words.number() == 0, "a post is of a worker")
        chunk, delay, answer = words.numbers(2), words.number(), words.word()
        numbers = words.numbers(1 if answer == "posted" else 2)
        number, full = self.accept(chunk, delay, words.action())
        need(answer == ("full" if full else "posted"), "a post is answered", answer)
        need(numbers == (full or (number,)), "a post is answered with", *numbers)

    def open(self, words):
        ticks = words.number()
        self.phase_ticks += ticks
        need(not self.in_phase and ticks >= 1 and self.phase_ticks <= TICK_LIMIT, "no phase of", ticks, "ticks can open")
        self.in_phase = True
        for region in self.regions.values():
            region.owed = ticks

    def close(self, _words):
        need(self.in_phase, "no phase is open")
        late = [region.number for region in self.regions.values() if region.state != READY or region.owed]
        need(not late, "the phase closes before the regions", *late)
        self.in_phase = False
        self.keeps_margins()

    def begin(self, words):
        worker, number = words.numbers(2)
        region = self.regions.get(number)
        need(worker not in self.ticks, "worker", worker, "has a tick")
        need(region and region.state == READY and region.owed, "region", number, "begins a tick")
        region.state, region.owed = TICKING, region.owed - 1
        chunks = {chunk for place in region.sections & self.chunks_in.keys() for chunk in self.chunks_in[place]}
        margin = {place for chunk in chunks for place in self.around(self.section(chunk), self.create)}
        need(margin <= region.sections, "region", number, "ticks without its margin")
        self.ticks[worker] = OpenTick(region, chunks, self.take_due(region))

    def end(self, words):
        worker, number = words.numbers(2)
        tick = self.ticks.pop(worker, None)
        need(tick and tick.region.number == number and not tick.asked, "no tick of", worker, "and", number, "ends")
        need(words.word() == "tick" and words.number() == tick.region.tick + 1, "region", number, "has another counter")
        wishes = []
        ran = [(task.number, self.act(tick, task, wishes)) for task in tick.due]
        self.move_entities(tick.chunks)
        need(words.word() == "ran", "what ran is not told")
        told = [(words.number(), words.word()) for _ in range(words.count())]
        need(told == ran, "told that", told, "ran, not", ran)
        tick.region.tick += 1
        for task in tick.due:
            self.drop_hold(task.chunk)
        need(words.word() == "accepted" and words.number() == len(wishes), "other than", len(wishes), "are accepted")
        for wish in wishes:
            self.accept_wish(wish, words)
        self.release(tick.region)

    def accept_wish(self, wish, words):
        number, full = self.accept(wish.chunk, wish.delay, wish.action)
        told = (words.word(),) + (words.numbers(2) if full else words.numbers(1))
        need(told == (("full",) + full if full else ("posted", number)), "told that", *told, "came of a task")
        if wish.back and full:
            self.put_entity(wish.action[1], wish.back)
        elif wish.back:
            self.places[wish.action[1]] = number

    def finish(self, _words):
        need(not self.in_phase and not self.ticks, "finished in a phase")
        self.finished = True
        self.keeps_margins()
        self.keeps_apart()

    # ---- what stands

    def keeps_margins(self):
        """Each section of a margin is there."""
        need(self.support.keys() <= self.owner.keys(), "a margin is not there")

    def keeps_apart(self):
        """Where no region ticks, two sections within the merge radius are of one region."""
        ahead = [step for step in self.around((0, 0), self.merge) if step > (0, 0)]
        for (x, z), number in self.owner.items():
            others = {self.owner.get((x + dx, z + dz), number) for dx, dz in ahead}
            need(others == {number}, "regions", number, *others, "are too near")

    def rows(self):
        """The parts of a report behind its events."""
        tasks = sorted((task for tasks in self.tasks_in.values() for task in tasks.values()), key=lambda task: task.number)
        return {
            "regions": [self.region_row(self.regions[number]) for number in sorted(self.regions)],
            "owners": [f"owner {x} {z} {self.owner[x, z]}" for x, z in sorted(self.owner, key=by_row)],
            "tasks": [f"task {task.number} {shown(task.chunk)} {task.rest} {shown(task.action)}" for task in tasks],
            "entities": [self.entity_row(number) for number in sorted(self.places)],
            "blocks": [f"block {shown(at)} {self.blocks[at]}" for at in sorted(self.blocks) if self.blocks[at]],
        }

    def region_row(self, region):
        chunks = sum(len(self.chunks_in.get(place, ())) for place in region.sections)
        return (
            f"region {region.number} {region.state} tick {region.tick} owed {region.owed} "
            f"sections {len(region.sections)} chunks {chunks}"
        )

    def entity_row(self, number):
        place = self.places[number]
        return f"entity {number} at {shown(place)}" if isinstance(place, tuple) else f"entity {number} transit {place}"


EVENTS = {
    word: getattr(World, word) for word in ("load", "unload", "post", "open", "close", "begin", "end", "finish")
}


# ---- texts


def read_world(text):
    """The world that a text opens with."""
    lines = [Words(line.split()) for line in text.splitlines() if line and not line.startswith("#")]
    grid, blocks, entities = None, {}, {}
    for line in lines:
        word = line.word()
        if word == "grid":
            grid = line.numbers(6)
        elif word == "block":
            at = line.numbers(3)
            blocks[at] = line.number()
        elif word == "entity":
            number = line.number()
            entities[number] = line.numbers(3), line.numbers(2)
    return World(grid, blocks, entities)


def read_script(text):
    """What caller 0 asks for, line by line."""
    asked = []
    for line in text.splitlines():
        if line and not line.startswith("#"):
            words = line.split()
            if words[0] == "every":
                words = ["post"] + words[1:4] + words[:1] + words[4:]
            elif words[0] in ("run", "end"):
                words = ["open" if words[0] == "run" else "close"] + words[1:]
            asked.append(words)
    return asked


def asked_in(words):
    """What an event says that caller 0 asked for, in the words of the script; nothing where it is of another caller."""
    word = words[0]
    if word in ("open", "close"):
        return words
    if word not in ("load", "unload", "post") or words[1] != "0":
        return None
    if word == "post":
        behind = 7 if words[5] == "posted" else 8
        return words[:1] + words[2:5] + words[behind:]
    return words[:1] + words[2:4]


PARTS = ("events", "regions", "owners", "tasks", "entities", "blocks")


def read_report(text):
    """The lines of each part of a report."""
    need(text.endswith("\n"), "the report breaks off")
    lines = text[:-1].split("\n")
    need(lines[0] == "report 1" and lines[-1] == "end", "no report")
    place, parts = 1, {}
    for name in PARTS:
        head = Words(lines[place].split(" ") if place < len(lines) else [])
        need(head.word() == name, name, "are missing")
        count = head.count()
        head.end()
        parts[name] = lines[place + 1 : place + 1 + count]
        place += 1 + count
    need(place == len(lines) - 1, "more than the parts of a report")
    return parts


def check(world_text, script_text, report_text, workers):
    """Raises Wrong where the report is not of this world, this script and so many workers. Returns the number of its events."""
    parts = read_report(report_text)
    world, asked = read_world(world_text), iter(read_script(script_text))
    for place, line in enumerate(parts["events"], 1):
        words = line.split(" ")
        try:
            need(words[0] in EVENTS and not world.finished, "no event")
            of_script = asked_in(words)
            need(of_script is None or of_script == next(asked, None), "not the next line of the script")
            if words[0] in ("begin", "end"):
                need(1 <= int(words[1]) <= workers, "no worker", words[1])
            event = Words(words[1:])
            EVENTS[words[0]](world, event)
            event.end()
        except Wrong as wrong:
            raise Wrong(f"event {place}, {line}: {wrong}") from None
    need(world.finished and next(asked, None) is None, "the script did not come to its end")
    for name, rows in world.rows().items():
        need(parts[name] == rows, name, "differ:", *first_difference(parts[name], rows))
    return len(parts["events"])


def first_difference(told, right):
    for a, b in zip(told, right):
        if a != b:
            return f"'{a}'", "in place of", f"'{b}'"
    return len(told), "lines in place of", len(right)


def last_state(report_text):
    """The parts behind the events, with the numbers that the order of the ticks decides in an order of their own.

    Regions are counted in the order of their first sections, tasks by their chunks and there in their order.
    """
    parts = read_report(report_text)
    owners = [line.split() for line in parts["owners"]]
    regions = {}
    for _, _, _, number in owners:
        regions.setdefault(number, str(len(regions) + 1))
    rows = [line.split(maxsplit=2) for line in parts["regions"]]
    tasks = [line.split(maxsplit=4) for line in parts["tasks"]]
    tasks.sort(key=lambda words: (int(words[2]), int(words[3]), int(words[1])))
    numbers = {words[1]: str(place) for place, words in enumerate(tasks, 1)}
    entities = [line.split() for line in parts["entities"]]
    return "\n".join(
        sorted(f"region {regions[number]} {rest}" for _, number, rest in rows)
        + [f"owner {x} {z} {regions[number]}" for _, x, z, number in owners]
        + [f"task {numbers[number]} {x} {z} {rest}" for _, number, x, z, rest in tasks]
        + [" ".join(words[:3] + [numbers[words[3]]] if words[2] == "transit" else words) for words in entities]
        + parts["blocks"]
    )


def main(words):
    if len(words) != 4:
        sys.exit(__doc__)
    texts = []
    for name in words[:3]:
        with open(name, encoding="ascii") as file:
            texts.append(file.read())
    try:
        print(f"{check(*texts, int(words[3]))} events")
    except Wrong as wrong:
        sys.exit(str(wrong))


if __name__ == "__main__":
    main(sys.argv[1:])
