"""Prints a random list of calls for perform.py.

    random_calls.py [--no-search | --no-files] SEED COUNT

COUNT lines, the same ones for the same SEED: small jobs of every kind and
bound, masks, refusals of every number that a list of calls can meet, sittings
of every length, job files good and damaged, and lines that are no calls.
--no-search leaves out all but open, add, charge, narrow, weigh, what-if and
lines that are no calls; --no-files leaves out job files.
"""

import random
import sys

from perform import Performer
from planner import low_first, positions

MOST_SETUPS = 200          # keeps the longest search short
KINDS = ("count", "sum", "worst", "ranked")
BOUNDS = ("past", "forward", "directed")
JOB_NUMBERS = (0, 1, 7, 4294967295)
ODD_BYTES = (0, 1, 2, 3, 7, 8, 9, 19, 20, 21, 200, 255)
CLASHES = (0, 1, 1, 2, 9, 10, 500, 998, 999, 1000, 1000)

# No calls whatever the job.
NO_CALLS = (
    "jump 3", "weigh x", "add", "add -1", "add 256", "add 2 2", "add two",
    "charge 1 2", "charge 0 0 1 0", "charge 0 0 1 0 65536",
    "charge 0 0 1 0 1 1", "charge 256 0 1 0 1", "charge 0 0 1 256 1",
    "narrow 1", "narrow 0 256", "narrow 0 1 1", "narrow 256 1", "what-if",
    "what-if 0", "what-if 0 256 0", "what-if 256 0 0", "what-if 0 0 0 256",
    "weigh 256", "weigh 0 -1", "weigh" + " 0" * 21, "what-if 0 0" + " 0" * 21,
    "weigh 99999999999999999999999", "open", "open 1", "open 1 count plain",
    "open 4294967296 count plain past", "open 1 most plain past",
    "open 1 sum neither past", "open 1 worst plain present",
    "open 1 ranked both past", "open 1 sum both higher past forward",
    "open 1 count both higher directed past", "open 1 count plain higher",
    "open 1 count plain higher past", "open 1 count plain past past",
    "open 1 count plain higher past past past", "open x sum plain past",
    "Add 2", "addd 2", "-> ok", "weigh 1.5", "0", "add 0x2",
)
# No calls whatever the job, where there are searches and files too.
NO_SEARCH_CALLS = (
    "start", "start x", "start 1 1 1", "start 4294967296 0",
    "start 65536 0", "ahead", "ahead 1 1 1", "sit", "sit x", "sit 1 7",
    "sit 4294967296", "sit 1 ticket", "sit 1 ticket 4294967296",
    "sit 1 ticket 1 1", "close 7", "close ticket", "close ticket x",
    "close ticket 4294967296", "write 1", "load 100", "load 0g", "load -1",
    "floor" + " 0" * 21, "floor 256", "floor x", "floor-with", "floor-with 1",
    "floor-with 256 0 0", "floor-with 1 0" + " 0" * 21, "ticket 1",
)


class Maker:
    def __init__(self, seed, search, files):
        self.rng = random.Random(seed)
        self.search, self.files = search, files
        self.performer = Performer()       # knows what the lines have made

    # -- what there is

    @property
    def job(self):
        return self.performer.job

    @property
    def modules(self):
        return self.job.modules

    def chance(self, part):
        return self.rng.random() < part

    def lines(self):
        """Lines without end.  Sittings change nothing that is looked at here,
        so they are not made."""
        if self.chance(0.2):
            yield from (self.any_call() for _ in range(3))
        while True:
            for line in self.episode():
                if not line.startswith("sit "):
                    for _ in self.performer.run_one(line):
                        pass
                yield line
                if self.chance(0.04):
                    yield self.no_call()
                if self.chance(0.01):
                    yield self.rng.choice(("", " ", "# a remark", "#"))

    def episode(self):
        """The life of one job, each line made when those before it are done."""
        yield self.open()
        if self.search and self.files and self.chance(0.3):
            for _ in range(self.rng.randint(1, 4)):
                yield self.load()
        for _ in range(self.rng.choice((0, 1, 2, 2, 3, 3, 4, 4, 5, 6, 6, 22))):
            yield self.add()
        density = self.rng.choice((0.1, 0.3, 0.6, 0.9))
        clashes = self.rng.sample(CLASHES, 3) + [self.rng.randint(1, 1000)]
        pairs = [(i, k, j, l) for j in range(len(self.modules)) for i in range(j)
                 for k in range(self.modules[i].settings)
                 for l in range(self.modules[j].settings)
                 if self.chance(density)]
        for pair in self.rng.sample(pairs, min(len(pairs), 60)):
            yield "charge %d %d %d %d " % pair + str(self.rng.choice(clashes))
        for _ in range(self.rng.randint(0, 3)):
            yield self.narrow()
        for _ in range(self.rng.randint(3, 40)):
            yield self.any_call()

    def any_call(self):
        if not self.job:
            return self.rng.choice(
                ["add 2", "charge 0 0 1 0 1", "narrow 0 1", "weigh 0", "weigh",
                 "what-if 0 0 0"] +
                self.search * ["floor 0", "start 1", "sit 1", "close",
                               "ahead 1", "floor-with 1 0 0"] +
                (self.search and self.files) * ["write", "load 00 00 00"])
        plain = [self.weigh, self.weigh, self.what_if, self.what_if,
                 self.charge, self.charge, self.narrow, self.add]
        if not self.search:
            return self.rng.choice(plain)()
        asking = [self.floor, self.floor_with] + self.files * [self.write, self.load]
        if self.job.search:
            walking = [self.sit] * 8 + [self.close] * 2 + [self.start]
        else:
            walking = [self.start] * 6 + [self.sit, self.close]
        return self.rng.choice(self.rng.choice((plain, asking, walking, walking,
                                                walking)))()

    # -- numbers, mostly good

    def module(self):
        if self.modules and self.chance(0.85):
            return self.rng.randrange(len(self.modules))
        return self.rng.choice(ODD_BYTES + (len(self.modules),))

    def setting(self, j):
        if j < len(self.modules) and self.chance(0.9):
            if self.chance(0.8):
                return self.rng.choice(self.job.allowed(j))
            return self.rng.randrange(self.modules[j].settings)
        return self.rng.choice(ODD_BYTES)

    def row(self, length):
        if self.chance(0.1):
            length = self.rng.randint(0, 20)
        odd = self.chance(0.15)
        return " ".join(str(
            self.setting(j) if odd else
            self.rng.randrange(self.modules[j].settings)
            if j < len(self.modules) else self.rng.choice(ODD_BYTES))
            for j in range(length))

    def beginning(self):
        length = self.rng.randint(0, len(self.modules))
        if self.chance(0.15):
            return self.row(length)
        return " ".join(str(self.rng.choice(self.job.allowed(j)))
                        for j in range(length))

    def ceiling(self):
        count = self.rng.choice((0, 1, 1, 2, 3, 5, 65533, 65534, 65535, 65535))
        soft = self.rng.choice((0, 1, 50, 500, 999, 1000, 1001, 1500, 3000,
                                65535, 4294967294, 4294967295, 4294967295))
        name = KINDS.index(self.kind)
        if self.chance(0.03):
            name = self.rng.randrange(4)
        return (str(count), str(soft), str(min(soft, 65535)),
                f"{count} {soft}")[name]

    def ticket(self):
        if self.chance(0.8):
            return ""
        other = self.rng.choice(JOB_NUMBERS)
        return f" ticket {self.rng.choice((self.job.number, other))}"

    # -- calls

    def open(self):
        number = self.rng.choice(JOB_NUMBERS + (self.rng.randrange(2 ** 32),))
        self.kind = self.rng.choice(KINDS)
        both = self.chance(0.65)
        bounds = BOUNDS[1:] if both else BOUNDS
        bound = self.rng.choice(bounds)
        if self.chance(0.35):
            bound = f"higher {bound} {self.rng.choice(bounds)}"
        return f"open {number} {self.kind} {('plain', 'both')[both]} {bound}"

    def add(self):
        if self.chance(0.06):
            return f"add {self.rng.choice((0, 9, 10, 128, 255))}"
        setups = 1
        for module in self.modules:
            setups *= module.settings
        room = max(1, min(8, MOST_SETUPS // setups))
        return f"add {self.rng.randint(1, self.rng.choice((1, room, room)))}"

    def charge(self):
        i, j = self.module(), self.module()
        if i > j and self.chance(0.8):
            i, j = j, i
        clash = self.rng.choice(CLASHES + (742, 1001, 1001, 65535))
        return f"charge {i} {self.setting(i)} {j} {self.setting(j)} {clash}"

    def narrow(self):
        j = self.module()
        most = 255
        if j < len(self.modules) and self.chance(0.85):
            most = 2 ** self.modules[j].settings - 1
        mask = 0 if self.chance(0.08) else self.rng.randint(1, most)
        return f"narrow {j} {mask}"

    def weigh(self):
        return ("weigh " + self.row(len(self.modules))).strip()

    def what_if(self):
        j = self.module()
        row = self.row(len(self.modules)).split()
        if j < len(row) and self.chance(0.2):
            row[j] = "255"                 # the old byte is ignored
        return " ".join(["what-if", str(j), str(self.setting(j))] + row)

    def floor(self):
        return ("floor " + self.beginning()).strip()

    def floor_with(self):
        beginning = self.beginning()
        j = self.module()
        later = range(len(beginning.split()), len(self.modules))
        if later and self.chance(0.8):
            j = self.rng.choice(later)
        return f"floor-with {j} {self.setting(j)} {beginning}".strip()

    def start(self):
        ahead = self.chance(0.6 if self.job.both else 0.05)
        return f"{('start', 'ahead')[ahead]} {self.ceiling()}"

    def sit(self):
        steps = self.rng.choice((1, 1, 2, 2, 3, 4, 5, 10, self.rng.randint(1, 60),
                                 100, 1000, 100000, 4294967295))
        if self.chance(0.04):
            steps = 0
        return f"sit {steps}{self.ticket()}"

    def close(self):
        return f"close{self.ticket()}"

    def write(self):
        return "write"

    def load(self):
        data = self.file()
        if self.chance(0.6):
            self.damage(data)
        return ("load " + bytes(data).hex(" ")).strip()

    def file(self):
        settings, setups = [], 1
        for _ in range(self.rng.randint(0, 5)):
            room = max(1, min(8, MOST_SETUPS // setups))
            settings.append(self.rng.randint(1, room))
            setups *= settings[-1]
        places = positions(settings)
        places = sorted(self.rng.sample(places, min(
            len(places), self.rng.choice((0, 1, 3, 10, 30)))))
        data = [len(settings)] + settings + low_first(len(places))
        for place in places:
            data += low_first(place)
        for _ in places:
            data += low_first(self.rng.choice(CLASHES[1:]))
        return data

    def damage(self, data):
        """Cut it off, add to it, change a byte of its sizes, of anything, or
        its last clash, or repeat its first position."""
        way = self.rng.randrange(6)
        if way == 0:
            del data[self.rng.randrange(len(data)):]
        elif way == 1:
            data += [self.rng.randrange(256)] * self.rng.randint(1, 3)
        elif way == 2:
            place = self.rng.randrange(min(len(data), 8))
            data[place] = self.rng.choice((0, 1, 9, 20, 21, 47, 48, 128, 255))
        elif way == 3:
            place = self.rng.randrange(len(data))
            data[place] = self.rng.choice((0, 1, 3, 4, 64, 232, 233, 255))
        elif way == 4:
            data[-2:] = self.rng.choice(((0, 0), (232, 3), (233, 3), (0, 4)))
        else:
            head = 3 + data[0]
            data[head + 2:head + 4] = data[head:head + 2]

    def no_call(self):
        return self.rng.choice(NO_CALLS + self.search * NO_SEARCH_CALLS)


def main(words):
    search, files = "--no-search" not in words, "--no-files" not in words
    seed, count = (int(word) for word in words if not word.startswith("--"))
    lines = Maker(seed, search, files).lines()
    for _ in range(count):
        print(next(lines))


if __name__ == "__main__":
    main(sys.argv[1:])
