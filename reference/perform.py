"""Reads a list of calls from standard input, one to a line, and prints each
with its answer.

    open NUMBER KIND WALKS BOUND    ok
    add SETTINGS                    module I
    charge I K J L CLASH            ok
    narrow I MASK                   ok
    weigh S0 S1 ..                  charge C
    what-if I K S0 S1 ..            charge C
    floor S0 S1 ..                  charge C
    floor-with J K S0 S1 ..         charge C               (both walks only)
    start CEILING                   ticket NUMBER
    ahead CEILING                   ticket NUMBER          (both walks only)
    sit STEPS [ticket NUMBER]       made M finished|unfinished
    close [ticket NUMBER]           outcome O charge C steps S [setup S0 ..]
    load HEX HEX ..                 ok
    write                           bytes HEX HEX ..

KIND is count, sum, worst or ranked; WALKS is plain or both; BOUND is past,
forward, directed or `higher A B` with two of these.  Any call may answer
`refused NUMBER`.  Blank lines and lines whose first word starts with # are
skipped.  A line that is no call answers `not a call` and changes nothing.  A
search left open at the end, or when the next job is opened, is closed by a
printed close.
"""

import re
import sys

from planner import BOUNDS, KINDS, MOST_MODULES, Higher, Job, Refused


class NotACall(Exception):
    pass


def must(condition):
    if not condition:
        raise NotACall


def number(word, bits):
    must(re.fullmatch("[0-9]+", word))
    digits = word.lstrip("0") or "0"
    must(len(digits) <= 10 and int(digits) < 2 ** bits)
    return int(digits)


def numbers(words, *widths):
    """As many numbers as widths, of so many bits each."""
    must(len(words) == len(widths))
    return [number(word, bits) for word, bits in zip(words, widths)]


def settings(words):
    must(len(words) <= MOST_MODULES)
    return tuple(number(word, 8) for word in words)


def row(words):
    """A row of twenty bytes, filled up with zeros."""
    given = settings(words)
    return given + (0,) * (MOST_MODULES - len(given))


def hex_byte(word):
    must(re.fullmatch("[0-9A-Fa-f]{1,2}", word))
    return int(word, 16)


def bound(words):
    if len(words) == 3 and words[0] == "higher":
        return Higher(bound(words[1:2]), bound(words[2:3]))
    must(len(words) == 1 and words[0] in BOUNDS)
    return BOUNDS[words[0]]()


class Performer:
    def __init__(self):
        self.job = None

    def run(self, lines):
        """The lines to print, one after the other."""
        for line in lines:
            yield from self.run_one(line)
        yield from self.hand_back()

    def run_one(self, line):
        words = [word for word in line.split(" ") if word]
        if words and not words[0].startswith("#"):
            yield from self.perform(words)

    def perform(self, words):
        try:
            name, rest = words[0], words[1:]
            if name == "open":
                job = self.opened(rest)
                yield from self.hand_back()
                self.job, answer = job, "ok"
            else:
                must(self.job and name in CALLS)
                answer = CALLS[name](self, rest)
        except NotACall:
            answer = "not a call"
        except Refused as refusal:
            answer = str(refusal)
        yield " ".join(words) + " -> " + answer

    def hand_back(self):
        if self.job and self.job.search:
            yield from self.perform(["close"])

    # -- one definition per line of the table

    def opened(self, words):
        must(len(words) >= 4)
        job_number, kind, walks = number(words[0], 32), words[1], words[2]
        must(kind in KINDS and walks in ("plain", "both"))
        job_bound = bound(words[3:])
        must(walks == "plain" or job_bound.is_setting_bound)
        return Job(job_number, KINDS[kind], job_bound, walks == "both")

    def add(self, words):
        return f"module {self.job.add(*numbers(words, 8))}"

    def charge(self, words):
        self.job.charge(*numbers(words, 8, 8, 8, 8, 16))
        return "ok"

    def narrow(self, words):
        self.job.narrow(*numbers(words, 8, 8))
        return "ok"

    def weigh(self, words):
        return self.shown(self.job.weigh(row(words)))

    def what_if(self, words):
        i, k = numbers(words[:2], 8, 8)
        return self.shown(self.job.what_if(i, k, row(words[2:])))

    def floor(self, words):
        return self.shown(self.job.bound.floor(self.job, settings(words)))

    def floor_with(self, words):
        must(self.job.both)
        j, k = numbers(words[:2], 8, 8)
        return self.shown(self.job.bound.floor_with(
            self.job, settings(words[2:]), j, k))

    def start(self, words):
        return f"ticket {self.job.start(self.ceiling(words), ahead=False)}"

    def ahead(self, words):
        must(self.job.both)
        return f"ticket {self.job.start(self.ceiling(words), ahead=True)}"

    def sit(self, words):
        steps, = numbers(words[:1], 32)
        made, finished = self.job.sit(self.ticket(words[1:]), steps)
        return f"made {made} " + ("finished" if finished else "unfinished")

    def close(self, words):
        outcome, charge, steps, setup = self.job.close(self.ticket(words))
        answer = f"outcome {outcome} {self.shown(charge)} steps {steps}"
        if setup is not None:
            answer += " setup " + " ".join(map(str, setup))
        return answer

    def load(self, words):
        self.job.load(bytes(hex_byte(word) for word in words))
        return "ok"

    def write(self, words):
        must(not words)
        return "bytes " + self.job.write().hex(" ")

    # -- parts of lines

    def shown(self, charge):
        return "charge " + " ".join(map(str, self.job.kind.numbers(charge)))

    def ceiling(self, words):
        return self.job.kind.make(*numbers(words, *self.job.kind.widths))

    def ticket(self, words):
        if not words:
            return self.job.number
        must(words[0] == "ticket")
        return numbers(words[1:], 32)[0]


CALLS = {
    "add": Performer.add, "charge": Performer.charge,
    "narrow": Performer.narrow, "weigh": Performer.weigh,
    "what-if": Performer.what_if, "floor": Performer.floor,
    "floor-with": Performer.floor_with, "start": Performer.start,
    "ahead": Performer.ahead, "sit": Performer.sit, "close": Performer.close,
    "load": Performer.load, "write": Performer.write,
}


if __name__ == "__main__":
    # Bytes pass through as they are, whatever they mean elsewhere.
    script = sys.stdin.buffer.read().decode("latin-1")
    for text in Performer().run(script.split("\n")):
        sys.stdout.buffer.write((text + "\n").encode("latin-1"))
