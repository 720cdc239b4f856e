"""Prints a script that walks over four small jobs, for each kind and bound,
plain and looking ahead: in one sitting and in sittings of every length, below
ceilings that leave setups and that leave none, closed at the end and half way,
with wrong tickets, and with calls that are refused while a walk is open.  Some
walks are left open before the next job and at the end."""
from floor_calls import JOBS, KINDS, OPENINGS, ask, build

# ceilings of each kind, the highest first, and figures that are no charges of it
CEILINGS = {"count": ("65535", "2", "0"), "sum": ("4294967295", "51", "0"),
            "worst": ("65535", "30", "0"), "ranked": ("65535 7", "1 50", "0 0")}
NO_CEILINGS = {"count": ("65536", "1 1"), "sum": ("1 1",),
               "worst": ("65536", "1 1"), "ranked": ("1", "65535")}


def whole(walk, ceiling, lengths):
    """One walk, in sittings of these lengths and then one to its end."""
    ask([walk, ceiling])
    for length in lengths:
        ask(["sit", length])
    ask(["sit", 100000])
    ask(["close"])


def half_way(walk, ceiling, lengths):
    ask([walk, ceiling])
    for length in lengths:
        ask(["sit", length])
    ask(["close"])


def refusals(number, walk, ceiling):
    """What is refused before, while and after a walk is open."""
    ask(["sit", 1])
    ask(["close"])
    ask([walk, ceiling])
    ask(["sit", 0])
    ask(["sit", 0, "ticket", number + 1])
    ask(["sit", 2, "ticket", number + 1])
    ask(["close", "ticket", number + 1])
    ask(["add", 2])
    ask(["charge", 0, 0, 1, 0, 1])
    ask(["narrow", 0, 1])
    ask(["start", ceiling])
    ask(["ahead", ceiling])
    ask(["weigh", 0, 0, 0, 0])
    ask(["what-if", 0, 0, 0, 0, 0, 0])
    ask(["floor", 0])
    ask(["open", 1, "count", "both", "past"])
    ask(["sit", 1, "ticket", number])
    ask(["close", "ticket", number])
    ask(["close"])


def walks(number, kind, opening, job):
    top, some, none = CEILINGS[kind]
    ask(["open", number, kind, opening])
    ask(["start", top])
    ask(["ahead", top])
    build(number, kind, opening, job)
    for figure in NO_CEILINGS[kind]:
        ask(["start", figure])
        ask(["ahead", figure])
    for walk in ("start", "ahead") if opening.startswith("both") else ("start",):
        whole(walk, top, [1 + number % 5] * (1 + number % 3))
        whole(walk, some, [])
        whole(walk, none, [])
        half_way(walk, top, range(number % 4))
        half_way(walk, top, [1] * (number % 9))
    refusals(number, walk, top)
    if number % 3 == 0:
        ask([walk, some if number % 2 else top])
        ask(["sit", 1 + number % 7])
    ask(["open", number, kind, "both", "past"])


number = 0
for kind in KINDS:
    for opening in OPENINGS:
        for job in JOBS:
            walks(number, kind, opening, job)
            number += 1
ask(["start", "0 1"])
ask(["sit", 3])
