"""Prints a script that asks for the floors of every beginning of four small
jobs, for each kind and bound, and for the answers of every setting; and of
paths that are no beginnings."""
import itertools

KINDS = ["count", "sum", "worst", "ranked"]
OPENINGS = ["plain past", "plain forward", "plain directed", "plain higher past directed",
            "both forward", "both directed", "both higher forward directed"]

# settings and masks of the modules, and the clashes (module, setting, module, setting, clash)
TWO_MODULES = ([2, 2], [3, 3], [(0, 0, 1, 0, 50), (0, 0, 1, 1, 70), (0, 1, 1, 1, 30)])
ONE_SETTING_EACH = ([1, 1, 1], [1, 1, 1], [(0, 0, 1, 0, 100)])
THREE_MODULES = ([3, 2, 3], [5, 3, 6], [
    (0, 0, 1, 0, 1000), (0, 0, 1, 1, 7), (0, 2, 1, 0, 3), (0, 1, 1, 0, 1),
    (0, 0, 2, 0, 9), (0, 0, 2, 1, 40), (0, 0, 2, 2, 41), (0, 2, 2, 1, 1000), (0, 2, 2, 2, 12),
    (1, 0, 2, 0, 2), (1, 0, 2, 1, 5), (1, 0, 2, 2, 6), (1, 1, 2, 1, 8), (1, 1, 2, 2, 1000)])
FOUR_MODULES = ([1, 3, 2, 3], [1, 6, 2, 3], [
    (0, 0, 1, 0, 11), (0, 0, 1, 1, 12), (0, 0, 1, 2, 1000), (0, 0, 2, 1, 4), (0, 0, 3, 0, 2), (0, 0, 3, 1, 1),
    (1, 1, 2, 1, 20), (1, 2, 2, 1, 21), (1, 0, 2, 0, 22), (1, 1, 3, 0, 30), (1, 1, 3, 1, 31), (1, 2, 3, 1, 1000),
    (2, 1, 3, 0, 5), (2, 1, 3, 1, 6), (2, 0, 3, 2, 7)])
JOBS = (TWO_MODULES, ONE_SETTING_EACH, THREE_MODULES, FOUR_MODULES)


def ask(words):
    print(" ".join(str(word) for word in words))


def build(number, kind, opening, job):
    settings, masks, clashes = job
    ask(["open", number, kind, opening])
    for count in settings:
        ask(["add", count])
    for clash in clashes:
        ask(["charge", *clash])
    for module, mask in enumerate(masks):
        ask(["narrow", module, mask])


def floors(number, kind, opening, job):
    build(number, kind, opening, job)
    settings, masks, clashes = job
    allowed = [[k for k in range(8) if mask >> k & 1] for mask in masks]
    for length in range(1, len(settings) + 1):
        for path in itertools.product(*allowed[:length]):
            ask(["floor", *path])
            if opening.startswith("both"):
                for j in range(length, len(settings)):
                    for k in range(settings[j]):
                        ask(["floor-with", j, k, *path])
    # no beginnings: none, a setting that is not allowed, one that is not there, too many
    first = [a[0] for a in allowed]
    ask(["floor"])
    ask(["floor", *[next((k for k in range(8) if k not in a), 7) for a in allowed[:1]]])
    ask(["floor", 255])
    ask(["floor", *first, 0])
    ask(["floor-with", 1, first[1]])
    ask(["floor-with", 0, first[0], first[0]])
    ask(["floor-with", len(settings), 0, first[0]])
    ask(["floor-with", 255, 255, first[0]])
    ask(["floor-with", 1, first[1], 7])


if __name__ == "__main__":
    number = 0
    for kind in KINDS:
        for opening in OPENINGS:
            for job in JOBS:
                floors(number, kind, opening, job)
                number += 1
