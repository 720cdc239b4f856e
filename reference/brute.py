"""Brute force over all setups, and a self-check of planner.py against it.

    brute.py [SEED [ROUNDS]]

Charges and floors are computed here in a way of their own, from plain lists
of sheet entries, and the steps of a walk are counted by their definition
rather than by walking.  Of planner.py only the calls under test are used.

Beside the planner's own bounds there is one here whose answers are drawn at
random among the lawful ones.  With the planner's own, a beginning that is
opened never meets a module with every setting struck, and strikes only repeat
themselves further on; with the drawn ones all that comes to count.
"""

import itertools
import random
import sys

import planner

TOP16, TOP32 = 65535, 4294967295
KIND_NAMES = ("count", "sum", "worst", "ranked")
SETTING_BOUNDS = ("forward", "directed", "drawn")
SINGLE_BOUNDS = ("past",) + SETTING_BOUNDS
ALL_BOUNDS = SINGLE_BOUNDS + tuple(itertools.product(SINGLE_BOUNDS, repeat=2))


def total(kind, entries):
    """The charge of a list of sheet entries."""
    if kind == "count":
        return min(TOP16, len(entries) - entries.count(0))
    if kind == "sum":
        return min(TOP32, sum(entries))
    if kind == "worst":
        return max(entries, default=0)
    hard = entries.count(1000)
    if hard >= TOP16:
        return (TOP16, TOP32)
    return (hard, min(TOP32, sum(entries) - 1000 * hard))


def is_setting_bound(bound):
    names = (bound,) if isinstance(bound, str) else bound
    return all(name in SETTING_BOUNDS for name in names)


class Small:
    """A small job: allowed[j] lists the allowed settings of module j, and
    clash[i, k, j, l] is the entry of setting k of i and l of j, 0 if absent."""

    def __init__(self, kind, bound, settings, allowed, clash):
        self.kind, self.bound = kind, bound
        self.settings, self.allowed, self.clash = settings, allowed, clash
        self.size = len(settings)
        self.setups = list(itertools.product(*allowed))      # reading order
        self.charges = [self.charge(setup) for setup in self.setups]
        self.beginnings = sorted(                            # depth-first order
            beginning for depth in range(1, self.size + 1)
            for beginning in itertools.product(*allowed[:depth]))
        self.drawn = {}

    def entry(self, i, k, j, l):
        return self.clash.get((i, k, j, l), 0)

    def past(self, row):
        """The entries between the modules of a row of settings."""
        return [self.entry(i, row[i], j, row[j])
                for i, j in itertools.combinations(range(len(row)), 2)]

    def charge(self, row):
        return total(self.kind, self.past(row))

    # -- floors, as lists of entries; a lower entry never charges more

    def ahead_entries(self, bound, beginning, j, k):
        entries = [self.entry(i, beginning[i], j, k)
                   for i in range(len(beginning))]
        if bound == "directed":
            entries += [min(self.entry(j, k, p, l) for l in self.allowed[p])
                        for p in range(j + 1, self.size)]
        return entries

    def floor(self, beginning, chosen=None, bound=None):
        """The floor; with chosen = (j, k), the answer for that setting."""
        bound = bound or self.bound
        if not isinstance(bound, str):
            return max(self.floor(beginning, chosen, name) for name in bound)
        if bound == "drawn":
            return self.drawn[beginning, chosen]
        entries = self.past(beginning)
        if bound != "past":
            for j in range(len(beginning), self.size):
                choices = self.allowed[j]
                if chosen and chosen[0] == j:
                    choices = [chosen[1]]
                entries += min((self.ahead_entries(bound, beginning, j, k)
                                for k in choices),
                               key=lambda some: total(self.kind, some))
        return total(self.kind, entries)

    def draw(self, rng):
        """Draws the floors and answers of the drawn bound."""
        def at_most(charge):
            lower = [some for some in self.charges if some <= charge]
            return rng.choice((total(self.kind, []), charge, rng.choice(lower)))

        for b in self.beginnings:
            starting = [(charge, setup)
                        for charge, setup in zip(self.charges, self.setups)
                        if setup[:len(b)] == b]
            self.drawn[b, None] = at_most(min(starting)[0])
            for j in range(len(b), self.size):
                for k in self.allowed[j]:
                    self.drawn[b, (j, k)] = at_most(min(
                        charge for charge, setup in starting if setup[j] == k))

    # -- what a search must come to

    def cheapest(self, ceiling):
        """The first cheapest setup below the ceiling and its charge."""
        charge, setup = min(zip(self.charges, self.setups))
        return (setup, charge) if charge < ceiling else (None, ceiling)

    def looked_at(self, ceiling, ahead):
        """Every beginning a finished walk looks at, in its order.

        A beginning is looked at when each shorter one of it has a floor below
        the limit there: the least of the ceiling and the charges of all
        allowed setups reading earlier.  Looking ahead, no shorter one may
        moreover have struck the next setting, or all of a later module's.  A
        setting is struck at a beginning when, at it or at a shorter one, the
        answer for it isn't below the limit there.
        """
        limit, passable, struck = {}, {}, {(): set()}
        for b in self.beginnings:
            limit[b] = min([ceiling] + [
                charge for charge, setup in zip(self.charges, self.setups)
                if setup[:len(b)] < b])
            struck[b] = set(struck[b[:-1]])
            if ahead:
                struck[b].update(
                    (j, k) for j in range(len(b), self.size)
                    for k in self.allowed[j]
                    if not self.floor(b, (j, k)) < limit[b])
            passable[b] = self.floor(b) < limit[b] and not any(
                all((j, k) in struck[b] for k in self.allowed[j])
                for j in range(len(b), self.size))
        return [b for b in self.beginnings
                if all(passable[b[:d]] and (d, b[d]) not in struck[b[:d]]
                       for d in range(1, len(b)))]

    def best_of(self, looked_at, ceiling):
        """The first cheapest setup among these beginnings, and its charge."""
        found = [(self.charge(b), b) for b in looked_at if len(b) == self.size]
        charge, setup = min(found, default=(ceiling, None))
        return (setup, charge) if charge < ceiling else (None, ceiling)


# ------------------------------------------------------------- self-check


class Drawn:
    """The drawn bound as the planner takes bounds."""
    is_setting_bound = True

    def __init__(self, small):
        self.small = small

    def floor(self, job, beginning):
        return self.small.drawn.get((beginning, None), job.kind.zero)

    def floor_with(self, job, beginning, j, k):
        return self.small.drawn.get((beginning, (j, k)), job.kind.zero)


def planner_bound(small, bound):
    if bound == "drawn":
        return Drawn(small)
    if isinstance(bound, str):
        return planner.BOUNDS[bound]()
    return planner.Higher(*(planner_bound(small, name) for name in bound))


def planner_job(small):
    job = planner.Job(7, planner.KINDS[small.kind],
                      planner_bound(small, small.bound),
                      is_setting_bound(small.bound))
    for number in small.settings:
        job.add(number)
    for (i, k, j, l), clash in small.clash.items():
        job.charge(i, k, j, l, clash)
    for j, allowed in enumerate(small.allowed):
        job.narrow(j, sum(2 ** k for k in allowed))
    return job


def random_small(rng, kind, bound):
    settings, setups, most = [], 1, rng.choice((4, 20, 100, 200))
    for _ in range(rng.randint(1, 6)):
        number = rng.randint(1, rng.choice((2, 3, 5, 8)))
        if setups * number <= most:
            settings.append(number)
            setups *= number
    settings = settings or [1]
    allowed = [sorted(rng.sample(range(number), rng.randint(1, number)))
               if rng.random() < 0.5 else list(range(number))
               for number in settings]
    clashes = rng.choice(((1, 2), (1, 1000), (1, 9, 10, 999, 1000),
                          range(1, 1001), (500, 1000)))
    density = rng.random()
    clash = {(i, k, j, l): rng.choice(clashes)
             for i, j in itertools.combinations(range(len(settings)), 2)
             for k in range(settings[i]) for l in range(settings[j])
             if rng.random() < density}
    small = Small(kind, bound, settings, allowed, clash)
    small.draw(rng)
    return small


def random_ceiling(rng, small):
    """Nothing, the top, or a charge at or near that of some setup."""
    charge = rng.choice(small.charges)
    if small.kind == "ranked":
        return rng.choice(((0, 0), (TOP16, TOP32), charge,
                           (charge[0], charge[1] + 1), (charge[0] + 1, 0)))
    return rng.choice((0, 1, TOP16, charge, charge + 1, 2 * charge))


def same(what, expected, got, small):
    if expected != got:
        sys.exit(f"{what}: expected {expected}, planner gives {got}\n"
                 f"{vars(small)}")


def check_floors(small, job):
    for b in small.beginnings:
        floor = small.floor(b)
        same(f"floor {b}", floor, job.bound.floor(job, b), small)
        starting = [(charge, setup)
                    for charge, setup in zip(small.charges, small.setups)
                    if setup[:len(b)] == b]
        same(f"floor {b} holds", True,
             all(floor <= charge for charge, _ in starting), small)
        if not job.both:
            continue
        for j, number in enumerate(small.settings):
            for k in range(number):
                answer = job.bound.floor_with(job, b, j, k)
                if j < len(b) or k not in small.allowed[j]:
                    same(f"answer {b} {j} {k}", job.kind.zero, answer, small)
                    continue
                same(f"answer {b} {j} {k}", small.floor(b, (j, k)), answer,
                     small)
                same(f"answer {b} {j} {k} holds", True,
                     all(answer <= charge for charge, setup in starting
                         if setup[j] == k), small)


def check_rows(small, job):
    row = small.setups[-1]
    for setup, charge in zip(small.setups, small.charges):
        same(f"weigh {setup}", charge, job.weigh(setup), small)
    for j, number in enumerate(small.settings):
        for k in range(number):
            same(f"what-if {j} {k} {row}",
                 small.charge(row[:j] + (k,) + row[j + 1:]),
                 job.what_if(j, k, row), small)


def check_search(rng, small, job, ahead):
    """One search, sat at random lengths; closed early or when finished."""
    ceiling = random_ceiling(rng, small)
    looked_at = small.looked_at(ceiling, ahead)
    stop = rng.choice((len(looked_at), rng.randint(0, len(looked_at))))
    ticket, made = job.start(ceiling, ahead), 0
    while made < stop:
        steps = min(rng.choice((1, 2, 3, 10, 1000)), stop - made)
        same("made", (steps, made + steps == len(looked_at)),
             job.sit(ticket, steps), small)
        made += steps
    if stop == len(looked_at):
        same("made after the end", (0, True), job.sit(ticket, 5), small)
        same("best", small.cheapest(ceiling),
             small.best_of(looked_at, ceiling), small)
    setup, charge = small.best_of(looked_at[:stop], ceiling)
    outcome = {(False, False): 0, (False, True): 1, (True, True): 2,
               (True, False): 3}[stop == len(looked_at), setup is not None]
    same("close", (outcome, charge, stop, setup), job.close(ticket), small)


def check_files(small, job):
    for_new = planner.Job(7, job.kind, job.bound, job.both)
    for_new.load(job.write())
    same("settings after load", small.settings,
         [module.settings for module in for_new.modules], small)
    same("sheet after load", job.sheet, for_new.sheet, small)


def check_worked_figures():
    """A few figures worked by hand."""
    two = {(0, 0, 1, 0): 50, (0, 0, 1, 1): 70, (0, 1, 1, 1): 30}
    three = {(0, 0, 1, 0): 100}

    def close(bound, clash, settings, ceiling, ahead, steps=1000):
        allowed = [list(range(number)) for number in settings]
        job = planner_job(Small("count", bound, settings, allowed, clash))
        ticket = job.start(ceiling, ahead)
        job.sit(ticket, steps)
        return job.close(ticket)

    for kind, charge in zip(KIND_NAMES, (1, 50, 50, (0, 50))):
        small = Small(kind, "past", [2, 2], [[0, 1], [0, 1]], two)
        assert planner_job(small).weigh((0, 0)) == charge
    for bound in planner.BOUNDS:
        assert close(bound, two, [2, 2], TOP16, False) == (2, 0, 6, (1, 0))
        assert close(bound, two, [2, 2], TOP16, False, 4) == (1, 1, 4, (0, 0))
        assert close(bound, two, [2, 2], 0, False) == (3, 0, 2, None)
    assert close("directed", two, [2, 2], TOP16, True) == (2, 0, 5, (1, 0))
    assert close("forward", two, [2, 2], 1, False)[2] == 4
    assert close("past", two, [2, 2], 1, False)[2] == 6
    assert close("directed", three, [1, 1, 1], 2, True) == (2, 1, 3, (0, 0, 0))
    top = (TOP16, TOP32)
    assert planner.Ranked.join((65534, 5), (1, 0)) == top
    assert planner.Ranked.make(65535, 0) == top
    assert planner.Ranked.join((3, TOP32), (1, 9)) == (4, TOP32)
    assert planner.Count.join(TOP16, 1) == TOP16
    assert planner.Sum.join(TOP32, 1) == TOP32


def main(seed=1, rounds=40):
    check_worked_figures()
    rng, searches = random.Random(seed), 0
    for _ in range(rounds):
        for kind, bound in itertools.product(KIND_NAMES, ALL_BOUNDS):
            small = random_small(rng, kind, bound)
            job = planner_job(small)
            check_floors(small, job)
            check_rows(small, job)
            check_files(small, job)
            for ahead in (False, True, False, True):
                if job.both or not ahead:
                    check_search(rng, small, job, ahead)
                    searches += 1
    print(f"{searches} searches on {rounds * len(KIND_NAMES) * len(ALL_BOUNDS)}"
          " jobs, all agree")


if __name__ == "__main__":
    main(*map(int, sys.argv[1:]))
