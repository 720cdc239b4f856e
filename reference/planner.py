"""The planner: charges, floors, the two walks, the calls on a job, job files.

A job has up to twenty modules, each with one to eight settings, and a sheet
that gives every pair of settings of two modules a clash from 0 to 1,000.  A
setup takes one setting of each module.  The planner looks for the setup whose
clashes, joined, make the lowest charge.

Everything here follows its definition word for word.  The only concession to
speed is Job.once, which keeps a value until the job changes.
"""

MOST_MODULES = 20
MOST_SETTINGS = 8
FORBIDDEN = 1000          # the clash of a forbidden pair, and the highest clash
SHEET_ENTRIES = 12160     # 190 pairs of modules, 64 entries each
MAX16 = 65535
MAX32 = 4294967295


class Refused(Exception):
    """A call's refusal: its number and, for a file fault, cause and place."""

    def __init__(self, number, cause=None, place=None):
        self.number, self.cause, self.place = number, cause, place

    def __str__(self):
        if self.cause is None:
            return f"refused {self.number}"
        return f"refused {self.number} cause {self.cause} place {self.place}"


# ---------------------------------------------------------------- charges
#
# A charge is a Python number, or a pair of them for the ranked kind.  For all
# four kinds "a is at most b" is a <= b: pairs compare their first parts first.
# `widths` are the bits of the numbers that write a charge down, `make` turns
# such numbers into the charge they stand for, and `numbers` turns it back.


class Count:
    """The number of clashes."""
    zero, widths = 0, (16,)
    make = staticmethod(lambda number: number)
    numbers = staticmethod(lambda charge: (charge,))
    entry = staticmethod(lambda clash: 0 if clash == 0 else 1)
    join = staticmethod(lambda a, b: min(a + b, MAX16))


class Sum:
    """The clashes added up."""
    zero, widths = 0, (32,)
    make = staticmethod(lambda number: number)
    numbers = staticmethod(lambda charge: (charge,))
    entry = staticmethod(lambda clash: clash)
    join = staticmethod(lambda a, b: min(a + b, MAX32))


class Worst:
    """The greatest clash."""
    zero, widths = 0, (16,)
    make = staticmethod(lambda number: number)
    numbers = staticmethod(lambda charge: (charge,))
    entry = staticmethod(lambda clash: clash)
    join = staticmethod(max)


class Ranked:
    """The number of forbidden pairs, then the other clashes added up."""
    zero, widths = (0, 0), (16, 32)
    numbers = staticmethod(lambda charge: charge)

    @staticmethod
    def make(forbidden, soft):
        if forbidden >= MAX16:
            return (MAX16, MAX32)          # the top
        return (forbidden, min(soft, MAX32))

    @staticmethod
    def entry(clash):
        return (1, 0) if clash == FORBIDDEN else (0, clash)

    @staticmethod
    def join(a, b):
        return Ranked.make(a[0] + b[0], a[1] + b[1])


KINDS = {"count": Count, "sum": Sum, "worst": Worst, "ranked": Ranked}


# ----------------------------------------------------------------- floors
#
# A bound gives a beginning a floor: a charge at most that of every allowed
# setup starting with it.  A setting bound also answers for setting k of a
# later module j: at most the charge of those of these setups with k at j.
# Either answer is zero for what is no beginning, no later module or not
# allowed.


def past_charge(job, beginning):
    """The entries between the beginning's own modules, joined."""
    return job.join(job.charge_of(i, beginning[i], j, beginning[j])
                    for j in range(len(beginning)) for i in range(j))


def forward_count(job, beginning, j, k):
    """The entries of setting k of later module j with the beginning, joined."""
    return job.join(job.charge_of(i, beginning[i], j, k)
                    for i in range(len(beginning)))


def directed_count(job, j, k):
    """Over each module p after j, the least charge between k and p, joined."""
    return job.once(("directed", j, k), lambda: job.join(
        min(job.charge_of(j, k, p, l) for l in job.allowed(p))
        for p in range(j + 1, len(job.modules))))


class Past:
    is_setting_bound = False

    def floor(self, job, beginning):
        if not job.is_beginning(beginning):
            return job.kind.zero
        return past_charge(job, beginning)


class Forward:
    is_setting_bound = True

    def count(self, job, beginning, j, k):
        return forward_count(job, beginning, j, k)

    def parts(self, job, beginning):
        """The past charge, and the counts of all allowed later settings."""
        return job.once((self, "parts"), key=beginning, make=lambda: (
            past_charge(job, beginning),
            {j: {k: self.count(job, beginning, j, k) for k in job.allowed(j)}
             for j in range(len(beginning), len(job.modules))}))

    def floor(self, job, beginning):
        if not job.is_beginning(beginning):
            return job.kind.zero
        past, counts = self.parts(job, beginning)
        return job.join([past] + [min(counts[j].values()) for j in counts])

    def floor_with(self, job, beginning, chosen, k):
        if not (job.is_beginning(beginning) and
                len(beginning) <= chosen < len(job.modules) and
                k in job.allowed(chosen)):
            return job.kind.zero
        past, counts = self.parts(job, beginning)
        return job.join([past] + [
            counts[j][k] if j == chosen else min(counts[j].values())
            for j in counts])


class Directed(Forward):
    def count(self, job, beginning, j, k):
        return job.join([forward_count(job, beginning, j, k),
                         directed_count(job, j, k)])


class Higher:
    """The greater answer of two bounds."""

    def __init__(self, one, other):
        self.one, self.other = one, other
        self.is_setting_bound = one.is_setting_bound and other.is_setting_bound

    def floor(self, job, beginning):
        return max(self.one.floor(job, beginning),
                   self.other.floor(job, beginning))

    def floor_with(self, job, beginning, j, k):
        return max(self.one.floor_with(job, beginning, j, k),
                   self.other.floor_with(job, beginning, j, k))


BOUNDS = {"past": Past, "forward": Forward, "directed": Directed}


# -------------------------------------------------------------- the walks


class Search:
    """A depth-first walk over the beginnings, one beginning to a step.

    `next` is the beginning the next step looks at, None when none is left.
    `struck[d]` holds the (module, setting) pairs struck at the opened
    beginning of d modules that `next` starts with; a plain walk strikes none.
    """

    def __init__(self, job, ceiling, ahead):
        self.job, self.ahead = job, ahead
        self.limit, self.best, self.made = ceiling, None, 0
        self.struck = {0: frozenset()}
        self.next = self.first_left((), -1)

    def finished(self):
        return self.next is None

    def step(self):
        beginning = self.next
        if len(beginning) == len(self.job.modules):
            charge = self.job.weigh(beginning)
            if charge < self.limit:
                self.best, self.limit = beginning, charge
            opened = False
        else:
            opened = (self.job.bound.floor(self.job, beginning) < self.limit
                      and self.strike(beginning))
        if opened:
            self.next = self.first_left(beginning, -1)
        else:
            self.next = self.first_left(beginning[:-1], beginning[-1])
        self.made += 1

    def strike(self, beginning):
        """Strike later settings; False at a module with every one struck."""
        depth = len(beginning)
        struck = set(self.struck[depth - 1])
        if self.ahead:
            for j in range(depth, len(self.job.modules)):
                for k in self.job.allowed(j):
                    if (j, k) not in struck and not self.job.bound.floor_with(
                            self.job, beginning, j, k) < self.limit:
                        struck.add((j, k))
                if all((j, k) in struck for k in self.job.allowed(j)):
                    return False
        self.struck[depth] = frozenset(struck)
        return True

    def first_left(self, opened, after):
        """The first beginning left when, of those one longer than `opened`,
        the ones up to setting `after` are done with."""
        while True:
            j = len(opened)
            for k in self.job.allowed(j):
                if k > after and (j, k) not in self.struck[j]:
                    return opened + (k,)
            if j == 0:
                return None
            opened, after = opened[:-1], opened[-1]


# ---------------------------------------------------------- calls on a job


def refuse_if(condition, number):
    if condition:
        raise Refused(number)


def position(i, k, j, l):
    """Where the sheet has the entry of setting k of i and l of j, i < j."""
    return (j * (j - 1) // 2 + i) * 64 + k * 8 + l


class Module:
    def __init__(self, settings):
        self.settings = settings
        self.mask = 2 ** settings - 1


class Job:
    """A job with its sheet.  A call refused raises Refused, changing nothing.

    Each call's checks stand in the order of the refusals' numbers.
    """

    def __init__(self, number, kind, bound, both):
        self.number, self.kind, self.bound, self.both = number, kind, bound, both
        self.modules, self.sheet, self.search = [], [0] * SHEET_ENTRIES, None
        self.kept = {}

    # -- what the rules speak of

    def allowed(self, j):
        """The allowed settings of module j, rising."""
        return self.once(("allowed", j), lambda: [
            k for k in range(self.modules[j].settings)
            if self.modules[j].mask >> k & 1])

    def is_beginning(self, settings):
        return 1 <= len(settings) <= len(self.modules) and all(
            k in self.allowed(j) for j, k in enumerate(settings))

    def charge_of(self, i, k, j, l):
        """The charge of the entry of setting k of i and l of j, i < j."""
        return self.kind.entry(min(self.sheet[position(i, k, j, l)], FORBIDDEN))

    def join(self, charges):
        total = self.kind.zero
        for charge in charges:
            total = self.kind.join(total, charge)
        return total

    def once(self, name, make, key=None):
        """make(), or what it gave the last time for this name and key since
        the job last changed."""
        if name not in self.kept or self.kept[name][0] != key:
            self.kept[name] = (key, make())
        return self.kept[name][1]

    def has_setting(self, j, k):
        return k < self.modules[j].settings

    # -- making the job

    def add(self, settings):
        refuse_if(self.search, 2)
        refuse_if(len(self.modules) >= MOST_MODULES, 3)
        refuse_if(not 1 <= settings <= MOST_SETTINGS, 4)
        new = len(self.modules)
        for i in range(new):
            start = position(i, 0, new, 0)
            self.sheet[start:start + 64] = [0] * 64
        self.modules.append(Module(settings))
        self.kept.clear()
        return new

    def charge(self, i, k, j, l, clash):
        refuse_if(self.search, 2)
        refuse_if(not max(i, j) < len(self.modules), 5)
        refuse_if(not i < j, 6)
        refuse_if(not (self.has_setting(i, k) and self.has_setting(j, l)), 7)
        refuse_if(clash > FORBIDDEN, 8)
        self.sheet[position(i, k, j, l)] = clash
        self.kept.clear()

    def narrow(self, i, mask):
        refuse_if(self.search, 2)
        refuse_if(not i < len(self.modules), 5)
        refuse_if(mask == 0 or mask >= 2 ** self.modules[i].settings, 9)
        self.modules[i].mask = mask
        self.kept.clear()

    # -- weighing a row, whose settings need not be allowed

    def weigh(self, row):
        setup = row[:len(self.modules)]
        refuse_if(not all(self.has_setting(j, k) for j, k in enumerate(setup)), 7)
        return past_charge(self, setup)

    def what_if(self, i, k, row):
        refuse_if(not i < len(self.modules), 5)
        return self.weigh(row[:i] + (k,) + row[i + 1:])

    # -- searching

    def start(self, ceiling, ahead):
        refuse_if(self.search, 2)
        refuse_if(not self.modules, 10)
        self.search = Search(self, ceiling, ahead)
        return self.number

    def sit(self, ticket, steps):
        """The number of steps made, and whether the search is finished."""
        refuse_if(ticket != self.number or not self.search, 11)
        refuse_if(steps == 0, 12)
        made = 0
        while made < steps and not self.search.finished():
            self.search.step()
            made += 1
        return made, self.search.finished()

    def close(self, ticket):
        """Outcome, charge, steps and the best setup or None."""
        refuse_if(ticket != self.number or not self.search, 11)
        search, self.search = self.search, None
        if search.best is None:
            outcome = 3 if search.finished() else 0
        else:
            outcome = 2 if search.finished() else 1
        return outcome, search.limit, search.made, search.best

    # -- job files

    def load(self, data):
        refuse_if(self.search, 2)
        settings, entries = read_file(data)
        refuse_if(self.modules, 14)
        for number in settings:
            self.add(number)
        for place, clash in entries:
            self.sheet[place] = clash
        self.kept.clear()

    def write(self):
        entries = [(place, self.sheet[place]) for place in
                   positions([module.settings for module in self.modules])
                   if self.sheet[place] != 0]
        data = [len(self.modules)]
        data += [module.settings for module in self.modules]
        data += low_first(len(entries))
        for place, _ in entries:
            data += low_first(place)
        for _, clash in entries:
            data += low_first(min(clash, FORBIDDEN))
        return bytes(data)


# ---------------------------------------------------------------- job files
#
# One byte for the number of modules, one byte each for their settings, two
# for the number m of entries, then m positions and m clashes of two bytes.
# Fields of two bytes have the low byte first.

CUT_OFF, SIZE, POSITION, CLASH, AFTER_END = 1, 2, 3, 4, 5


def low_first(number):
    return [number % 256, number // 256]


def positions(settings):
    """The positions that belong to existing settings, rising."""
    return [position(i, k, j, l)
            for j in range(len(settings)) for i in range(j)
            for k in range(settings[i]) for l in range(settings[j])]


def read_file(data):
    """The settings of the modules and the (position, clash) entries.

    The first fault is refused with its cause and place.
    """
    at = 0

    def field(width, cause, good):
        nonlocal at
        if at + width > len(data):
            raise Refused(13, CUT_OFF, len(data))
        value = int.from_bytes(data[at:at + width], "little")
        if not good(value):
            raise Refused(13, cause, at)
        at += width
        return value

    count = field(1, SIZE, lambda value: value <= MOST_MODULES)
    settings = [field(1, SIZE, lambda value: 1 <= value <= MOST_SETTINGS)
                for _ in range(count)]
    entries = field(2, SIZE, lambda value: value <= SHEET_ENTRIES)
    belonging = set(positions(settings))
    places = []
    for _ in range(entries):
        last = places[-1] if places else -1
        places.append(field(2, POSITION, lambda value:
                            value > last and value in belonging))
    clashes = [field(2, CLASH, lambda value: 1 <= value <= FORBIDDEN)
               for _ in range(entries)]
    if at < len(data):
        raise Refused(13, AFTER_END, at)
    return settings, list(zip(places, clashes))


# ------------------------------------------------------------------- settle


def settle(data):
    """The text for a job file: a look ahead by count and directed bound."""
    job = Job(0, Count, Directed(), True)
    try:
        job.load(data)
        ticket = job.start(MAX16, ahead=True)
    except Refused as refusal:
        return f"{refusal}\n"
    for _ in range(10):
        _, finished = job.sit(ticket, 100000)
        if finished:
            break
    _, charge, steps, setup = job.close(ticket)
    lines = [] if finished else ["unfinished"]
    lines.append(f"modules {len(job.modules)}")
    lines.append("none" if setup is None else f"charge {charge}")
    lines.append(f"steps {steps}")
    if setup is not None:
        lines.append("setup " + " ".join(map(str, setup)))
    return "".join(line + "\n" for line in lines)
