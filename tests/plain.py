"""What the programs under test must print, from the definitions alone: plain, exact and slow.

Every answer is worked out here a second time: geometry in whole numbers of any size, families by trying
every one, refusals row by row. On small traces the least sums are compared with the search over every
family at each call, and each family must hold every marked sample at every level; a difference stops the program.
"""

import struct
import zlib
from array import array
from itertools import combinations, pairwise
from math import inf
from typing import NamedTuple

NOT_PERMITTED = 65_535
FAMILIES_TRIED = 1_100  # a trace with at most this many ways to rank its samples is compared with the search

# ---- Geometry ------------------------------------------------------------------------------------------


def misses(samples, i, j):
    """The squared length of r(q-a) - s(b-a) for each sample q between i and j, in order, and r.

    s of r is how far along the closed segment from a to b the point nearest to q lies. A marked sample misses by
    more than any tolerance.
    """
    (ax, ay, _), (bx, by, _) = samples[i], samples[j]
    across, up = bx - ax, by - ay
    r = across * across + up * up or 1  # a = b: r is 1, s is 0
    found = []
    for x, y, mark in samples[i + 1:j]:
        x, y = x - ax, y - ay
        along = x * across + y * up
        s = 0 if along < 0 else r if along > r else along
        dx, dy = r * x - s * across, r * y - s * up
        found.append(inf if mark else dx * dx + dy * dy)
    return found, r


def spoilers(samples, i, j, e):
    """The samples between i and j that are marked or lie too far from the segment, in order."""
    found, r = misses(samples, i, j)
    return [i + 1 + p for p, miss in enumerate(found) if miss > e * e * r * r]


def permitted(samples, i, j, e):
    return not spoilers(samples, i, j, e)


def finest_level(samples, i, j, tolerances):
    """The first level that permits the stretch, one past the last when none does."""
    found, r = misses(samples, i, j)
    worst = max(found, default=0)
    return 1 + sum(worst > e * e * r * r for e in tolerances)


# ---- Families, by trying every one ---------------------------------------------------------------------


def permitted_stretches(samples, tolerances):
    """For each level, finest first, the set of its permitted stretches."""
    stretches = list(combinations(range(len(samples)), 2))
    return [{s for s in stretches if permitted(samples, *s, e)} for e in tolerances]


def families(below, stretches):
    """Every way to choose the levels of `stretches`, finest first, each a sublist of the one below."""
    if not stretches:
        yield []
        return
    for kept in range(len(below) - 1):
        for between in combinations(below[1:-1], kept):
            level = [below[0], *between, below[-1]]
            if all(pair in stretches[0] for pair in pairwise(level)):
                for coarser in families(level, stretches[1:]):
                    yield [level, *coarser]


def segments(family):
    return sum(len(level) - 1 for level in family)


def cost(stretches, k, i, j):
    """Cost of cell (k, i, j), by every family of the samples i to j whose level k is the one segment."""
    if (i, j) not in stretches[k - 1]:
        return NOT_PERMITTED
    alone = families(list(range(i, j + 1)), stretches[:k])
    return min(segments(family) for family in alone if family[-1] == [i, j])


def keep_marked(samples, every):
    """Stops when one of the families leaves a marked sample out of a level."""
    marked = {p for p, (_, _, mark) in enumerate(samples) if mark}
    for family in every:
        assert all(marked <= set(level) for level in family), f"{family} leaves out a mark of {samples}"


def chosen_family(samples, tolerances):
    """Of the minimal families the one whose lists, coarsest first, hold the larger number where they differ."""
    every = list(families(list(range(len(samples))), permitted_stretches(samples, tolerances)))
    keep_marked(samples, every)
    least = min(map(segments, every))
    return max((family for family in every if segments(family) == least), key=lambda family: family[::-1])


def ranks_of(family, n):
    return [sum(p in level for level in family) for p in range(n)]


# ---- The trace and what is lent to its calls -----------------------------------------------------------


class Trace(NamedTuple):
    m: int
    N: int
    n: int
    tolerances: tuple

    def used(self):
        return self.tolerances[:self.m]

    def place(self, k, i, j):
        return (k - 1) * self.N * self.N + i * self.N + j


class Lent(NamedTuple):
    across: array
    up: array
    table: array
    ranks: array
    marks: array

    def samples(self, n):
        return list(zip(self.across[:n], self.up[:n], self.marks[:n]))


NO_TRACE = Trace(0, 0, 0, (0,) * 16)


def compare_costs(trace, lent):
    """Stops when a cell of a small trace with a table of its own is not the cost found by search."""
    if trace.n < 2 or (trace.m + 1) ** (trace.n - 2) > FAMILIES_TRIED:
        return
    stretches = permitted_stretches(lent.samples(trace.n), trace.used())
    for k in range(1, trace.m + 1):
        for i, j in combinations(range(trace.n), 2):
            found, searched = lent.table[trace.place(k, i, j)], cost(stretches, k, i, j)
            assert found == searched, f"cost {k, i, j} is {found}, by search {searched}: {trace} {lent}"


def compare_ranks(trace, lent):
    """Stops when the ranks read from such a trace are not those of the family found by search."""
    if (trace.m + 1) ** (trace.n - 2) > FAMILIES_TRIED:
        return
    family = chosen_family(lent.samples(trace.n), trace.used())
    found, searched = list(lent.ranks[:trace.n]), ranks_of(family, trace.n)
    assert found == searched, f"ranks are {found}, by search {searched}: {trace} {lent}"


# ---- Refusals ------------------------------------------------------------------------------------------


def lowest(*checks):
    """The first number whose check applies, 0 when none does. Checks are listed from the lowest number up."""
    return next((number for number, applies in checks if applies()), 0)


def bad_sizes(trace):
    return not (1 <= trace.m <= 16 and 2 <= trace.N <= 256)


def bad_tolerances(trace):
    used = trace.used()
    return any(not 1 <= e <= 32_768 for e in used) or any(e <= before for before, e in pairwise(used))


def bad_coordinates(*values):
    return any(not -16_384 <= value <= 16_384 for value in values)


def bad_marks(*values):
    return any(value > 1 for value in values)


def short_samples(trace, lent):
    return min(len(lent.across), len(lent.up), len(lent.marks)) < trace.N


def short_table(trace, lent):
    return short_samples(trace, lent) or len(lent.table) < trace.m * trace.N * trace.N


def bad_stored(trace, lent):
    return bad_coordinates(*lent.across[:trace.n], *lent.up[:trace.n]) or bad_marks(*lent.marks[:trace.n])


def bad_cell(trace, table):
    for k in range(1, trace.m + 1):
        most = [1 + (k - 1) * length for length in range(1, trace.n)]
        for i in range(trace.n - 1):
            at = trace.place(k, i, i + 1)
            cells = table[at:at + trace.n - 1 - i]
            outside = [c for c, limit in zip(cells, most) if not k <= c <= limit and c != NOT_PERMITTED]
            if outside or cells[0] == NOT_PERMITTED:
                return True
    return False


def setup_checks(trace):
    return (1, lambda: bad_sizes(trace)), (2, lambda: bad_tolerances(trace))


def table_checks(trace, lent):
    return (*setup_checks(trace),
            (3, lambda: short_table(trace, lent)),
            (4, lambda: trace.n > trace.N),
            (5, lambda: bad_stored(trace, lent) or bad_cell(trace, lent.table)))


# ---- Least sums ----------------------------------------------------------------------------------------


def least_sums(trace, table, k, first, last):
    """For each sample from first to last (by its number) the least sum of a path to last over cells of level k."""
    sums = {last: 0}
    to_go = [0]  # the same sums in order, from the sample after i to last
    for i in range(last - 1, first - 1, -1):
        at = trace.place(k, i, i + 1)
        steps = table[at:at + last - i]
        sums[i] = min([step + rest for step, rest in zip(steps, to_go) if step != NOT_PERMITTED])
        to_go.insert(0, sums[i])
    return sums


def rewrite(trace, lent, v):
    """Writes the cells of every stretch with i <= v <= j, level 1 first, and returns how many."""
    samples = lent.samples(trace.n)
    stretches = [(i, j) for i in range(v + 1) for j in range(max(v, i + 1), trace.n)]
    finest = {(i, j): finest_level(samples, i, j, trace.used()) for i, j in stretches}
    for k in range(1, trace.m + 1):
        for j in range(v, trace.n):
            sums = least_sums(trace, lent.table, k - 1, 0, j) if k > 1 else dict.fromkeys(range(j), 0)
            for i in range(min(v + 1, j)):
                value = 1 + sums[i] if finest[i, j] <= k else NOT_PERMITTED
                lent.table[trace.place(k, i, j)] = value
    return trace.m * len(stretches)


def best_path(trace, table, k, first, last):
    """The path of least sum over cells of level k; of equal ones that with the larger number where they differ."""
    sums = least_sums(trace, table, k, first, last)
    path = [first]
    while path[-1] != last:
        at = path[-1]
        step = {q: table[trace.place(k, at, q)] for q in range(at + 1, last + 1)}
        path.append(max(q for q in step if step[q] != NOT_PERMITTED and step[q] + sums[q] == sums[at]))
    return path


# ---- The calls -----------------------------------------------------------------------------------------


def start(m, N, tolerances):
    trace = Trace(m, N, 0, (*tolerances[:m], *[0] * (16 - m)))
    refusal = lowest(*setup_checks(trace))
    return (refusal, NO_TRACE) if refusal else (0, trace)


def put(trace, lent, v, x, y, mark):
    """Corrects sample v, or adds it where v is n."""
    refusal = lowest(*table_checks(trace, lent),
                     (6, lambda: bad_coordinates(x, y) or bad_marks(mark)),
                     (7, lambda: v == trace.n == trace.N),
                     (8, lambda: v > trace.n))
    if refusal:
        return refusal, 0, trace
    lent.across[v], lent.up[v], lent.marks[v] = x, y, mark
    after = trace._replace(n=trace.n + 1) if v == trace.n else trace
    return 0, rewrite(after, lent, v), after


def upload(trace, lent, across, up, marks):
    """Puts the samples of three lists at the end, one by one, up to the first refused.

    Returns its number of refusal, 0 when all are taken, how many were added, their cells and the trace.
    """
    if not len(across) == len(up) == len(marks):
        return 3, 0, 0, trace
    added, cells = 0, 0
    for new in zip(across, up, marks):
        refusal, more, trace = put(trace, lent, trace.n, *new)
        if refusal:
            return refusal, added, cells, trace
        added, cells = added + 1, cells + more
    return 0, added, cells, trace


def ask(trace, lent, i, j, k):
    refusal = lowest(*setup_checks(trace),
                     (3, lambda: short_samples(trace, lent)),
                     (4, lambda: trace.n > trace.N),
                     (5, lambda: bad_stored(trace, lent)),
                     (8, lambda: i >= j or j >= trace.n or not 1 <= k <= trace.m))
    if refusal:
        return refusal, None
    return 0, spoilers(lent.samples(trace.n), i, j, trace.tolerances[k - 1])


def read(trace, lent):
    checks = dict(table_checks(trace, lent))
    checks[3] = lambda: short_table(trace, lent) or len(lent.ranks) < trace.n
    refusal = lowest(*checks.items(), (9, lambda: trace.n < 2))
    if refusal:
        return refusal, 0, [0] * 16
    level, family = [0, trace.n - 1], []
    for k in range(trace.m, 0, -1):
        level = [0] + [p for gap in pairwise(level) for p in best_path(trace, lent.table, k, *gap)[1:]]
        family.append(level)
    ranks = ranks_of(family, trace.n)
    lent.ranks[:trace.n] = array("B", ranks)
    counts = [max(sum(rank >= k for rank in ranks) - 1, 0) for k in range(1, 17)]
    return 0, sum(counts), counts


# ---- Records, the pause line and dayline ---------------------------------------------------------------


class Record(NamedTuple):
    across: int
    up: int
    pause: int
    rank: int
    boot: int
    edition: int


NO_RECORD = Record(0, 0, 0, 0, 0, 0)


def bad_edition(record):
    return record.edition > 1 or record.edition == 0 and record.boot > 0


def decode(data):
    """The number of refusal and what the record says."""
    if len(data) != 16:
        return 10, NO_RECORD
    *fields, spare = struct.unpack("<hhIBHB4s", data)
    record = Record(*fields)
    refusal = lowest((6, lambda: bad_coordinates(record.across, record.up)),
                     (11, lambda: record.rank > 16 or bad_edition(record) or any(spare)))
    return (refusal, NO_RECORD) if refusal else (0, record)


def restarted(earlier, later):
    """Whether a restart lies between the two records."""
    if earlier.edition == later.edition == 1:
        return later.boot != earlier.boot
    return later.pause < earlier.pause


def increase(earlier, later):
    """What the later record adds to the pause line. Only between two of edition 1 can the counter roll over."""
    return later.pause if restarted(earlier, later) else (later.pause - earlier.pause) % 4_294_967_296


def split_records(data):
    return [data[at:at + 16] for at in range(0, len(data), 16)]


def pause_line(data):
    if len(data) % 16 or len(data) // 16 > 4_096:
        return 10, 0
    records = []
    for one in split_records(data):
        refusal, record = decode(one)
        if refusal:
            return refusal, 0
        records.append(record)
    return 0, sum(increase(*pair) for pair in pairwise(records))


def dayline(data):
    """Everything dayline prints for these bytes."""
    refusal, pause = pause_line(data)
    if refusal:
        return f"refused {refusal}\n"
    _, trace = start(3, 104, (1, 4, 16) + (0,) * 13)
    lent = Lent(array("h", [0] * 104), array("h", [0] * 104), array("H", [0] * 32_768), array("B", [0] * 104),
                array("B", [0] * 104))
    records = [decode(one)[1] for one in split_records(data)]
    marks = [0, *(int(restarted(*pair)) for pair in pairwise(records))]
    for place, (record, mark) in enumerate(zip(records, marks)):
        refusal, _, trace = put(trace, lent, place, record.across, record.up, mark)
        if refusal:
            return f"refused {refusal}\n"
    refusal, total, counts = read(trace, lent)
    if refusal:
        return f"refused {refusal}\n"
    compare_costs(trace, lent)
    compare_ranks(trace, lent)
    lines = [f"samples {trace.n} levels {trace.m}"]
    lines += [f"{p} {lent.across[p]} {lent.up[p]} {lent.ranks[p]}" for p in range(trace.n)]
    lines += [f"segments {total} {counts[0]} {counts[1]} {counts[2]}", f"pause {pause}"]
    return "\n".join(lines) + "\n"


def days(data):
    """Everything days prints for a list of days."""
    text, at, number = "", 0, 0
    while at < len(data):
        end = at + 4 + int.from_bytes(data[at:at + 4], "little")
        if end > len(data):
            return text + "?\n"
        text += f"day {number}\n" + dayline(data[at + 4:end])
        at, number = end, number + 1
    return text


# ---- Replay --------------------------------------------------------------------------------------------

BUFS, SETUP, POKE, START = range(4)
ASK, READ, DECODE, PUT, LIST, EMPTY, UPLOAD = range(6, 13)
UNSIGNED, SIGNED32, SIGNED16, BYTE = (0, 2**31 - 1), (-2**31, 2**31 - 1), (-2**15, 2**15 - 1), (0, 2**8 - 1)
ARGUMENTS = {  # the range of each number that the operation uses
    BUFS: [(0, 320), (0, 320), (0, 1_048_576), (0, 320), (0, 320)],
    SETUP: [UNSIGNED] * 19,
    POKE: [(0, 4), UNSIGNED, SIGNED32],
    START: [UNSIGNED] * 18,
    ASK: [UNSIGNED] * 3,
    READ: [],
    DECODE: [],
    PUT: [UNSIGNED, SIGNED16, SIGNED16, BYTE],
    LIST: [(0, 2), SIGNED32],
    EMPTY: [],
    UPLOAD: [],
}
POKED = [SIGNED16, SIGNED16, (0, 2**16 - 1), BYTE, BYTE]
LISTED = [SIGNED16, SIGNED16, BYTE]
LIST_ROOM = 320


def filled(kind, length, factor, offset):
    """A buffer of `length` places, place p holding p·factor + offset wrapped to its type."""
    bits = 8 * array(kind).itemsize
    period = array(kind.upper(), ((p * factor + offset) % 2**bits for p in range(min(length, 2**bits))))
    whole = period * (length // 2**bits + 1)
    return array(kind, whole[:length].tobytes())


class Replay:
    """The state that replay keeps from command to command."""

    def __init__(self):
        self.trace = NO_TRACE
        self.own_table = True  # every cell of the trace was written by calls of this trace
        self.bufs(0, 0, 0, 0, 0)
        self.empty()

    def answer(self, command):
        """The line that a command prints, None when it prints nothing."""
        operation = command[0]
        if len(command) < 80 or any(command[1:4]) or operation not in ARGUMENTS:
            return "?"
        if operation == DECODE:
            refusal, record = decode(command[4:20])
            return " ".join(map(str, (refusal, *record)))
        ranges = ARGUMENTS[operation]
        numbers = struct.unpack("<19i", command[4:])[:len(ranges)]
        if any(not low <= number <= high for number, (low, high) in zip(numbers, ranges)):
            return "?"
        calls = {BUFS: self.bufs, SETUP: self.setup, POKE: self.poke, START: self.start, ASK: self.ask,
                 READ: self.read, PUT: self.put, LIST: self.append, EMPTY: self.empty, UPLOAD: self.upload}
        return calls[operation](*numbers)

    def checksum(self):
        value = 0
        for part in self.lent:
            value = zlib.crc32(part.tobytes(), value)
        return value

    def bufs(self, *lengths):
        LX, LY, LT, LR, LM = lengths
        self.lent = Lent(filled("h", LX, 7_919, 13), filled("h", LY, 104_729, 29), filled("H", LT, 40_503, 7),
                         filled("B", LR, 31, 5), filled("B", LM, 17, 2))
        self.own_table = self.trace.n == 0

    def setup(self, m, N, n, *tolerances):
        self.trace = Trace(m, N, n, tolerances)
        self.own_table = n == 0

    def poke(self, which, place, value):
        low, high = POKED[which]
        if place >= len(self.lent[which]) or not low <= value <= high:
            return "?"
        self.lent[which][place] = value
        self.own_table = self.own_table and (which == 3 or self.trace.n == 0)

    def start(self, m, N, *tolerances):
        refusal, self.trace = start(m, N, tolerances)
        self.own_table = True
        given = (refusal, self.trace.m, self.trace.N, self.trace.n, *self.trace.tolerances)
        return " ".join(map(str, given))

    def put(self, v, x, y, mark):
        refusal, cells, self.trace = put(self.trace, self.lent, v, x, y, mark)
        if not refusal and self.own_table:
            compare_costs(self.trace, self.lent)
        return f"{refusal} {cells} {self.trace.n} {self.checksum()}"

    def append(self, which, value):
        low, high = LISTED[which]
        if len(self.lists[which]) == LIST_ROOM or not low <= value <= high:
            return "?"
        self.lists[which].append(value)

    def empty(self):
        self.lists = [], [], []

    def upload(self):
        refusal, added, cells, self.trace = upload(self.trace, self.lent, *self.lists)
        if added and self.own_table:
            compare_costs(self.trace, self.lent)
        return f"{refusal} {added} {cells} {self.trace.n} {self.checksum()}"

    def ask(self, i, j, k):
        refusal, found = ask(self.trace, self.lent, i, j, k)
        if refusal:
            return f"{refusal} - -"
        return f"0 0 {min(found)}" if found else "0 1 -"

    def read(self):
        refusal, total, counts = read(self.trace, self.lent)
        if not refusal and self.own_table:
            compare_ranks(self.trace, self.lent)
        return " ".join(map(str, (refusal, total, *counts, self.checksum())))


def replay(data):
    """For each command that prints, in order: its number, its operation and its line."""
    state = Replay()
    for at in range(0, len(data), 80):
        command = data[at:at + 80]
        line = state.answer(command)
        if line is not None:
            yield at // 80, command[0], line
