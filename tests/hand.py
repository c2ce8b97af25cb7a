"""Cases checked by hand and small searches that test plain.py itself. check() stops at the first difference."""

import random
from array import array
from itertools import combinations, product

import plain
from cases_fixed import at_once
from cases_random import FAULTS, NEVER_TOGETHER, command, record, refused_case
from plain import BUFS, EMPTY, LIST, READ, START, UPLOAD

NEAR = [  # a, b, passed sample, tolerance, permitted
    ((0, 0), (10, 0), (13, 4), 5, True),
    ((0, 0), (10, 0), (13, 4), 4, False),
    ((0, 0), (10, 0), (-3, 4), 5, True),
    ((0, 0), (10, 0), (-3, 4), 4, False),
    ((0, 0), (0, 0), (3, 4), 5, True),
    ((0, 0), (0, 0), (3, 4), 4, False),
    ((-16384, -16384), (16384, 16384), (16384, -16384), 23171, True),
    ((-16384, -16384), (16384, 16384), (16384, -16384), 23170, False),
    ((0, 0), (20, 2), (10, 2), 1, True),
]
FIVE = [(0, 0), (10, 1), (20, 0), (30, 3), (40, 0)]
HILL = [(0, 0), (10, 2), (20, 9), (30, 4), (40, 0)]
LINE = [(0, 0), (10, 0), (20, 0)]
SPOILERS = [  # samples, which of them are marked, stretch, tolerance, those that spoil it
    (HILL, [], (0, 4), 1, [1, 2, 3]),
    (HILL, [], (0, 4), 2, [2, 3]),
    (HILL, [], (0, 4), 4, [2]),
    (HILL, [], (0, 4), 9, []),
    (HILL, [], (1, 3), 1, [2]),
    (HILL, [], (1, 2), 1, []),
    (FIVE, [], (0, 4), 1, [3]),
    (FIVE, [], (0, 2), 1, []),
    (HILL, [1], (0, 4), 4, [1, 2]),  # marked before one that lies too far away, and after it
    (HILL, [3], (0, 4), 4, [2, 3]),
    (HILL, [3], (0, 4), 9, [3]),
    (HILL, [2], (0, 4), 1, [1, 2, 3]),
    (HILL, [0, 4], (0, 4), 9, []),  # marked ends
    (HILL, [1, 3], (1, 3), 5, [2]),
    (HILL, [1, 2], (1, 2), 1, []),
    (HILL, [2], (2, 4), 1, []),
    (HILL, [2], (0, 2), 4, []),
    (LINE, [1], (0, 2), 1, [1]),
    (LINE, [1], (0, 2), 10**9, [1]),
    (LINE, [0, 2], (0, 2), 1, []),
    (LINE, [0, 1, 2], (0, 2), 32_768, [1]),
]
RANKS = [  # samples, which of them are marked, tolerances, ranks, total
    ([(0, 0), (10, 2), (20, 2), (30, 0)], [], (1,), [1, 0, 1, 1], 2),
    ([(0, 0), (10, 2), (20, 2), (30, 0)], [1], (1,), [1, 1, 0, 1], 2),
    ([(0, 0), (10, 1), (20, 0), (20, 20)], [], (1, 10), [2, 0, 2, 2], 4),
    ([(0, 0), (10, 1), (20, 0), (20, 20)], [1], (1, 10), [2, 2, 1, 2], 5),
    (FIVE, [], (1, 4, 16), [3, 0, 1, 1, 3], 5),
    (FIVE, [2], (1, 4, 16), [3, 0, 3, 1, 3], 7),
    (FIVE, [0, 4], (1, 4, 16), [3, 0, 1, 1, 3], 5),
    (LINE, [], (1, 2), [2, 0, 2], 2),
    (LINE, [1], (1, 2), [2, 2, 2], 4),
    (LINE, [0, 2], (1, 2), [2, 0, 2], 2),
    (LINE, [1], tuple(range(1, 17)), [16, 16, 16], 32),
    ([(5, 5), (-7, 9)], [], tuple(range(1, 17)), [16, 16], 16),
    ([(5, 5), (-7, 9)], [0, 1], tuple(range(1, 17)), [16, 16], 16),
]
COSTS = [  # of the five samples: which of them are marked, cell, cost
    ([], (2, 0, 4), 4),
    ([], (3, 0, 4), 5),
    ([], (1, 0, 4), 65_535),
    ([2], (3, 0, 4), 65_535),
    ([2], (3, 1, 3), 65_535),
    ([2], (3, 0, 2), 3),
    ([2], (1, 2, 4), 65_535),
    ([2], (2, 2, 4), 3),
    ([2], (3, 2, 4), 4),
]
STARTS = [  # m, N, tolerances, refusal
    (2, 8, (4, 4), 2),
    (1, 8, (0,), 2),
    (1, 8, (32_768,), 0),
    (1, 8, (32_769,), 2),
    (1, 256, (1,), 0),
    (1, 257, (1,), 1),
    (17, 8, (0,), 1),
]
INCREASES = [  # counter, boot and edition of a record and of the next; what that adds, and whether it is marked
    ((500, 0, 0), (900, 0, 0), 400, False),
    ((500, 0, 0), (500, 0, 0), 0, False),
    ((900, 0, 0), (120, 0, 0), 120, True),
    ((500, 1, 1), (900, 1, 1), 400, False),
    ((900, 1, 1), (120, 2, 1), 120, True),
    ((500, 1, 1), (900, 2, 1), 900, True),  # a restart that overtakes
    ((500, 2, 1), (500, 1, 1), 500, True),
    ((4_294_967_290, 7, 1), (4, 7, 1), 10, False),  # a roll-over
    ((900, 0, 1), (120, 0, 1), 4_294_966_516, False),
    ((900, 0, 0), (120, 0, 1), 120, True),
    ((900, 0, 1), (120, 0, 0), 120, True),
    ((900, 0, 0), (120, 7, 1), 120, True),
    ((500, 0, 0), (900, 2, 1), 400, False),
    ((500, 2, 1), (900, 0, 0), 400, False),
]
UPLOADS = [  # samples held of 16, the three lists; refusal, how many were added, cells at three levels
    (0, [], [], [], 0, 0, 0),
    (16, [], [], [], 0, 0, 0),
    (0, [5], [6], [1], 0, 1, 0),
    (1, [5], [6], [1], 0, 1, 3),
    (2, [20, 30, 40], [0, 3, 0], [1, 0, 0], 0, 3, 27),
    (13, [1, 2, 3], [4, 5, 6], [0, 1, 1], 0, 3, 126),  # as many as there is room for
    (14, [1, 2, 3], [4, 5, 6], [0, 1, 1], 7, 2, 87),
    (15, [1, 2, 3], [4, 5, 6], [0, 1, 1], 7, 1, 45),
    (16, [1, 2, 3], [4, 5, 6], [0, 1, 1], 7, 0, 0),
    (2, [16_385, 2, 3], [4, 5, 6], [0, 1, 1], 6, 0, 0),
    (2, [1, 2, 3], [4, -32_768, 6], [0, 1, 1], 6, 1, 6),
    (2, [1, 2, 3], [4, 5, 6], [0, 1, 255], 6, 2, 15),
    (2, [1, 2, 16_385], [4, 5, 6], [2, 1, 1], 6, 0, 0),
    (2, [16_384, -16_384], [-16_384, 16_384], [0, 0], 0, 2, 15),
    (15, [1, 2, 3], [4, 5, 6], [0, 2, 1], 6, 1, 45),  # the bad one is the first without room
    (15, [1, 2, 3], [4, 5, 6], [0, 0, 2], 7, 1, 45),  # and here it comes after that
    (2, [1], [4, 5], [0, 1], 3, 0, 0),
    (2, [1, 2], [4], [0, 1], 3, 0, 0),
    (2, [1, 2], [4, 5], [0], 3, 0, 0),
    (2, [1, 2], [4], [0], 3, 0, 0),
    (2, [1], [4, 5], [0], 3, 0, 0),
    (2, [1], [4], [0, 1], 3, 0, 0),
    (2, [1], [4], [], 3, 0, 0),
    (2, [], [], [0], 3, 0, 0),
    (16, [16_385, 2], [4], [2], 3, 0, 0),
]
LISTS = [  # commands of a trace of four samples at two levels, what each prints without the digest
    (UPLOAD, "0 0 0 0"),
    (LIST, 0, 10, None),
    (UPLOAD, "3 0 0 0"),
    (LIST, 1, -4, None),
    (UPLOAD, "3 0 0 0"),
    (LIST, 2, 1, None),
    (UPLOAD, "0 1 0 1"),
    (UPLOAD, "0 1 2 2"),  # the lists have stayed
    (LIST, 0, 32_768, "?"),
    (LIST, 1, -32_769, "?"),
    (LIST, 2, 256, "?"),
    (LIST, 2, -1, "?"),
    (LIST, 3, 0, "?"),
    (LIST, -1, 0, "?"),
    (LIST, 0, -32_768, None),
    (LIST, 1, 32_767, None),
    (LIST, 2, 255, None),
    (UPLOAD, "6 1 4 3"),
    (EMPTY, None),
    (UPLOAD, "0 0 0 3"),
    (LIST, 2, 0, None),
    (LIST, 2, 1, None),
    (LIST, 0, 1, None),
    (LIST, 0, 2, None),
    (LIST, 1, 3, None),
    (UPLOAD, "3 0 0 3"),
    (LIST, 1, 4, None),
    (UPLOAD, "7 1 6 4"),
    (UPLOAD, "7 0 0 4"),
]
BOOTED = b"\x0a\x00\x01\x00\x84\x03\x00\x00\x02\x39\x30\x01" + bytes(4)
DAY = (b"\x00\x00\x00\x00\xf4\x01\x00\x00" + bytes(8) + b"\x0a\x00\x01\x00\x84\x03\x00\x00" + bytes(8)
       + b"\x14\x00\x00\x00\x78\x00\x00\x00" + bytes(8) + b"\x1e\x00\x03\x00\xc8\x00\x00\x00" + bytes(8)
       + b"\x28\x00\x00\x00\xc8\x00\x00\x00" + bytes(8))
DAY_PRINTED = """samples 5 levels 3
0 0 0 3
1 10 1 0
2 20 0 3
3 30 3 1
4 40 0 3
segments 7 3 2 2
pause 600
"""


def lend(N, m):
    return plain.Lent(array("h", [0] * N), array("h", [0] * N), array("H", [0] * m * N * N), array("B", [9] * N),
                      array("B", [9] * N))


def mark(samples, *which):
    """Each sample with its mark, 1 for those of these numbers."""
    return [(*one, int(p in which)) for p, one in enumerate(samples)]


def hold(samples, tolerances):
    """A trace that holds these samples with their marks, and its buffers."""
    lent = lend(16, len(tolerances))
    refusal, trace = plain.start(len(tolerances), 16, tolerances)
    for v, one in enumerate(samples):
        assert refusal == 0
        refusal, _, trace = plain.put(trace, lent, v, *one)
    return trace, lent


def check_geometry():
    for a, b, q, e, expected in NEAR:
        assert plain.permitted(mark([a, q, b]), 0, 2, e) == expected, (a, b, q, e)
    for samples, marked, (i, j), e, expected in SPOILERS:
        assert plain.spoilers(mark(samples, *marked), i, j, e) == expected, (samples, marked, i, j, e)
    ways = [(s, r) for r in range(1, 9) for s in range(r + 1)]
    for bx, by, x, y, e in product(range(-2, 3), range(-2, 3), range(-2, 3), range(-2, 3), range(4)):
        some = any((r * x - s * bx) ** 2 + (r * y - s * by) ** 2 <= e * e * r * r for s, r in ways)
        assert plain.permitted(mark([(0, 0), (x, y), (bx, by)]), 0, 2, e) == some, (bx, by, x, y, e)


def check_ranks():
    for points, marked, tolerances, ranks, total in RANKS:
        samples = mark(points, *marked)
        trace, lent = hold(samples, tolerances)
        refusal, found, _ = plain.read(trace, lent)
        family = plain.chosen_family(samples, tolerances)
        assert (refusal, found, list(lent.ranks[:trace.n])) == (0, total, ranks), (samples, found)
        assert plain.segments(family) == total and plain.ranks_of(family, len(samples)) == ranks, family
    for marked, (k, i, j), expected in COSTS:
        samples = mark(FIVE, *marked)
        trace, lent = hold(samples, (1, 4, 16))
        assert lent.table[trace.place(k, i, j)] == expected, (marked, k, i, j)
        assert plain.cost(plain.permitted_stretches(samples, (1, 4, 16)), k, i, j) == expected, (marked, k, i, j)


def check_corrected_marks():
    """A mark set, and a mark cleared, by a correction leaves what putting the samples so from the start leaves."""
    for which, v in product(product((0, 1), repeat=5), range(5)):
        marked = {p for p in range(5) if which[p]}
        before, after = mark(HILL, *marked), mark(HILL, *marked ^ {v})
        trace, lent = hold(before, (1, 4, 9))
        assert plain.put(trace, lent, v, *after[v]) == (0, 3 * ((v + 1) * (5 - v) - 1), trace), (marked, v)
        assert (trace, lent) == hold(after, (1, 4, 9)), (marked, v)


def check_refusals():
    for m, N, tolerances, refusal in STARTS:
        padded = (*tolerances, *[0] * (16 - len(tolerances)))
        assert plain.start(m, N, padded)[0] == refusal, (m, N, tolerances)
    trace, lent = hold([(0, 0, 0)], (1,))
    assert plain.read(trace, lent) == (9, 0, [0] * 16)
    for bad in (16_385, 0, 0), (0, 0, 2), (0, 0, 255), (16_385, 0, 2):
        assert plain.put(trace, lent, 1, *bad) == (6, 0, trace), bad
    assert plain.put(trace, lent, 2, 0, 0, 0) == (8, 0, trace)
    assert plain.put(trace, lent, 1, 16_384, -16_384, 1) == (0, 1, trace._replace(n=2))
    assert plain.put(trace, lent, 0, 1, 1, 1) == (0, 0, trace)


def check_lent_marks():
    """Each call with a mark buffer one byte short of N, a mark above 1 below n, and such marks only past n."""
    trace, lent = hold(mark(LINE, 2), (1, 2))
    short, bad = lent._replace(marks=lent.marks[:15]), lent._replace(marks=array("B", [0, 0, 2] + [0] * 13))
    for given, refusal in (short, 3), (bad, 5), (lent, 0):
        calls = plain.put(trace, given, 1, 0, 0, 0), plain.ask(trace, given, 0, 1, 1), plain.read(trace, given)
        assert [answer[0] for answer in calls] == [refusal] * 3, calls
    assert lent.marks == array("B", [0, 0, 1] + [9] * 13)


def check_places():
    """A sample put at every place: refused with 7 or 8, or the count is m times n, or that of a correction."""
    for n, v in product(range(17), range(19)):
        trace, lent = hold([(p, p * p % 5, p % 2) for p in range(n)], (1, 2, 3))
        refusal, cells, after = plain.put(trace, lent, v, 4, 4, 1)
        if v < n:
            assert (refusal, cells, after.n) == (0, 3 * ((v + 1) * (n - v) - 1), n), (n, v)
        elif v == n < 16:
            assert (refusal, cells, after.n) == (0, 3 * n, n + 1), (n, v)
        else:
            assert (refusal, cells, after) == (7 if v == n else 8, 0, trace), (n, v)


def check_uploads():
    """An upload of each of the lists leaves what putting the samples before the stop leaves; then one is read."""
    for held, across, up, marks, *told in UPLOADS:
        samples = [(p, p * p % 5, p % 2) for p in range(held)]
        trace, lent = hold(samples, (1, 2, 3))
        *found, after = plain.upload(trace, lent, across, up, marks)
        added = list(zip(across, up, marks))[:told[1]]
        assert found == told and (after, lent) == hold(samples + added, (1, 2, 3)), (held, across, up, marks)
    trace, lent = hold([], (1, 4, 16))
    trace = plain.upload(trace, lent, *zip(*mark(FIVE, 2)))[3]
    assert plain.read(trace, lent)[:2] == (0, 7) and list(lent.ranks[:5]) == [3, 0, 3, 1, 3]


def check_unchecked_uploads():
    """Only a sample to add brings on the checks 1 to 5; no sample is good and unequal lists are 3 whatever is given."""
    trace, lent = hold(mark(LINE, 2), (1, 2))
    faults = [(1, plain.NO_TRACE, lent), (2, trace._replace(tolerances=(4, 4)), lent),
              (3, trace, lent._replace(marks=lent.marks[:15])), (4, trace._replace(n=17), lent),
              (5, trace._replace(n=4), lent)]
    for refusal, given, lends in faults:
        before = [part[:] for part in lends]
        assert plain.upload(given, lends, [], [], []) == (0, 0, 0, given), refusal
        assert plain.upload(given, lends, [1, 2], [1, 2], [0]) == (3, 0, 0, given), refusal
        assert plain.upload(given, lends, [1, 2], [1, 2], [0, 0]) == (refusal, 0, 0, given), refusal
        assert before == list(lends), refusal


def check_lists():
    """What the commands print, the room of each list, and reads after puts and after an upload of the same samples."""
    said = plain.Replay()
    said.answer(command(BUFS, 4, 4, 32, 4, 4))
    said.answer(command(START, 2, 4, 1, 5))
    for *numbers, expected in LISTS:
        line = said.answer(command(*numbers))
        found = line.rsplit(" ", 1)[0] if line else None
        assert found == expected, (numbers, line)
    for which in range(3):
        said.answer(command(EMPTY))
        assert [said.answer(command(LIST, which, 1)) for _ in range(322)] == [None] * 320 + ["?"] * 2, which
    script = b"".join(at_once(random.Random(0)))
    reads = [line for _, operation, line in plain.replay(script) if operation == READ]
    assert reads[::2] == reads[1::2] and len(set(reads)) == len(reads) // 2 > 1, reads


def check_lowest():
    """Up to three faults put into a call on purpose: it must give the lowest."""
    rng = random.Random(0)
    for call, size in product(FAULTS, range(4)):
        for faults in combinations(FAULTS[call], size):
            if not NEVER_TOGETHER & set(combinations(faults, 2)):
                (_, _, line), = plain.replay(b"".join(refused_case(rng, call, faults)))
                assert line.split()[0] == str(min(faults, default=0)), (call, faults, line)


def check_records():
    assert plain.decode(DAY[16:32]) == (0, (10, 1, 900, 0, 0, 0))
    assert plain.decode(BOOTED) == (0, (10, 1, 900, 2, 12_345, 1))
    assert plain.decode(DAY[:15])[0] == 10
    assert [plain.decode(BOOTED[:11] + bytes([e]) + BOOTED[12:])[0] for e in (0, 1, 2, 255)] == [11, 0, 11, 11]
    for earlier, later, expected, restart in INCREASES:
        told = b"".join(record(p, 0, pause, 0, boot, edition)
                        for p, (pause, boot, edition) in enumerate((earlier, later, later)))
        assert plain.pause_line(told) == (0, expected), (earlier, later)
        assert f"\n1 1 0 {3 if restart else 0}\n" in plain.dayline(told), (earlier, later)
    assert plain.pause_line(DAY[:64]) == (0, 600)
    assert plain.dayline(DAY) == DAY_PRINTED
    assert plain.dayline(b"") == plain.dayline(DAY[:16]) == "refused 9\n"


def check():
    check_geometry()
    check_ranks()
    check_corrected_marks()
    check_refusals()
    check_lent_marks()
    check_places()
    check_uploads()
    check_unchecked_uploads()
    check_lists()
    check_lowest()
    check_records()
