"""The replay script and the days of the generated files: boundaries, refusals alone and in pairs, odd input, and
a fixed choice of the random cases."""

from itertools import combinations, product

from cases_random import (ACROSS, CELL, FAULTS, MARK, NEVER_TOGETHER, RANK, TOP, UP, command, day, decode_case,
                          foreign_case, forged_case, grow, listed, marked_sample, own_case, record, refused_case,
                          upload, upload_case, wild_case)
from plain import ASK, BUFS, DECODE, EMPTY, LIST, NOT_PERMITTED, POKE, PUT, READ, SETUP, START, UPLOAD

RISING = tuple(range(1, 17))
MOST = 2**31 - 1


def every_call(places=(1, 2, 3)):
    """Each call on a trace, with arguments that a trace of two samples takes, samples at these places, and the lists as
    they stand."""
    puts = [command(PUT, v, 5 + p, 6, p % 2) for p, v in enumerate(places)]
    return *puts, command(ASK, 0, 1, 1), command(READ), command(UPLOAD)


def only(*lists):
    """The three lists with these values and no others."""
    return command(EMPTY), *listed(*lists)


def starts():
    """Both sides of the bounds of start, the same forged, and calls on what it gives; at first the lists are empty."""
    yield from every_call()
    yield from listed([5], [6], [1])
    yield command(BUFS, 4, 4, 64, 4, 4)
    for m, N in product((0, 1, 16, 17), (1, 2, 4, 256, 257)):
        yield command(START, m, N, *RISING)
        yield from every_call()
    for given in ((0, 1), (1, 0), (1, 2), (4, 4), (5, 4), (32767, 32768), (32768, 32769), (32769, 1), (1, MOST)):
        for m in 1, 2:
            yield command(START, m, 2, *given, 0, 9, *[0] * 11, MOST)
            yield command(SETUP, m, 2, 0, *given, 0, 9, *[0] * 11, MOST)
            yield from every_call()
    for last in 15, 16, 32768, 32769:
        yield command(START, 16, 2, *RISING[:15], last)
    yield command(START, MOST, MOST, *[MOST] * 16)
    yield from every_call()


def poked_trace(m, N, n, lends):
    """A forged trace of n samples of which the stored ones, and their cells, are good."""
    yield command(BUFS, *lends)
    for p in range(min(n, N, lends[ACROSS], lends[UP], lends[MARK])):
        yield command(POKE, ACROSS, p, 10 * p)
        yield command(POKE, UP, p, p % 2)
        yield command(POKE, MARK, p, p // 2 % 2)
    for k, (i, j) in product(range(1, m + 1), combinations(range(min(n, N)), 2)):
        yield command(POKE, CELL, (k - 1) * N * N + i * N + j, k)
    yield command(SETUP, m, N, n, *RISING)


def lends():
    """Buffers exactly long enough and each one short, for n below, at and above N."""
    yield from only([5], [6], [1])
    for n, short in product((1, 2, 3, 4), (None, ACROSS, UP, CELL, RANK, MARK)):
        lengths = [3, 3, 18, n, 3]
        if short is not None:
            lengths[short] -= 1
        yield from poked_trace(2, 3, n, lengths)
        yield from every_call()
    for n in 255, 256, 257, MOST:
        yield command(BUFS, 256, 256, 65536, 256, 256)
        yield command(SETUP, 1, 256, n, *RISING)
        yield from every_call(places=(1, n))


def places(rng):
    """A sample put at every place of a trace, at the next and past it, for every count of samples held."""
    m, N = 2, 4
    for n, v in product(range(N + 1), (*range(N + 3), MOST)):
        yield from grow(rng, "exact", 0.1, m, N, n)
        for new in (7, 8, 1), (16385, 8, 0), (8, 7, 2), (8, 7, 0):
            yield from (command(PUT, v, *new), command(READ))


def refusals(rng):
    """Each refusal of each call alone (an upload's are in checked_late and stops), and each two that can meet, with a
    read after."""
    for call, numbers in FAULTS.items():
        pairs = [pair for pair in combinations(numbers, 2) if pair not in NEVER_TOGETHER]
        alone = [(number,) for number in numbers for _ in range(3) if call != UPLOAD]
        for faults in [(), *alone, *pairs]:
            yield from refused_case(rng, call, faults)
            yield command(READ)


def coordinates():
    """Both sides of the bounds of new and of stored coordinates; an upload is of a sample that no trace takes."""
    edges = 16384, 16385, -16384, -16385, 32767, -32768
    yield from only([5], [6], [2])
    yield command(BUFS, 16, 16, 512, 16, 16)
    yield command(START, 2, 16, *RISING)
    held = 0
    for x, y in [(edge, 0) for edge in edges] + [(0, edge) for edge in edges]:
        yield command(PUT, held, x, y)
        yield command(PUT, 0, x, y)
        held += max(abs(x), abs(y)) <= 16384
    for which, place, value in product((ACROSS, UP), (0, 2, 3), edges):
        yield command(POKE, which, place, value)
        yield from every_call(places=(1,))
        yield command(POKE, which, place, 0)


def mark_edges():
    """Both sides of the bounds of new marks, also beside a bad coordinate, and of stored ones below n and past it; an
    upload is of a sample that no trace takes."""
    yield from only([16385], [6], [1])
    yield command(BUFS, 4, 4, 32, 4, 4)
    yield command(START, 2, 4, *RISING)
    held = 0
    for mark in 1, 0, 2, 255, 256, -1:
        yield command(PUT, held, 16385, 0, mark)
        yield command(PUT, held, 10 * held, 0, mark)
        yield command(PUT, 0, 0, 0, mark)
        held += mark in (0, 1)
    for place, value in product((0, 1, 2, 3), (0, 1, 2, 17, 255)):
        yield command(POKE, MARK, place, value)
        yield from (command(PUT, 1, 10, 0, 2), *every_call(places=(1,)))
        yield command(POKE, MARK, place, 0)


def cell_edges():
    """Every sort of value in every cell of four samples, each followed by a call; an upload is of a sample that no
    trace takes."""
    m, N, n = 3, 5, 4
    yield from only([5], [-16385], [1])
    yield from poked_trace(m, N, n, [N, N, m * N * N, N, N])
    calls = (command(READ), command(PUT, 2, 3, 3), command(UPLOAD), command(ASK, 0, 3, 2), command(READ),
             command(PUT, 4, 16385, 0), command(UPLOAD))
    turn = 0
    for k, (i, j) in product(range(1, m + 1), combinations(range(n), 2)):
        most = 1 + (k - 1) * (j - i)
        for value in k - 1, k, most, most + 1, NOT_PERMITTED, NOT_PERMITTED - 1:
            yield command(POKE, CELL, (k - 1) * N * N + i * N + j, value)
            yield calls[turn % len(calls)]
            turn += 1
        yield command(POKE, CELL, (k - 1) * N * N + i * N + j, k)


def unread_places(rng):
    """Values that check 5 would refuse, in places that no call reads."""
    m, N, n = 2, 5, 3
    yield from grow(rng, "exact", 0, m, N, n)
    for k, i, j in product(range(1, m + 1), range(N), range(N)):
        if i >= j or j >= n:
            yield command(POKE, CELL, (k - 1) * N * N + i * N + j, rng.choice([0, 999, NOT_PERMITTED, 65534]))
    for which, place in product((ACROSS, UP), range(n, N)):
        yield command(POKE, which, place, rng.choice([32767, -32768, 16385]))
    for place in range(n, N):
        yield command(POKE, MARK, place, rng.choice([2, 17, 255]))
    yield from (command(READ), command(ASK, 0, 2, 1), command(PUT, 1, 2, 2), command(PUT, n, 9, 9), command(READ))
    yield from (*upload([(9, 8, 1)]), command(READ))


def dear_below():
    """A stretch that is permitted one level finer, but dearer there than a path over the cells found."""
    N = 5
    yield command(BUFS, N, N, 3 * N * N, N, N)
    yield command(START, 3, N, 1, 5, 16)
    for p in range(4):
        yield command(PUT, p, 10 * p, (0, 4, -4, 4)[p])
    yield command(POKE, CELL, N * N + 3, 2)
    yield from (command(PUT, 4, 40, 0), command(READ), command(PUT, 4, 41, 0), command(READ))


def asks(rng):
    """Every stretch and level of a trace, and those just outside it."""
    m, n = 2, 4
    yield from grow(rng, "exact", 0, m, n + 1, n)
    for i, j, k in product(range(n + 1), range(n + 1), range(m + 2)):
        yield command(ASK, i, j, k)


def in_turn(lists, calls):
    """A trace of tolerances 1 and 5 that holds each of these lists of ups and marks in turn, by putting only the
    samples that differ, and these calls after each."""
    N, held = len(lists[0]), ()
    yield command(BUFS, N, N, 2 * N * N, N, N)
    yield command(START, 2, N, 1, 5)
    for each in lists:
        yield from (command(PUT, p, 10 * p, *one) for p, one in enumerate(each) if held[p:p + 1] != (one,))
        yield from calls
        held = each


def spoilers():
    """Every way for four samples to lie near the line between two ends, off by more than the first tolerance, off by
    more than both, or on it and marked."""
    ways = product(((0, 0), (4, 0), (9, 0), (0, 1)), repeat=4)
    return in_turn([((0, 0), *four, (0, 0)) for four in ways], [command(ASK, 0, 5, 1), command(ASK, 0, 5, 2)])


def marks():
    """Every way to mark four samples, of which the third lies off the line: a read, and every stretch and level."""
    ways = [tuple(zip((0, 0, 4, 0), four)) for four in product((0, 1), repeat=4)]
    asked = product(combinations(range(4), 2), (1, 2))
    return in_turn(ways, [command(READ), *(command(ASK, i, j, k) for (i, j), k in asked)])


def question_marks():
    """Commands that cannot be taken, and their nearest that can; the reads show that nothing changed."""
    yield from poked_trace(2, 3, 2, [3, 3, 18, 3, 3])
    yield command(READ)
    for operation in 4, 5, 13, 128, 255:
        yield command(operation)
    yield from (command(4, 3, 3), command(5, 0, 3, 3))  # an addition and a correction, once calls of their own
    for at in 1, 2, 3:
        yield command(READ)[:at] + b"\x01" + command(READ)[at + 1:]
    for at, bad in (0, -1), (1, 321), (2, 1048577), (3, 321), (2, -1), (3, -1), (4, 321), (4, -1):
        yield command(BUFS, *[bad if p == at else length for p, length in enumerate((3, 3, 18, 3, 3))])
    for bad in (-1, 0, 0), (5, 0, 0), (0, -1, 0), (0, 3, 0), (1, 3, 0), (2, 18, 0), (3, 3, 0), (4, 3, 0):
        yield command(POKE, *bad)
    signed, byte = (-32768, 32767), (0, 255)
    for which, (low, high) in enumerate((signed, signed, (0, 65535), byte, byte)):
        for value in low - 1, high + 1, low, high:
            yield command(POKE, which, 2, value)
    for at in 0, 1, 2, 3, 18:
        yield command(SETUP, *[-1 if p == at else 2 for p in range(19)])
    for at in 0, 1, 2, 17:
        yield command(START, *[-1 if p == at else 2 for p in range(18)])
    for bad in (32768, 0, 0), (-32769, 0, 0), (0, 32768, 0), (0, -32769, 0), (0, 0, 256), (0, 0, -1):
        yield command(PUT, 2, *bad)
        yield command(PUT, 0, *bad)
    for bad in (-1, 1, 1), (0, -1, 1), (0, 1, -1):
        yield command(ASK, *bad)
    yield command(PUT, -1, 0, 0, 0)
    yield command(READ, *[-1] * 19)
    yield command(ASK, 0, 1, 1, *[-1] * 16)
    yield command(PUT, 0, 4, 4, 1, *[-1] * 15)
    yield command(PUT, 2, 3, 3, 0, *[-1] * 15)
    yield command(BUFS, 4, 4, 18, 4, 4, -1)
    yield command(START, 2, 3, *RISING, -1)
    yield command(PUT, 0, 1, 1)


def unequal():
    """Lists that get one value at a time, and an upload after each: to a trace that takes samples, and to one that
    takes none. Each list comes to be the longest, the shortest, the only empty one and the only one that is not."""
    yield command(BUFS, 16, 16, 512, 16, 16)
    for trace in command(START, 2, 16, *RISING), command(SETUP, 0, 16, 3, *RISING):
        yield trace
        for turns in (0, 1, 2, 0, 2, 1, 1, 0, 2, 2, 1, 0), (2, 1, 0), (0, 2, 1), (1,):
            yield from (command(EMPTY), command(UPLOAD))
            for p, which in enumerate(turns):
                yield from (command(LIST, which, p % 2 if which == 2 else 3 * p), command(UPLOAD))
        yield command(READ)


def checked_late():
    """What each of the checks 1 to 5 refuses: an upload of no sample and one of unequal lists, which do not come to
    the check, and one of a sample, which does. At last nothing that it refuses, with no ranks lent."""
    uploads = *only(), command(UPLOAD), *listed([7], [8]), command(UPLOAD), *listed([], [], [1]), command(UPLOAD)
    yield command(SETUP, 2, 3, 2, *RISING)
    for lengths in (2, 3, 18, 3, 3), (3, 2, 18, 3, 3), (3, 3, 17, 3, 3), (3, 3, 18, 3, 2):
        yield from (command(BUFS, *lengths), *uploads)
    yield from poked_trace(2, 3, 2, [3, 3, 18, 0, 3])
    for forged in (0, 3, 2), (17, 3, 2), (2, 1, 2), (2, 257, 2), (2, 3, 4), (2, 3, MOST):
        yield from (command(SETUP, *forged, *RISING), *uploads)
    for given in (0, 4), (4, 4), (4, 32769):
        yield from (command(SETUP, 2, 3, 2, *given), *uploads)
    yield command(SETUP, 2, 3, 2, *RISING)
    for which, place, bad, good in (ACROSS, 1, 16385, 10), (UP, 0, -16385, 0), (MARK, 1, 2, 0), (CELL, 10, 1, 2):
        yield from (command(POKE, which, place, bad), *uploads, command(POKE, which, place, good))
    yield from uploads


def bad_in_lists():
    """A coordinate or mark out of range in the first, the second and the last of three samples."""
    yield from (command(BUFS, 12, 12, 288, 12, 12), command(START, 2, 12, *RISING))
    for which, bads in enumerate(((16385, -16385, -32768), (-16385, 32767, 16385), (2, 255, 2))):
        for place, bad in enumerate(bads):
            lists = [10, 20, 30], [which, 5, 2], [0, which % 2, 0]
            lists[which][place] = bad
            yield from (*only(*lists), command(UPLOAD), command(READ))


def stops():
    """Three samples, none or one of them bad, uploaded twice to a trace that has room for four and holds up to four:
    all are taken, or the bad one stops it, or the first without room."""
    yield command(BUFS, 4, 4, 32, 4, 4)
    for bad in None, 0, 1, 2:
        lists = [10, 20, 30], [4, 0, 9], [0, 1, 0]
        if bad is not None:
            lists[bad][bad] = (16385, -16385, 2)[bad]
        yield from only(*lists)
        for held in range(5):
            yield command(START, 2, 4, 1, 5)
            yield from (command(PUT, p, 10 * p, p % 2) for p in range(held))
            yield from (command(UPLOAD), command(READ)) * 2


def at_once(rng):
    """The same samples put one by one and uploaded, after the same others and in the same buffers: equal reads."""
    for kind, m, held, count in ("exact", 3, 2, 4), ("extreme", 2, 0, 5), ("saw", 5, 7, 9):
        N = held + count + 1
        samples = [marked_sample(rng, kind, 0.2, p) for p in range(N - 1)]
        puts = [command(PUT, p, *one) for p, one in enumerate(samples)]
        begin = command(BUFS, N, N, m * N * N, N, N), command(START, m, N, *RISING), *puts[:held]
        yield from (*begin, *puts[held:], command(READ))
        yield from (*begin, *upload(samples[held:]), command(READ))


def lists_stay():
    """Lists filled by turns, that stay as they are through every other operation and through uploads."""
    yield command(EMPTY)
    for one in (3, 4, 0), (13, 5, 1), (23, -4, 0):
        yield from (command(LIST, which, value) for which, value in enumerate(one))
    yield from (command(BUFS, 12, 12, 432, 12, 12), command(START, 3, 12, 1, 5, 9), command(PUT, 0, -7, -4))
    yield from (command(UPLOAD), command(READ), command(ASK, 0, 3, 2), command(POKE, RANK, 0, 9), command(DECODE))
    yield from (command(13), command(UPLOAD), command(READ), *listed([33], [4], [1]), command(UPLOAD), command(READ))
    yield from (command(SETUP, 3, 12, 2, 1, 5, 9), command(UPLOAD), command(EMPTY), command(UPLOAD), command(READ))


def list_values():
    """Values and lists that cannot be, and commands with a byte that is not zero; uploads show that the lists stay,
    of one bad sample at the edges of its types. Numbers that are not used may be any."""
    yield from (command(BUFS, 2, 2, 4, 2, 2), command(START, 1, 2, 1), *upload([(32767, -32768, 255)]))
    coordinates = product((0, 1), (32768, -32769, 65536, MOST))
    for which, value in *coordinates, (2, 256), (2, -1), (2, MOST), (3, 0), (-1, 0), (256, 0):
        yield from (command(LIST, which, value), command(UPLOAD))
    for operation in LIST, EMPTY, UPLOAD:
        yield from (bytes([operation, 0, 0, 1]) + command(operation)[4:], command(UPLOAD))
    yield from (command(EMPTY, *[-1] * 19), command(LIST, 2, 0, *[-1] * 17), command(LIST, 1, -16384, *[-1] * 17))
    yield from (command(LIST, 0, 16384, *[-1] * 17), command(UPLOAD, *[-1] * 19))


def longest_lists(rng):
    """Lists of 320 values, which take no value more, uploaded to a trace that takes 256 samples; then begun again."""
    samples = [marked_sample(rng, "saw", 0.1, p) for p in range(320)]
    yield from (command(BUFS, 256, 256, 65536, 256, 256), command(START, 1, 256, 3))
    yield from (*upload(samples), command(READ))
    for which in range(3):
        yield from (command(LIST, which, 1), command(UPLOAD))
    yield from (*only([1]), command(UPLOAD), *listed([], [2], [0]), command(UPLOAD))


def decodes(rng):
    """Boundaries of a record, each spare byte, editions and boot numbers, 6 before 11, and random ones."""
    edges = 16384, 16385, -16384, -16385, 32767, -32768, -1
    bodies = [record(x, y, 1) for x, y in product(edges, (0, 16384, -16385))]
    bodies += [record(10, 1, pause, rank) for pause in (900, 2**31, 2**32 - 1) for rank in (0, 1, 16, 17, 255)]
    bodies += [record(10, 1, 900, 2, *told) for told in product((0, 1, 255, 256, 65535), (0, 1, 2, 128, 255))]
    bodies += [record(-2, -3, 4, 5, edition, edition, bytes(at) + value + bytes(3 - at))
               for edition in (0, 1) for at in range(4) for value in (b"\1", b"\x80")]
    bodies += [record(16385, 0, rank=17), record(0, -16385, boot=1), record(0, -16385, edition=2)]
    bodies += [record(-16385, 0, spare=b"\1" * 4), bytes(16), b"\xff" * 16]
    for body in bodies:
        yield bytes([DECODE, 0, 0, 0]) + body + b"\xff" * 60
    for _ in range(30):
        yield from decode_case(rng)


def full_size(rng):
    """The largest trace: 256 samples, 16 levels; the last forty come at once."""
    yield command(BUFS, 320, 320, 1048576, 320, 320)
    yield command(START, 16, 256, *RISING[:15], 40)
    samples = [marked_sample(rng, "saw" if p < 128 else "noisy", 0.02, p) for p in range(256)]
    yield from (command(PUT, p, *one) for p, one in enumerate(samples[:216]))
    yield from (*upload(samples[216:]), command(READ), command(UPLOAD))
    yield from (command(PUT, 256, 0, 0), command(PUT, 257, 0, 0))
    yield from (command(ASK, 0, 255, 16), command(ASK, 3, 9, 16))
    for v in 255, 250, 128:
        yield command(PUT, v, *marked_sample(rng, "saw", 0.5, v + 1))
    yield command(READ)


def replay_script(rng):
    """The whole standard input of replay; its last command is cut short."""
    parts = [starts(), lends(), places(rng), refusals(rng), coordinates(), mark_edges(), cell_edges(),
             unread_places(rng), dear_below(), asks(rng), spoilers(), marks(), question_marks(), unequal(),
             checked_late(), bad_in_lists(), stops(), at_once(rng), lists_stay(), list_values(), longest_lists(rng),
             decodes(rng)]
    parts += [own_case(rng, 7, 3) for _ in range(70)]
    parts += [own_case(rng, 4, 16) for _ in range(6)]
    parts += [own_case(rng, 30, 5) for _ in range(10)]
    parts += [upload_case(rng) for _ in range(8)]
    parts += [case(rng) for case in (foreign_case, forged_case, wild_case) for _ in range(25)]
    parts += [full_size(rng)]
    return b"".join(one for part in parts for one in part) + command(READ)[:79]


def counters(*told):
    """A day of these pause counters: one in a pair with its boot number is of edition 1, one alone of edition 0."""
    fields = [(one[1], 0, one[0], 1) if isinstance(one, tuple) else (one,) for one in told]
    return b"".join(record(p, -p, *each) for p, each in enumerate(fields))


def restarts():
    """Days on one straight line, where only a mark keeps a sample: restarts early, late, in a row, and none."""
    yield from (counters((7, 5), (7, 6), (7, 7)), counters((7, TOP), (7, 4), (7, 9)), counters((7, 9), (7, 5), (7, 5)))
    yield from (counters((1, 5), (2, 9), (2, 9), (2, 9)), counters((1, 5), (1, 5), (2, 9), (2, 9)))
    yield from (counters((1, 5), (1, 5), (1, 5), (2, 9)), counters((1, 5), (2, 0), (2, 3), (2, 4), (3, 0)))
    yield from (counters((1, 5), (2, 5), (3, 5), (4, 5), (4, 5)), counters((1, 5), (2, 5), (1, 5), (2, 5), (1, 5)))
    yield from (counters(9, 5, 5), counters(9, 9, 5), counters(9, 8, 7, 6, 5), counters(5, 6, 6, 7, 8))
    # two boots with edition 0 between them: no pair of edition 1, so only a lower counter is a restart
    yield from (counters((1, 5), 5, (2, 5), (2, 5)), counters((1, 5), 4, (2, 4), (2, 4)))
    yield counters((1, 5), 5, (2, 4), (2, 4))
    yield from (counters(*[(p // long, p) for p in range(104)]) for long in (1, 9))


def fixed_days(rng):
    """Days at every bound, with every refusal, and one of each size that dayline takes."""
    outside, both = record(0, 16385), record(-16385, 0, spare=b"\1" * 4)
    stains = [record(0, 0, rank=17), record(0, 0, boot=1), record(0, 0, boot=256), record(0, 0, edition=2),
              record(0, 0, boot=7, edition=255), record(0, 0, boot=7, edition=1, spare=b"\0\0\0\1")]
    stained = stains[0]
    yield from (day(rng, count) for count in (0, 1, 103, 104, 105))
    yield from (day(rng, 150) + bad + day(rng, 20) for bad in (outside, *stains, both))
    yield from (both, outside + stained, stained + outside, stained + both, day(rng, 1) + stained)
    yield from (day(rng, count, "noisy") for count in (4096, 4097))
    yield day(rng, 4095, "noisy") + stained
    yield day(rng, 4096, "noisy")[:-1]
    yield day(rng, 4096, "noisy") + b"\0"
    yield from (bytes(15), bytes(17), bytes(16), bytes(32), outside[:15], outside + b"\0")
    yield from (counters(500, 900, 120, 200), counters(7, 7, 7), counters(9, 0), counters(TOP, 0, TOP, 0, TOP))
    yield from (counters(0, TOP, TOP - 1, TOP), counters(TOP, TOP), counters(0, 1))
    # restarts that overtake or do not, roll-overs, boot numbers that differ in one byte, mixed editions
    yield from (counters((1, 500), (2, 900)), counters((1, 900), (2, 120)), counters((1, 500), (1, 900), (2, 1000)))
    yield from (counters((7, TOP - 9), (7, 4)), counters((0, 900), (0, 120)), counters((9, TOP), (9, 0), (9, TOP)))
    yield from (counters((1, 5), (257, 9), (257, 9)), counters((256, 5), (257, 9), (257, 9)))
    yield counters((65535, 5), (0, 9), (65535, 9))
    nexts = 900, 120, (0, 900), (0, 120), (2, 900), (2, 120)
    yield from (counters(*pair, pair[1]) for pair in product((500, (0, 500), (1, 500)), nexts))
    yield counters((1, 500), 900, (2, 950), (2, 10), 20, 15, (2, TOP), (2, 3), (3, 4), 4)
    yield from restarts()
    yield b"".join(record(3 * p, p % 3, p, p) for p in range(17))
    for count in range(2, 105):
        yield day(rng, count)
