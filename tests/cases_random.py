"""Replay commands and days, random and adversarial, for generate and soak. Every case stands alone."""

import struct
from itertools import combinations, product

from plain import ASK, BUFS, DECODE, EMPTY, LIST, NOT_PERMITTED, POKE, PUT, READ, SETUP, START, UPLOAD

ACROSS, UP, CELL, RANK, MARK = range(5)
FAULTS = {  # the refusals that can arise in each call
    START: (1, 2),
    PUT: (1, 2, 3, 4, 5, 6, 7, 8),
    ASK: (1, 2, 3, 4, 5, 8),
    READ: (1, 2, 3, 4, 5, 9),
    UPLOAD: (1, 2, 3, 4, 5, 6, 7),
}
NEVER_TOGETHER = {(4, 7), (4, 9), (7, 8)}
TASTES = "none", "least", "most", "any"
KINDS = "equal", "back", "extreme", "line", "exact", "flat", "saw", "noisy"
OFTEN = 0, 0, 0.1, 0.5  # how many of a trace's samples are marked, or of a day's records follow a restart


def command(operation, *numbers):
    """One command; numbers left out are 0, a put's mark too."""
    return struct.pack("<B3x19i", operation, *numbers, *[0] * (19 - len(numbers)))


# ---- Samples and tolerances ----------------------------------------------------------------------------


def sample(rng, kind, p):
    """Sample number p of a trace of this kind."""
    if kind == "equal":
        return rng.choice([(3, 4), (3, 4), (0, 0)])
    if kind == "back":
        return rng.choice([20, -20, 8, -8]) + 5 * p * rng.choice([1, -1]), rng.randint(-4, 4)
    if kind == "extreme":
        ends = -16384, 16384, -16383, 0
        return rng.choice(ends), rng.choice(ends)
    if kind == "line":
        along = rng.randint(-6, 6)
        return 4 * along, 3 * along + rng.choice([0, 0, 0, 1])
    if kind == "exact":  # multiples of 5 away from a line, or from its end
        along, away = rng.randint(-1, 5), rng.randint(-2, 2)
        return rng.choice([(4 * along - 3 * away, 3 * along + 4 * away), (10 * along, 5 * away)])
    if kind == "flat":
        return 10 * p, rng.choice([0, 0, 0, 1, 2])
    if kind == "saw":
        return 6 * p, 9 * (p % 5) + rng.randint(-2, 2)
    return rng.randint(-9, 9), rng.randint(-9, 9)


def marked_sample(rng, kind, often, p):
    """The same with a mark, 1 as often as told."""
    return *sample(rng, kind, p), int(rng.random() < often)


def bad_sample(rng):
    """A new sample with a coordinate or its mark out of range, or both."""
    x, y, mark = marked_sample(rng, "noisy", 0.3, 0)
    far = [(16385, y), (x, 16385), (-16385, y), (x, -16385), (32767, -32768)]
    return rng.choice([(*rng.choice(far), mark), (x, y, 2), (x, y, 255), (*rng.choice(far), 2)])


def tolerances(rng, kind, m):
    """m rising tolerances, and zeros to 16."""
    if kind == "extreme" and m <= 6:
        pool = 1, 16383, 16384, 23170, 23171, 32767, 32768
    elif kind == "exact" and m <= 6:
        pool = 4, 5, 6, 9, 10, 14, 15, 20
    else:
        pool = range(1, 6 + 2 * m)
    return sorted(rng.sample(pool, m)) + [0] * (16 - m)


def legal_cell(rng, k, i, j, taste=None):
    """A value that a cell of the stretch may hold, whatever the samples."""
    most = 1 + (k - 1) * (j - i)
    taste = taste or rng.choice(TASTES)
    values = {"none": NOT_PERMITTED, "least": k, "most": most, "any": rng.randint(k, most)}
    return k if j == i + 1 else values[taste]


def illegal_cells(k, i, j):
    values = [k - 1, 2 + (k - 1) * (j - i), NOT_PERMITTED - 1]
    return values + [NOT_PERMITTED] if j == i + 1 else values


# ---- Replay cases --------------------------------------------------------------------------------------


def grow(rng, kind, often, m, N, n, spare=0):
    """A started trace of n samples, with reads on the way."""
    yield command(BUFS, N + spare, N, m * N * N + spare, n + spare, N + spare)
    yield command(START, m, N, *tolerances(rng, kind, m))
    for p in range(n):
        yield command(PUT, p, *marked_sample(rng, kind, often, p))
        if rng.random() < 0.3:
            yield command(READ)


def listed(*lists):
    """These values put at the end of the three lists."""
    for which, values in enumerate(lists):
        yield from (command(LIST, which, value) for value in values)


def upload(samples):
    """An upload of these samples and no others."""
    yield command(EMPTY)
    yield from listed(*zip(*samples))
    yield command(UPLOAD)


def corrections(rng, kind, often, n, times):
    """Corrections of first, last and other samples, some taken back, some of the mark alone; reads between."""
    for v in [0, n - 1, *(rng.randrange(n) for _ in range(times))]:
        yield command(PUT, v, *marked_sample(rng, kind, often, v))
        yield command(READ)
        if rng.random() < 0.4:
            here = x, y, mark = marked_sample(rng, kind, often, v)
            there = rng.choice([(x, y, 1 - mark), marked_sample(rng, kind, often, v + 1)])
            for place in here, there, here:
                yield command(PUT, v, *place)
            yield command(READ)


def own_case(rng, most_n, most_m):
    """A trace with a table of its own."""
    kind, often, m, n = rng.choice(KINDS), rng.choice(OFTEN), rng.randint(1, most_m), rng.randint(2, most_n)
    yield from grow(rng, kind, often, m, max(n, 2) + rng.randint(0, 2), n, rng.randint(0, 3))
    yield command(READ)
    yield from corrections(rng, kind, often, n, rng.randint(0, 3))
    asked = list(product(combinations(range(n), 2), range(1, m + 1)))
    for (i, j), k in asked if rng.random() < 0.1 and n < 8 else rng.sample(asked, min(3, len(asked))):
        yield command(ASK, i, j, k)


def random_upload(rng, kind, often):
    """An upload of up to 12 samples: now and then one is bad, a list is longer than the others or shorter, or the
    samples come after those of the upload before."""
    count = rng.choice([1, rng.randint(2, 5), rng.randint(0, 12)])
    samples = [marked_sample(rng, kind, often, p) for p in range(count)]
    if samples and rng.random() < 0.25:
        samples[rng.randrange(count)] = bad_sample(rng)
    lists = [[one[which] for one in samples] for which in range(3)]
    if samples and rng.random() < 0.15:
        odd = rng.choice(lists)
        odd[:] = rng.choice([odd + [1], odd[1:]])
    if rng.random() < 0.8:
        yield command(EMPTY)
    yield from listed(*lists)
    yield command(UPLOAD)


def upload_case(rng):
    """A trace with a table of its own that takes a few uploads, with puts, asks and reads between them."""
    kind, often, m, N = rng.choice(KINDS), rng.choice(OFTEN), rng.randint(1, 3), rng.choice([rng.randint(2, 9), 20])
    yield from grow(rng, kind, often, m, N, rng.randint(0, min(N, 4)), N)
    yield command(EMPTY)
    for _ in range(rng.randint(2, 4)):
        yield from random_upload(rng, kind, often)
        yield command(READ)
        if rng.random() < 0.4:
            yield command(PUT, rng.randrange(N), *marked_sample(rng, kind, often, 0))
            yield command(ASK, 0, rng.randrange(1, N), rng.randint(1, m))


def foreign_case(rng):
    """A trace whose table or samples are changed behind its back, to other legal values."""
    kind, often, m, n = rng.choice(KINDS), rng.choice(OFTEN), rng.randint(1, 4), rng.randint(3, 6)
    N = n + 2
    yield from grow(rng, kind, often, m, N, n, 2)
    cells = list(product(range(1, m + 1), combinations(range(n), 2)))
    tastes = rng.choice([["none", "least", "least", "least"], rng.choices(TASTES, k=4)])  # each level's cells alike
    chosen = cells if rng.random() < 0.4 else rng.sample(cells, rng.randint(1, len(cells)))
    for k, (i, j) in chosen:
        taste = tastes[k - 1] if chosen is cells else None
        yield command(POKE, CELL, (k - 1) * N * N + i * N + j, legal_cell(rng, k, i, j, taste))
    for _ in range(rng.choice([0, 0, 2])):
        yield command(POKE, rng.choice([ACROSS, UP]), rng.randrange(n), rng.choice([-16384, 16384, 0, 7]))
    for _ in range(rng.choice([0, 0, 2])):
        yield command(POKE, MARK, rng.randrange(n), rng.randint(0, 1))
    if rng.random() < 0.3:
        yield command(SETUP, m, N, n, *tolerances(rng, kind, m)[:m], *[rng.randint(0, 9) for _ in range(16 - m)])
    yield command(READ)
    held = n
    for _ in range(rng.randint(2, 4)):
        shape = rng.random()
        if shape < 0.6:
            yield command(PUT, rng.randrange(n), *marked_sample(rng, kind, often, n))
        elif shape < 0.8:
            yield command(PUT, held, *marked_sample(rng, kind, often, n))
            held = min(held + 1, N)
        else:
            new = [marked_sample(rng, kind, often, n) for _ in range(rng.randint(1, 3))]
            yield from upload(new)
            held = min(held + len(new), N)
        yield command(READ)


def spoiled_tolerances(rng, m, good):
    bad = list(good)
    at = rng.randrange(m)
    bad[at] = rng.choice([0, 32769, 2**31 - 1] + [bad[at - 1], bad[at - 1] - 1] * (at > 0))
    return bad


def spoiled_places(rng, call, m, N, n):
    """A poke that makes a stored coordinate or mark bad, or a cell where the call checks cells."""
    pairs = list(combinations(range(min(n, N)), 2))
    which = rng.choice([ACROSS, UP, MARK] + [CELL] * 3 * (call != ASK and pairs != []))
    if which == CELL:
        k, (i, j) = rng.randint(1, m), rng.choice(pairs)
        yield command(POKE, CELL, (k - 1) * N * N + i * N + j, rng.choice(illegal_cells(k, i, j)))
    else:
        bad = [2, 17, 255] if which == MARK else [16385, -16385, 32767, -32768]
        yield command(POKE, which, rng.randrange(min(n, N - 1)), rng.choice(bad))


def refused_call(rng, call, faults, n, N, m):
    """The call itself, with the faults that lie in its arguments; an upload's bad sample is any of its list."""
    count = rng.randint(1, max(N - n, 1)) if call == UPLOAD else 1
    new = [marked_sample(rng, "noisy", 0.3, p) for p in range(count)]
    if 6 in faults:
        new[rng.randrange(count)] = bad_sample(rng)
    if call == UPLOAD:
        return upload(new)
    if call == PUT:
        v = n if 7 in faults else rng.choice([n + 1, n + 2, 2**31 - 1]) if 8 in faults else rng.randrange(min(n + 1, N))
        return [command(PUT, v, *new[0])]
    if call == READ:
        return [command(READ)]
    i, j, k = 0, max(n - 1, 1), rng.randint(1, m)
    if 8 in faults:
        i, j, k = rng.choice([(j, j, k), (j, i, k), (i, n, k), (i, j, 0), (i, j, m + 1), (i, 2**31 - 1, k)])
    return [command(ASK, i, j, k)]


def refused_case(rng, call, faults):
    """A forged trace with exactly these faults, and the call, which must give the lowest of them (or 0 for none)."""
    m, n, kind = rng.randint(1, 3), rng.randint(2, 3), rng.choice(KINDS)
    if 9 in faults:
        n = 1 if 5 in faults else rng.randint(0, 1)
    N = n if 7 in faults else max(n, 2) + rng.randint(0 if call == PUT else 1, 2)
    if 4 in faults:
        n = N + rng.choice([1, 1, 40])
    lends = [N, N, m * N * N, n if call == READ else 0, N]
    if 3 in faults:
        lends[rng.choice([ACROSS, UP, MARK] + [CELL] * (call != ASK) + [RANK] * (call == READ and n > 0))] -= 1
    yield command(BUFS, *lends)
    for p in range(min(n, lends[ACROSS], lends[UP], lends[MARK])):
        for which, value in zip((ACROSS, UP, MARK), marked_sample(rng, kind, 0.3, p)):
            yield command(POKE, which, p, value)
    for k, (i, j) in product(range(1, m + 1), combinations(range(min(n, N)), 2)):
        yield command(POKE, CELL, (k - 1) * N * N + i * N + j, legal_cell(rng, k, i, j))
    if 5 in faults:
        yield from spoiled_places(rng, call, m, N, n)
    given = tolerances(rng, kind, m)
    if 2 in faults:
        given = spoiled_tolerances(rng, m, given)
    forged = (m, N)
    if 1 in faults:
        forged = rng.choice([(0, N), (17, N), (m, 1), (m, 0), (m, 257)])
    if call == START:
        yield command(START, *forged, *given)
    else:
        yield command(SETUP, *forged, n, *given)
        yield from refused_call(rng, call, faults, n, N, m)


def faults_of(rng, call):
    """A few faults that can arise together in this call."""
    chosen = sorted(rng.sample(FAULTS[call], rng.choice([0, 1, 1, 1, 2])))
    return [f for f in chosen if not any((g, f) in NEVER_TOGETHER for g in chosen)]


def forged_case(rng):
    """A call with a few faults; after an upload one of unequal lists."""
    call = rng.choice(list(FAULTS))
    yield from refused_case(rng, call, faults_of(rng, call))
    if call == UPLOAD:
        yield from (command(LIST, rng.randrange(3), 1), command(UPLOAD))
    yield command(READ)


def number(rng):
    return rng.choice([0, 1, 2, 3, rng.randint(-5, 20), rng.randint(-40000, 70000), 2**31 - 1, -2**31])


def wild_case(rng):
    """A trace, a list of one sample, then commands of any operation with any numbers; many print a question mark."""
    yield from grow(rng, rng.choice(KINDS), rng.choice(OFTEN), rng.randint(1, 3), 6, rng.randint(1, 5))
    yield from (command(EMPTY), *listed([4], [3], [1]))
    for _ in range(rng.randint(5, 15)):
        operation = rng.choice([POKE, POKE, SETUP, START, PUT, PUT, ASK, READ, DECODE, BUFS, LIST, EMPTY, UPLOAD,
                                UPLOAD, rng.randrange(256)])
        numbers = [number(rng) if rng.random() < 0.3 else rng.randint(0, 6) for _ in range(19)]
        if operation == PUT and rng.random() < 0.8:
            numbers[3] %= 2
        wild = bytearray(command(operation, *numbers))
        if rng.random() < 0.03:
            wild[rng.randint(1, 3)] = rng.randint(1, 255)
        yield bytes(wild)


# ---- Records and days ----------------------------------------------------------------------------------


TOP = 2**32 - 1  # of a pause counter


def record(across, up, pause=0, rank=0, boot=0, edition=0, spare=bytes(4)):
    return struct.pack("<hhIBHB4s", across, up, pause, rank, boot, edition, spare)


def bad_record(rng):
    """A record with a coordinate out of range, something that 11 is given for, or both."""
    outside = rng.choice([(16385, 0), (0, 16385), (-16385, 1), (1, -16385), (-32768, 32767)])
    stained = rng.choice([{"rank": rng.choice([17, 255])},
                          {"boot": rng.choice([1, 256, 65535])},
                          {"boot": rng.choice([0, 7]), "edition": rng.choice([2, 3, 128, 255])},
                          {"edition": rng.randint(0, 1), "spare": (1 << 8 * rng.randrange(4)).to_bytes(4, "little")}])
    return rng.choice([record(*outside), record(1, 2, 3, **stained), record(*outside, 9, **stained)])


def decode_case(rng):
    x, y = rng.choice([(16384, -16384), (-1, 1), sample(rng, "noisy", 0)])
    edition = rng.randint(0, 1)
    boot = edition * rng.choice([0, 1, 255, 256, 65535, rng.getrandbits(16)])
    good = record(x, y, rng.choice([0, 1, 2**31, TOP, rng.getrandbits(32)]), rng.randint(0, 16), boot, edition)
    body = good if rng.random() < 0.5 else bad_record(rng)
    yield bytes([DECODE, 0, 0, 0]) + body + bytes(rng.randrange(256) for _ in range(60))


def later(rng, pause, boot, often):
    """A pause counter and a boot number after these: it stays or rises, or as often as told leaps, rolls over, or
    restarts, lower or higher."""
    more, new = rng.randrange(900), rng.choice([(boot + 1) % 2**16, rng.getrandbits(16)])
    if rng.random() >= often:
        return rng.choice([(pause, boot), (min(pause + more, TOP), boot)])
    return rng.choice([(TOP, boot), (more, boot), ((pause + rng.getrandbits(32)) % 2**32, boot), (more, new),
                       (min(pause + more, TOP), new)])


def day(rng, count, kind=None):
    """Good records of one kind, of one edition or of both, some of them after a restart."""
    kind, editions, records = kind or rng.choice(KINDS), rng.choice([(0,), (1,), (0, 1)]), []
    pause, boot, often = rng.choice([0, 500, TOP]), rng.choice([0, 1, 65535]), rng.choice(OFTEN)
    for p in range(count):
        rank, edition = rng.choice([0, 0, rng.randint(1, 16)]), rng.choice(editions)
        records.append(record(*sample(rng, kind, p), pause, rank, boot * edition, edition))
        pause, boot = later(rng, pause, boot, often)
    return b"".join(records)


def random_day(rng):
    """Mostly good days of 2 to 104 records; some too short, too long, cut or with bad records."""
    shape = rng.random()
    if shape < 0.8:
        return day(rng, rng.choice([rng.randint(2, 8), rng.randint(2, 40), rng.randint(2, 104)]))
    if shape < 0.85:
        return day(rng, rng.choice([0, 1, 104, 105, 150]))
    if shape < 0.9:
        return day(rng, rng.randint(0, 30)) + bytes(rng.randint(1, 15))
    records = [bad_record(rng) if rng.random() < 0.05 else day(rng, 1) for _ in range(rng.randint(1, 200))]
    records.insert(rng.randint(0, len(records)), bad_record(rng))
    return b"".join(records)


def day_list(several):
    """The standard input of days."""
    return b"".join(len(one).to_bytes(4, "little") + one for one in several)


# ---- Choice for soak -----------------------------------------------------------------------------------


def random_case(rng):
    """One case of any sort."""
    sorts = {"small": 8, "medium": 1, "upload": 12, "foreign": 6, "forged": 40, "wild": 4, "decode": 6}
    sort = rng.choices(list(sorts), list(sorts.values()))[0]
    if sort == "small":
        return own_case(rng, 7, 3) if rng.random() < 0.9 else own_case(rng, 4, 16)
    if sort == "medium":
        return own_case(rng, 30, 5)
    cases = {"upload": upload_case, "foreign": foreign_case, "forged": forged_case, "wild": wild_case,
             "decode": decode_case}
    return cases[sort](rng)
