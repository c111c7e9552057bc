"""Document 01's definitions, for reading and not for speed. Rows are tuples of symbols."""
from functools import lru_cache
from itertools import product, zip_longest
from math import gcd


def turn(row, j):
    return row[j:] + row[:j]


def shelved(row):
    return all(row <= turn(row, j) for j in range(len(row)))


def without_symmetry(row):
    return all(row < turn(row, j) for j in range(1, len(row)))


def first_difference(row, other):
    """The place of the first difference, just after the shorter where one begins the other; 0 where they are equal."""
    return next((p for p, (x, y) in enumerate(zip_longest(row, other), 1) if x != y), 0)


def up_to_unequal(pieces, others):
    """How many pairs there are up to the first unequal one; with none, all."""
    return next((k for k, (x, y) in enumerate(zip(pieces, others), 1) if x != y), len(pieces))


def pairs(row, other):
    """How many pairs are compared: words of eight, then the remaining bytes singly."""
    n = min(len(row), len(other))
    words, others = ([r[i : i + 8] for i in range(0, n - n % 8, 8)] for r in (row, other))
    if words != others:
        return up_to_unequal(words, others)
    return len(words) + up_to_unequal(row[n - n % 8 : n], other[n - n % 8 : n])


def period(row):
    return next(p for p in range(1, len(row) + 1) if turn(row, p) == row)


def key(row):
    least = min(turn(row, j) for j in range(len(row)))
    return least, next(j for j in range(len(row)) if turn(row, j) == least), period(row)


def fittings(row):
    """The turns of a row, and of its reverse."""
    return [turn(face, j) for face in (row, row[::-1]) for j in range(len(row))]


def turned_key(row):
    return min(fittings(row))


def nearest_turn(row, other):
    """The signed turn from one row to the other, the nearest to zero, the positive one of two; None where there is none."""
    n = len(row)
    turns = [s for s in range(-n, n + 1) if turn(row, s % n) == other]
    return min(turns, key=lambda s: (abs(s), s < 0), default=None)


def fitting(row, other):
    """How a row fits another, and the signed turn."""
    plain, over = nearest_turn(row, other), nearest_turn(row[::-1], other)
    if plain is None:
        return ("different", 0) if over is None else ("over", over)
    return ("turning" if over is None else "both", plain)


def of_kind(kind, row):
    if kind == 2:
        return without_symmetry(row)
    return kind == 1 or turned_key(row) == row


@lru_cache(None)
def all_shelved(n):
    return [row for row in product((1, 0), repeat=n) if shelved(row)]


@lru_cache(None)
def drawer(n, d):
    """The kind 1 rings of (n, d), falling."""
    return [row for row in all_shelved(n) if sum(row) == d]


def row_of_pitches(n, pitches):
    """A pitch p: p stations, the last of them a hole."""
    return tuple(x for p in pitches for x in (0,) * (p - 1) + (1,)) or (0,) * n


def pitches_of_row(row):
    """How many stations from one hole on to the next: the differences of their places."""
    holes = [place for place, x in enumerate(row, 1) if x]
    return [place - before for before, place in zip([0] + holes, holes)]


@lru_cache(None)
def ways(n, d):
    """To choose d of n: the ends are 1, inner entries the sum of the two above."""
    return 1 if d in (0, n) else ways(n - 1, d - 1) + ways(n - 1, d)


def bracelets(n, d):
    """How many rings of kind 3 a drawer has, none of them listed: the rows that each turn and each turning over leaves as they are, on average."""
    kept = sum(ways(g, d * g // n) for g in (gcd(n, j) for j in range(n)) if d * g % n == 0)
    for j in range(n):
        alone = sum((j - i) % n == i for i in range(n))
        pairs = (n - alone) // 2
        kept += sum(ways(alone, k) * ways(pairs, (d - k) // 2) for k in range(alone + 1) if (d - k) % 2 == 0 and 0 <= d - k <= 2 * pairs)
    return kept // (2 * n)


# ---- seats


@lru_cache(None)
def rings_of(n, d, kind):
    """The rings of a drawer and kind, rising."""
    return [row for row in reversed(drawer(n, d)) if of_kind(kind, row)]


def next_state(row, state, symbol):
    """Of some symbols read, the end that begins the row and is as long as can be stands as a state: its length. None where the symbol
    takes some end below the row, or makes the whole of it."""
    read = row[:state] + (symbol,)
    ends = [read[i:] for i in range(len(read))]
    if any(end < row[: len(end)] for end in ends) or read == row:
        return None
    return max((len(end) for end in ends if end == row[: len(end)]), default=0)


@lru_cache(None)
def rows_above(row):
    """For each m that divides the length n, by holes: how many rows of m symbols, said n / m times, have all turns above the row. Said
    on and on such a row comes back to a state, after m symbols, and to one only. The counts by holes are the digits of a number."""
    n, digit = len(row), 80
    moves = [(i, next_state(row, i, symbol), digit * symbol) for i in range(n) for symbol in (0, 1)]
    moves = [(i, j, shift) for i, j, shift in moves if j is not None]
    back = [0] * (n + 1)
    for start in range(n):
        reached = [int(i == start) for i in range(n)]
        for m in range(1, n + 1):
            after = [0] * n
            for i, j, shift in moves:
                if reached[i]:
                    after[j] += reached[i] << shift
            reached = after
            back[m] += reached[start]
    return {m: [back[m] >> digit * e & (1 << digit) - 1 for e in range(m + 1)] for m in range(1, n + 1) if n % m == 0}


def moebius(k):
    """0 where a square above 1 divides k, else 1 or -1 by the number of primes that do."""
    primes = [p for p in range(2, k + 1) if k % p == 0 and all(p % q for q in range(2, p))]
    return 0 if any(k % (p * p) == 0 for p in primes) else (-1) ** len(primes)


def rank_by_turns(n, d, kind, row):
    """Rows with a turn at or below the row, m of them for each ring of period m. A row with k times the same is one of n / k symbols."""
    both = gcd(n, d)
    above = rows_above(row)
    below = {k: ways(n // k, d // k) - above[n // k][d // k] for k in range(1, both + 1) if both % k == 0}

    def aperiodic(k):
        """The rings that say k times a ring without symmetry."""
        return sum(moebius(m // k) * below[m] for m in below if m % k == 0) * k // n

    return aperiodic(1) if kind == 2 else sum(map(aperiodic, below))


def rank(n, d, kind, row):
    """The seat of a row: how many rings of the drawer and kind lie at or below it."""
    if n <= 14:
        return sum(ring <= row for ring in rings_of(n, d, kind))
    return rank_by_turns(n, d, kind, row)


def total(n, d, kind):
    """How many rings a drawer has of a kind, none of them listed: kind 1 the rows that each turn leaves as they are, on average."""
    kept = {k: ways(n // k, d // k) for k in range(1, n + 1) if gcd(n, d) % k == 0}
    units = {k: sum(gcd(i, k) == 1 for i in range(1, k + 1)) for k in kept}
    return sum((units[k] if kind == 1 else moebius(k)) * kept[k] for k in kept) // n


def ring_at(n, d, kind, seat):
    """The ring at a seat: the least row that has so many rings at or below it, symbol by symbol."""
    row = ()
    for i in range(n):
        highest = row + (0,) + (1,) * (n - i - 1)
        row += (int(rank(n, d, kind, highest) < seat),)
    return row


# ---- refusals


def stations(n):
    return 1 <= n <= 64


def is_kind(kind):
    return 1 <= kind <= 3


def wrong(row):
    """The place of the first wrong symbol, 0 where there is none."""
    return next((i + 1 for i, x in enumerate(row) if x > 1), 0)


def zero_pitch(pitches):
    """The place of the first pitch of 0, 0 where there is none."""
    return pitches.index(0) + 1 if 0 in pitches else 0


def refusal(*conditions):
    """The first number whose condition holds, with its place; only 3 and 11 have one."""
    return next(((number, holds if number in (3, 11) else 0) for number, holds in conditions if holds), None)


def open_refusal(n, d, kind, limit):
    return refusal((1, not stations(n)), (2, d > n), (5, not is_kind(kind)), (4, len(limit) != n), (3, wrong(limit)))


# ---- top rings, and prefixes by them: for drawers that are too long to list


@lru_cache(None)
def top(n, d):
    """Section 3 of source document 000, as document 01 has it."""
    if d in (0, n):
        return (int(d > 0),) * n
    if 2 * d <= n:
        return tuple(x for b in top(d, d - n % d) for x in (0,) * (n // d - b) + (1,))
    m = n - d
    return tuple(x for c in top(m, n % m) for x in (0,) + (1,) * (n // m - 1 + c))


def begins_by_tops(n, d, prefix):
    """Section 4: the prefix goes on as it did, or leaves its period upwards at a place and ends as a top ring."""
    row = list(prefix)
    p = 1
    for i in range(1, len(row)):
        if row[i] < row[i - p]:
            return False
        if row[i] > row[i - p]:
            p = i + 1
    while len(row) < n:
        nxt = row[-p] if row else 0
        if nxt == 0:
            rest, holes = n - len(row) - 1, d - sum(row) - 1
            if 0 <= holes <= rest and shelved(tuple(row) + (1,) + top(rest, holes)):
                return True
        row.append(nxt)
    return sum(row) == d and n % p == 0


def begins(n, d, prefix):
    """Does some kind 1 ring of the drawer begin so?"""
    if n <= 14:
        return any(row[: len(prefix)] == prefix for row in drawer(n, d))
    return begins_by_tops(n, d, prefix)


# ---- the drawer's book


def book(n, d, kind, limit):
    """Lines and none (as None), each with its price."""
    lines, x, first = [], limit, True
    if limit in drawer(n, d):
        lines, first = [(limit, 0)], False
    while True:
        y = next((row for row in drawer(n, d) if row < x), None)
        counted = x if first else x[:-1]
        if y is None:
            lines.append((None, sum(counted)))
            break
        p = first_difference(x, y)
        lines.append((y, sum(counted[p - 1 :]) + n - p))
        x, first = y, False
    kept, owed = [], 0
    for row, price in lines:
        owed += price
        if row is None or of_kind(kind, row):
            kept.append((row, owed))
            owed = 0
    return kept


def book_answers(lines, allowances):
    """The answers to steps: a row, "none", 20 or 21, each with its trials; up to the first 20."""
    lines, owed = list(lines), lines[0][1]
    for a in allowances:
        if not lines:
            yield 20, 0
            return
        if a < owed:
            owed -= a
            yield 21, a
        else:
            yield lines[0][0] or "none", owed
            lines = lines[1:]
            owed = lines[0][1] if lines else 0


# ---- a walk, trial by trial: a record is n, d, kind, a row of 64 symbols, where it stands, and the row kept, of 64 symbols too

ZEROS = (0,) * 64


def fit(n, d, kind, row, at, kept):
    if not (stations(n) and d <= n and is_kind(kind)):
        return False
    if any(x > 1 for x in row[:n] + kept[:n]) or any(row[n:] + kept[n:]):
        return False
    where, p = at
    if where == "Down":
        return 1 <= p <= n
    if where == "Up":
        return 2 <= p <= n and begins(n, d, row[: p - 1])
    if where == "Given":
        return sum(row) == d and shelved(row[:n]) and of_kind(kind, row[:n])
    return where == "Limit" or row == kept == ZEROS


def step(walk, allowance):
    """The walk, the answer ("ring", "none", 20, 21 or 22), the place that it carries, and the trials."""
    if not fit(*walk):
        return walk, 22, 0, 0
    n, d, kind, row, (where, p), kept = walk
    if where == "Ended":
        return walk, 20, 0, 0
    row, trials, found = list(row), 0, False
    while True:
        here = tuple(row[:n])
        if found:
            if of_kind(kind, here):
                ring = tuple(row)
                return (n, d, kind, ring, ("Given", 0), ring), "ring", first_difference(kept[:n], here), trials
            where, found = "Given", False
        elif where == "Limit":
            found = sum(here) == d and shelved(here)
            where, p = "Down", n
        elif where == "Given":
            where, p = "Down", n if d else 0
            if d:
                row[n - 1] = 0
        elif where == "Down" and p == 0:
            return (n, d, kind, ZEROS, ("Ended", 0), ZEROS), "none", 0, trials
        elif where == "Down" and row[p - 1] == 0:
            p -= 1
        elif where == "Up" and p == n + 1:
            found = True
        elif trials == allowance:
            return (n, d, kind, tuple(row), (where, p), kept), 21, 0, trials
        elif where == "Down":
            trials += 1
            if begins(n, d, here[: p - 1] + (0,)):
                row[p - 1] = 0
                where, p = "Up", p + 1
            else:
                p -= 1
        else:
            trials += 1
            row[p - 1] = int(begins(n, d, here[: p - 1] + (1,)))
            p += 1


def padded(row):
    return row + (0,) * (64 - len(row))


def opened(n, d, kind, limit):
    """The refusal and None, or None and the walk."""
    no = open_refusal(n, d, kind, limit)
    return (no, None) if no else (None, (n, d, kind, padded(limit), ("Limit", 0), padded(limit)))


# ---- a binder: the walks put, by their names

REFUSED_WALK = (1, 0, 1, ZEROS, ("Ended", 0), ZEROS)


def put(binder, name, walk):
    """The binder, and 0 or the refusal's number."""
    no = refusal((12, name > 7), (22, not fit(*walk)))
    return (binder, no[0]) if no else ({**binder, name: walk}, 0)


def fetch(binder, name):
    """The walk, and 0 or the refusal's number."""
    no = refusal((12, name > 7), (23, name not in binder))
    return (REFUSED_WALK, no[0]) if no else (binder[name], 0)


# ---- offers: "ring" or "none", the allowance, and the walk as it would be

REFUSED_OFFER = ("none", 0, REFUSED_WALK)


@lru_cache(64)
def look(walk, allowance):
    """The walk as it was, the answer, the place that it carries, the trials, and the offer."""
    after, answer, place, trials = step(walk, allowance)
    return walk, answer, place, trials, (answer, allowance, after) if answer in ("ring", "none") else REFUSED_OFFER


def take(walk, offer):
    """The walk, the answer ("ring", "none", 20, 22 or 24), the place that it carries, and the trials."""
    _, answer, place, trials, seen = look(walk, offer[1])
    spent = answer == 21
    no = refusal((22, not fit(*walk)), (20, walk[4] == ("Ended", 0)), (24, spent or seen != offer))
    return (walk, no[0], 0, 0) if no else (offer[2], answer, place, trials)
