"""The stored output of each test program, by the definitions of rings.py."""
from itertools import count, product, repeat

import texts
from cases import MOST, calls, lines, numeral
from rings import (
    REFUSED_OFFER,
    REFUSED_WALK,
    ZEROS,
    begins,
    begins_by_tops,
    book,
    book_answers,
    bracelets,
    drawer,
    fetch,
    first_difference,
    fitting,
    key,
    look,
    of_kind,
    open_refusal,
    opened,
    padded,
    pairs,
    pitches_of_row,
    put,
    rank,
    rank_by_turns,
    refusal,
    ring_at,
    rings_of,
    row_of_pitches,
    shelved,
    step,
    stations,
    take,
    top,
    total,
    turn,
    turned_key,
    ways,
    without_symmetry,
    wrong,
    zero_pitch,
)

PLENTY = 1000

# drawers of up to 12 and to 14 stations
TO_12 = [(n, d) for n in range(1, 13) for d in range(n + 1)]
TO_14 = [(n, d) for n in range(1, 15) for d in range(n + 1)]

# numbers of stations and holes, kinds, and rows of ones, in and out of range; with a wrong byte at no place, the first and the last
DRAWERS = list(product((0, 1, 2, 7, 64, 65, MOST), (0, 1, 2, 64, 65, 66, MOST), (0, 1, 2, 3, 4, 255)))
ONES = [(1,) * size for size in (0, 1, 2, 7, 64, 65)]
ROWS = [row for full in ONES for row in (full, (2,) + full[1:] if full else full, full[:-1] + (2,) if full else full)]


def symbols(digits):
    return tuple(map(int, digits))


def text(row):
    return "".join(map(str, row))


def said(yes):
    return "yes" if yes else "no"


def refused(number, place):
    return f"refused {number} place {place}"


def rows_to_10():
    return [row for n in range(1, 11) for row in product((0, 1), repeat=n)]


def row_of_number(n, number):
    return tuple(int(b) for b in format(number, f"0{n}b")) if n else ()


# ---- largest_test


def show_top(n, d, room):
    no = refusal((1, not stations(n)), (2, d > n), (9, room < n))
    print(n, d, *([refused(*no), "as before 64"] if no else [text(top(n, d)), "as before", 64 - n]))


def largest_test():
    for n in range(1, 13):
        for d in range(n + 1):
            assert top(n, d) == drawer(n, d)[0]
            show_top(n, d, 64)
    pairs = sum(n + 1 for n in range(1, 65))
    print("compared", pairs, "agreed", pairs)
    for n, d, room in calls("largest_test", "show"):
        show_top(n, d, room)


# ---- compare_test


def order(row, other):
    return "lower" if row < other else "equal" if row == other else "higher"


def cut(row, k, place):
    length = (0, place, place + 1, place + 2, place + 7, place + 8, place + 9, 299, 300)[k]
    return row[:length] if length <= 300 else ()


def print_tally(what, compared):
    """Of (row, other, how often)."""
    compared = list(compared)
    times = sum(k for _, _, k in compared)
    higher = sum(k * (row > other) for row, other, k in compared)
    places = sum(k * first_difference(row, other) for row, other, k in compared)
    both = sum(k * pairs(row, other) for row, other, k in compared)
    print(what, "compared", times, "agreed", times, "higher", higher, "places", places, "pairs", both)


def long_rows():
    row = tuple(255 - i % 256 for i in range(300))
    for place in range(300):
        other = row[:place] + (255 - row[place],) + row[place + 1 :]
        for k, m in product(range(9), repeat=2):
            a, b = cut(row, k, place), cut(other, m, place)
            yield a, b, 1
            yield b, a, 1


def parts():
    """Where the parts begin is nothing to the definitions; each of two unequal bytes is the lower as often as the other."""
    for m, n in product(range(41), repeat=2):
        for agree in range(min(m, n) + 1):
            for x, y in (1, 2), (2, 1):
                yield (0,) * agree + (x,) * (m - agree), (0,) * agree + (y,) * (n - agree), 50


def compare_test():
    for line in lines("compare_test"):
        row, other = map(symbols, line[4:].split(" against "))
        print(f"{line}: {order(row, other)} place {first_difference(row, other)} pairs {pairs(row, other)}")
    rows = [row for n in range(8) for row in product((0, 1), repeat=n)]
    print_tally("rows of up to 7 symbols:", ((*pair, 1) for pair in product(rows, repeat=2)))
    print_tally("rows of up to 300 bytes:", long_rows())
    print_tally("parts of up to 40 bytes:", parts())


# ---- compare_bench


def compare_bench():
    """Rows of 60 bytes that differ at place 51, 100 times, lower and higher by turns; an order counts 0 or 2."""
    row = (0,) * 60
    other = row[:50] + (1,) + row[51:]
    print(100 * (first_difference(row, other) + pairs(row, other)) + 50 * 2)


# ---- necklace_test


def show_key(digits, room):
    row = symbols(digits)
    n = len(row)
    no = refusal((1, not stations(n)), (3, wrong(row)), (9, room < n))
    print(f"key of {n} stations {digits} buffer {room}: ", end="")
    if no:
        print(refused(*no), "as before 80")
    else:
        least, j, p = key(row)
        print(text(least), "turn", j, "period", p, "as before", 80 - n)


def show_class(digits):
    row = symbols(digits)
    no = refusal((1, not stations(len(row))), (3, wrong(row)))
    print(f"class of {len(row)} stations {digits}: ", end="")
    print(refused(*no) if no else f"shelved {said(shelved(row))} without symmetry {said(without_symmetry(row))}")


def necklace_test():
    for line in lines("necklace_test"):
        word = line.split(" ")
        if word[0] == "key":
            show_key(word[4], int(word[6]))
        else:
            show_class(word[4])
    rows = len(rows_to_10())
    for name in ("key", "class", "key of longer rows", "class of longer rows"):
        print(name, "compared", rows, "agreed", rows)


# ---- bracelet_test


def show_turned_key(digits, room):
    row = symbols(digits)
    n = len(row)
    no = refusal((1, not stations(n)), (3, wrong(row)), (9, room < n))
    print(f"turned key of {n} stations {digits} buffer {room}:", end=" ")
    print(*([refused(*no), "as before 80"] if no else [text(turned_key(row)), "as before", 80 - n]))


def bracelet_test():
    for line in lines("bracelet_test"):
        word = line.split(" ")
        show_turned_key(word[5], int(word[7]))
    rows = len(rows_to_10())
    for name in ("turned key", "turned key of longer rows"):
        print(name, "compared", rows, "agreed", rows)


# ---- coated_test


def fit_refusal(row, other):
    return refusal((1, not stations(len(row))), (4, len(other) != len(row)), (3, wrong(row)), (3, wrong(other)))


def show_fit(digits, others):
    row, other = symbols(digits), symbols(others)
    no = fit_refusal(row, other)
    print(f"fit of {len(row)} stations {digits} and {others}:", *([refused(*no)] if no else fitting(row, other)))


def show_fits(name, pairs):
    told = [fit_refusal(*pair) or fitting(*pair) for pair in pairs]
    answers = [answer for answer, _ in told]
    print(f"{name}: compared {len(told)} agreed {len(told)}", end=" ")
    print(*(f"{answer} {answers.count(answer)}" for answer in ("different", "turning", "over", "both")), end=" ")
    print("turns below zero", sum(size < 0 for _, size in told), end=" ")
    print("refused", *(f"{number} {answers.count(number)}" for number in (1, 4, 3)), end=" ")
    print("places and amounts", sum(abs(size) for _, size in told))


def all_pairs(alphabet, longest):
    rows = [row for n in range(longest + 1) for row in product(alphabet, repeat=n)]
    return product(rows, repeat=2)


def longer_pair(number):
    """A row of up to 10 symbols, repeated to 11 to 64, and its turn, or its reverse's; in each fourth pair a symbol is changed."""
    n = 11 + number % 54
    row = ((symbols(f"{number:b}"[1:]) or (0,)) * n)[:n]
    other = turn(row if number % 4 < 2 else row[::-1], number // 4 % n)
    return row, (1 - other[0],) + other[1:] if number % 4 == 1 else other


def coated_test():
    for line in lines("coated_test"):
        word = line.split(" ")
        show_fit(word[4], word[6])
    show_fits("pairs of rows of up to 8 stations", all_pairs((0, 1), 8))
    show_fits("pairs of rows of up to 6 stations, with wrong bytes", all_pairs((0, 1, 2), 6))
    show_fits("longer rows and turns", map(longer_pair, range(2048)))


# ---- pitches_test


def row_refusal(n, pitches, room):
    return refusal(
        (1, not stations(n)),
        (2, len(pitches) > n),
        (11, zero_pitch(pitches)),
        (7, pitches and sum(pitches) != n),
        (9, room < n),
    )


def show_row(n, pitches, room):
    no = row_refusal(n, pitches, room)
    print(f"row of {n} stations and {len(pitches)} pitches", *pitches, "buffer", f"{room}: ", end="")
    print(*([refused(*no), "as before 80"] if no else [text(row_of_pitches(n, pitches)), "as before", 80 - n]))


def show_list(digits, room):
    row = symbols(digits)
    n = len(row)
    no = refusal((1, not stations(n)), (3, wrong(row)), (8, any(row) and row[-1] == 0), (9, room < sum(row)))
    print(f"pitch list of {n} stations {digits} buffer {room}: ", end="")
    if no:
        print(refused(*no), "as before 80")
    else:
        pitches = pitches_of_row(row)
        print(f"pitches {len(pitches)}:", *pitches, "as before", 80 - len(pitches))


def show_lists(size):
    """All lists of so many pitches from 0 to 6, at 0 to 12 stations, in buffers of 16 and of 7 bytes."""
    told = [
        row_refusal(n, pitches, room) or (0, 0)
        for pitches, n, room in product(product(range(7), repeat=size), range(13), (16, 7))
    ]
    numbers = [number for number, _ in told]
    print(f"lists of {size} pitches: calls {len(told)} agreed {len(told)} written {numbers.count(0)}", end=" ")
    print("refused", *(f"{number} {numbers.count(number)}" for number in (1, 2, 11, 7, 9)), end=" ")
    print("places", sum(place for _, place in told))


def pitches_test():
    for line in lines("pitches_test"):
        word = line.split(" ")
        if word[0] == "row":
            show_row(int(word[2]), [numeral(pitch) for pitch in word[9:]], int(word[5]))
        else:
            show_list(word[5], int(word[7]))
    rows = rows_to_10()
    listed = sum(not any(row) or row[-1] == 1 for row in rows)
    for name, number in (("pitch list and back", listed), ("no pitch list, refused 8", len(rows) - listed)):
        print(name, "compared", number, "agreed", number)
    for size in range(5):
        show_lists(size)


# ---- ways, pascal_test


def ways_program():
    print("top bottom ways")
    for n in range(65):
        for d in range(n + 1):
            print(n, d, ways(n, d))


def ways_refusal(n, d):
    return refusal((1, n > 64), (2, d > n))


def pascal_test():
    for line in lines("pascal_test"):
        n, d = map(numeral, line.split(" ")[1:])
        no = ways_refusal(n, d)
        print(f"{line}:", refused(*no) if no else ways(n, d))
    rows = [row for n in range(11) for row in product((0, 1), repeat=n)]
    assert all(ways(n, d) == sum(len(row) == n and sum(row) == d for row in rows) for n in range(11) for d in range(n + 1))
    print("rows of up to 10 stations: rows", len(rows), "pairs 176 agreed 176")
    numbers = [*range(68), 127, 256, 2**32, 2**63, MOST]
    told = [no[0] if no else 0 for no in (ways_refusal(*pair) for pair in product(numbers, repeat=2))]
    print(f"look-ups: calls {len(told)} agreed {len(told)} given {told.count(0)} refused 1 {told.count(1)} 2 {told.count(2)}")


# ---- lengths_test


def length(n, d, kind, limit):
    """The rings of the drawer and kind at or below the limit; of kind 3 the ceiling."""
    return ways(n, d) if kind == 3 else rank(n, d, kind, limit)


def covers(n, d, kind, limit, rings):
    """Whether a walk of so many rings is as long as its length says; of kind 3, no longer."""
    return rings <= length(n, d, kind, limit) if kind == 3 else rings == length(n, d, kind, limit)


def some_limits(n):
    """All to 7 stations, else 16; n ones first."""
    return [row_of_number(n, (2**n - 1 + k * 2749) % 2**n) for k in range(2**n if n < 8 else 16)]


def lengths_test():
    for line in lines("lengths_test"):
        n, d, kind, digits = line.split(" ")[1:]
        asked = numeral(n), numeral(d), int(kind), symbols(digits)
        no = open_refusal(*asked)
        print(f"{line}:", refused(*no) if no else f"{'at most' if asked[2] == 3 else 'exactly'} {length(*asked)}")
    for kind in 1, 2, 3:
        counted = [length(n, d, kind, row) for n, d in TO_12 for row in product((0, 1), repeat=n)]
        print(f"all limits, kind {kind}: compared {len(counted)} agreed {len(counted)} sum {sum(counted)}")
    assert all(len(rings_of(n, d, 3)) == bracelets(n, d) for n, d in TO_14)
    walked = [(n, d, limit) for n, d in TO_14 for limit in some_limits(n)]
    for allowed in "plenty", "1":
        for kind in 1, 2, 3:
            rings = [len(book(n, d, kind, limit)) - 1 for n, d, limit in walked]
            assert all(covers(n, d, kind, limit, named) for (n, d, limit), named in zip(walked, rings))
            print(f"walks, {allowed} allowed, kind {kind}: compared {len(rings)} agreed {len(rings)} rings {sum(rings)}")
    listed = [(n, d, limit) for n, d, limit in walked if n <= 12]
    for kind in 1, 2, 3:
        made = [texts.drawer(values(n, d, kind, text(limit).encode())).count("\n") for n, d, limit in listed]
        assert all(covers(n, d, kind, limit, printed - 2) for (n, d, limit), printed in zip(listed, made))
        print(f"printed drawers, kind {kind}: compared {len(made)} agreed {len(made)} lines {sum(made)}")
    told = [(open_refusal(*asked, row) or (0, 0), asked[2] == 3) for asked in DRAWERS for row in ROWS]
    numbers = [6 if number == 0 and ceiling else number for (number, _), ceiling in told]
    print(f"calls {len(told)} agreed {len(told)} places {sum(place for (_, place), _ in told)} exactly {numbers.count(0)} refused", end=" ")
    print(*(f"{number} {numbers.count(number)}" for number in range(1, 6)), "at most", numbers.count(6))


# ---- prefix_test


def prefix_test():
    for n in range(1, 11):
        begun = {(d, row[:t]) for d in range(n + 1) for row in drawer(n, d) for t in range(n + 1)}
        asked = [(d, prefix) for d in range(n + 1) for t in range(n + 1) for prefix in product((0, 1), repeat=t)]
        assert all(begins_by_tops(n, d, prefix) == ((d, prefix) in begun) for d, prefix in asked)
        print(n, "asked", len(asked), "agreed", len(asked), "yes", len(begun))
    for line in lines("prefix_test"):
        n, d, digits = line.split(" ")
        n, d, prefix = int(n), int(d), symbols(digits)
        no = refusal((1, not stations(n)), (2, d > n), (6, len(prefix) > n), (3, wrong(prefix)))
        print(f"({n},{d}) prefix {digits}:", refused(*no) if no else said(begins(n, d, prefix)))


# ---- walk_test


def allowances(name):
    cycle = {
        "plenty": [PLENTY],
        "always 1": [1],
        "always 2": [2],
        "always 3": [3],
        "0, 1, 2, 3 in turn": [0, 1, 2, 3],
        "0 three times, then plenty": [0, 0, 0, PLENTY],
    }[name]
    return (cycle[i % len(cycle)] for i in count())


def compare(n, limits, allowed):
    walks = rings = trials = spent = places = 0
    for d in range(n + 1):
        for kind in 1, 2, 3:
            for limit in limits:
                walks += 1
                before = row_of_number(n, limit)
                for answer, made in book_answers(book(n, d, kind, before), allowances(allowed)):
                    spent += answer == 21
                    trials += made
                    if isinstance(answer, tuple):
                        rings += 1
                        places += first_difference(before, answer)
                        before = answer
    print(f"n {n}: walks {walks} rings {rings} trials {trials} spent {spent} places {places} differing 0")


def show_walk(n, d, kind, digits):
    print(f"({n},{d}) kind {kind} limit {digits}")
    no, walk = opened(n, d, kind, symbols(digits))
    if no:
        print(refused(*no), "ended walk of (1,0): yes")
        return
    for number in count(1):
        walk, answer, place, trials = step(walk, PLENTY)
        ring = text(walk[3][:n]) if answer == "ring" else None
        print(*([number, ring] if ring else ["end"]), "place", place, "trials", trials)
        if not ring:
            return


def walk_test():
    print("limit of ones, plenty allowed")
    for n in range(1, 15):
        compare(n, [2**n - 1], "plenty")
    print("every 257th limit, plenty allowed")
    for n in range(9, 15):
        compare(n, range(0, 2**n, 257), "plenty")
    for allowed in ("plenty", "always 1", "always 2", "always 3", "0, 1, 2, 3 in turn", "0 three times, then plenty"):
        print("all limits,", allowed, "allowed")
        for n in range(1, 9):
            compare(n, range(2**n), allowed)
    for line in lines("walk_test"):
        if line[0].isdigit():
            n, d, kind, digits = line.split(" ")
            show_walk(int(n), int(d), int(kind), digits)


# ---- walk_record_test

STANDINGS = ("Limit", "Down", "Up", "Given", "Ended")


def told(answer):
    return answer if answer in ("ring", "none") else f"refused {answer}"


def show_single(line):
    name, fields = line.split(": ")
    n, d, kind, where, place, *rows = fields.split(" ")
    row, kept = (padded(symbols(digits)) for digits in (rows + [""])[:2])
    walk = (numeral(n), numeral(d), int(kind), row, (where, numeral(place)), kept)
    after, answer, carried, trials = step(walk, PLENTY)
    n, _, _, row, (where, place), kept = after
    print(f"{name}: {told(answer)} trials {trials} row {text(row[:n])} standing {STANDINGS.index(where)} place {place}", end=" ")
    print(f"carries {carried} kept {text(kept[:n])} unchanged {said(after == walk)}")


def number_of(row):
    number = 0
    for x in row:
        number = (2 * number + x) % 10007
    return number


def show_outcomes(name, steps):
    answers = dict.fromkeys(("ring", "none", 20, 21, 22), 0)
    changed = trials = rows = places = carried = kept = 0
    for walk, allowance in steps:
        after, answer, place, made = step(walk, allowance)
        answers[answer] += 1
        changed += answer in (20, 22) and (after != walk or made > 0)
        trials += made
        rows += number_of(after[3][: after[0]])
        places += after[4][1]
        carried += place
        kept += number_of(after[5][: after[0]])
    print(name, "rings %d none %d ended %d spent %d unfit %d" % tuple(answers.values()), end=" ")
    print(f"changed {changed} misplaced 0 trials {trials} rows {rows} places {places} carried {carried} kept {kept}")


def all_records(n):
    """Kinds 0 to 4, up to n + 1 holes, all rows, all standings with places up to n + 1; up to 4 stations all rows kept."""
    standings = [("Limit", 0), ("Given", 0), ("Ended", 0)]
    standings += [(where, p) for p in range(n + 2) for where in ("Down", "Up")]
    rows = list(product((0, 1), repeat=n))
    records = product(rows if n <= 4 else rows[:1], standings, rows, range(n + 2))
    for number, (kept, at, row, d) in enumerate(records):
        kept = rows[(rows.index(kept) + number) % len(rows)]
        for kind in range(5):
            yield n, d, kind, padded(row), at, padded(kept)


def drawn(record, which, bound):
    x = record * 80 + which
    for _ in range(3):
        x = (x * 1103515245 + x // 65536 + 12345) % 2**31
    return x // 65536 % bound


def random_symbol(record, i, n):
    x = drawn(record, i, 512)
    if n <= i:
        return int(x == 0)
    return {0: 1, 1: 2, 2: 255}.get(x, x % 2)


def random_row(record, n):
    return tuple(random_symbol(record, i, n) for i in range(64)) if drawn(record, 66, 8) else ZEROS


def random_record(record):
    n = drawn(record, 65, 68 if drawn(record, 64, 2) else 10)
    row = random_row(record, n)
    d = row.count(1) if drawn(record, 67, 2) else drawn(record, 68, n + 2)
    kind = drawn(record, 69, 32)
    where = STANDINGS[drawn(record, 70, 5)]
    at = where, drawn(record, 71, n + 2) if where in ("Down", "Up") else 0
    which = drawn(record, 73, 8)
    kept = ZEROS if where == "Ended" and which < 7 else random_row(record + 500000, n)
    kept = row if which < 2 else kept
    return n, d, {0: 0, 1: 4}.get(kind, 1 + kind % 3), row, at, kept


def random_allowance(record):
    allowance = drawn(record, 72, 8)
    return allowance if allowance < 7 else PLENTY


def walk_record_test():
    for line in lines("walk_record_test"):
        show_single(line)
    for n in range(1, 7):
        records = list(all_records(n))
        for a in (0, 1, 2, 3, 4, PLENTY):
            allowed = f"allowed {a}" if a < PLENTY else "plenty allowed"
            show_outcomes(f"n {n} records {len(records)} {allowed}", ((walk, a) for walk in records))
    for first, end in calls("walk_record_test", "show_records"):
        steps = ((random_record(record), random_allowance(record)) for record in range(first, end))
        show_outcomes(f"at random, records {first} up to {end}", steps)


# ---- binder_test


def after_two(n, d, kind, *allowances):
    _, walk = opened(n, d, kind, (1,) * n)
    for a in allowances:
        walk = step(walk, a)[0]
    return walk


WALKS = {
    "a": after_two(8, 3, 1, PLENTY, PLENTY),
    "b": after_two(6, 3, 2, 3, 0),
    "c": after_two(4, 1, 2, PLENTY, PLENTY),
    "x": (1, 0, 1, ZEROS, ("Down", 0), ZEROS),
}


def show_fetched(walk):
    n, d, kind, row, (where, place), _ = walk
    after, answer, _, _ = step(walk, PLENTY)
    print(f"({n},{d}) kind {kind} standing {STANDINGS.index(where)} place {place} row {text(row[:n])}", end=" ")
    print("step:", told(answer), "row", text(after[3][:n]))


def show_binder_call(binder, letter, name):
    """The binder after it."""
    if letter == "f":
        walk, no = fetch(binder, numeral(name))
    else:
        after, no = put(binder, numeral(name), WALKS[letter])
    print(f"{letter} {name}:", refused(no, 0) if no else "done", end=" ")
    if letter == "f":
        show_fetched(walk)
        return binder
    print("changed", sum(binder.get(i) != after.get(i) for i in range(8)))
    return after


def name_of(x):
    return x if x < 10 else {10: 255, 11: MOST}.get(x, x % 2)


def rows_of(walk):
    n, _, _, row, _, kept = walk
    return number_of(row[:n]) + number_of(kept[:n])


def done(answer, name):
    """The name for a ring or none, or the refusal's number."""
    return name if answer in ("ring", "none") else answer


def random_opening(call):
    n = 8 - drawn(call, 2, 1 + drawn(call, 7, 8))
    limit = row_of_number(n, drawn(call, 5, 2**n))
    return opened(n, drawn(call, 3, n + 1), 1 + drawn(call, 4, 3), limit)[1]


def list_calls(number):
    """What each call says, with its place, its trials and the rows handed back."""
    walk, binder, offers = REFUSED_WALK, {}, [REFUSED_OFFER] * 4
    for index in range(50 * number, 50 * number + 50):
        call = index + 800000
        which, own = drawn(call, 0, 32), drawn(call, 8, 32768)
        name, allowance = name_of(drawn(own, 1, 32)), random_allowance(own)
        if which < 5:
            walk = random_opening(own)
            yield "opened", 0, 0, 0
        elif which < 11:
            walk, *rest = step(walk, allowance)
            yield *rest, rows_of(walk)
        elif which < 18:
            walk, answer, place, trials, offer = look(walk, PLENTY if drawn(own, 10, 2) else allowance)
            offers = [offer] + offers[:-1]
            yield done(answer, "looked"), place, trials, rows_of(walk) + rows_of(offer[2])
        elif which < 25:
            walk, answer, place, trials = take(walk, offers[drawn(own, 8, 1 + drawn(own, 9, 4))])
            yield done(answer, "taken"), place, trials, rows_of(walk)
        elif which < 29:
            binder, no = put(binder, name, walk if which < 28 else random_record(index))
            yield no or "put", 0, 0, 0
        else:
            walk, no = fetch(binder, name)
            yield no or "fetched", 0, 0, rows_of(walk)


def binder_calls(number):
    """For each name a fetch, a step of what it gives, and a put; of a binder where something was put under some names."""
    under = enumerate(range(100000 + 8 * number, 100008 + 8 * number))
    binder = {name: random_record(record) for name, record in under if drawn(record, 74, 3)}
    for x in range(12):
        index = 200000 + 12 * number + x
        walk, no = fetch(binder, name_of(x))
        yield no or "fetched", 0, 0, rows_of(walk)
        walk, *rest = step(walk, random_allowance(index))
        yield *rest, rows_of(walk)
        binder, no = put(binder, name_of(x), random_record(index))
        yield no or "put", 0, 0, 0


def show_counts(name, told_calls):
    """How many calls say what, and the sums."""
    answers, places, trials, rows = zip(*told_calls)
    said = ("opened", "ring", "none", "looked", "taken", "put", "fetched", 12, 20, 21, 22, 23, 24)
    print(f"{name}: calls {len(answers)}", *(f"{answer} {answers.count(answer)}" for answer in said), end=" ")
    print(f"trials {sum(trials)} places {sum(places)} rows {sum(rows)} differing 0")


def binder_test():
    for single in "".join(lines("binder_test")).split("new,")[1:]:
        print("new")
        binder = {}
        for call in single.split(",")[:-1]:
            binder = show_binder_call(binder, *call.split(" "))
    for name, made in ("lists", list_calls), ("binders", binder_calls):
        for first in range(0, 400, 100):
            told_calls = (call for number in range(first, first + 100) for call in made(number))
            show_counts(f"{name} at random, a hundred from {first}", told_calls)


# ---- offers_test


def show_offers_call(line, walk, offer):
    """The walk and the offer after it."""
    name, *words = line.split(" ")
    if name == "open":
        n, d, kind, digits = words
        return opened(int(n), int(d), int(kind), symbols(digits))[1] or REFUSED_WALK, offer
    if name == "refused":
        return walk, REFUSED_OFFER
    if name == "unfit":
        return (*walk[:4], ("Down", 0), walk[5]), offer
    if name == "take":
        after, answer, place, trials = take(walk, offer)
    elif name == "look":
        after, answer, place, trials, offer = look(walk, numeral(words[0]))
    else:
        after, answer, place, trials = step(walk, numeral(words[0]))
    row = text(after[3][: after[0]])
    print(f": {told(answer)} place {place} trials {trials} row {row} unchanged {said(after == walk)}", end="")
    if name == "look":
        offered, allowance, (n, d, kind, row, (where, _), _) = offer
        print(f" offers: {offered} allowance {allowance} ({n},{d}) kind {kind}", end=" ")
        print(f"standing {STANDINGS.index(where)} row {text(row[:n])}", end="")
    return after, offer


def numbered_walk(index):
    """A drawer at a limit, after two steps."""
    own = drawn(index, 0, 32768)
    n = 9 - drawn(own, 1, 1 + drawn(own, 5, 9))
    limit = row_of_number(n, drawn(own, 4, 512) % 2**n)
    _, walk = opened(n, drawn(own, 2, n + 1), 1 + drawn(own, 3, 3), limit)
    return step(step(walk, random_allowance(own))[0], random_allowance(index))[0]


def numbered_allowance(index):
    own = drawn(index, 75, 32768)
    return PLENTY if drawn(own, 5, 2) else random_allowance(own)


def numbered_look(made, index):
    return look(made(index), numbered_allowance(index))


def changed_byte(row, i, by):
    return row[:i] + (row[i] ^ by,) + row[i + 1 :]


def changed_offers(offer):
    """The offer, and what it is changed to in one field or byte."""
    offered, allowance, walk = offer
    n, d, kind, row, at, kept = walk
    yield offer
    yield {"ring": "none", "none": "ring"}[offered], allowance, walk
    for other in 0, (allowance - 1) % 2**64, (allowance + 1) % 2**64, MOST:
        yield offered, other, walk
    sizes = [((n + by) % 2**64, d, kind) for by in (1, -1)]
    sizes += [(n, (d + by) % 2**64, kind) for by in (1, -1)]
    sizes += [(n, d, (kind + by) % 2**8) for by in (1, -1)]
    walks = [(*size, row, at, kept) for size in sizes]
    standings = [(where, 0) for where in ("Limit", "Given", "Ended")]
    standings += [(where, (at[1] + by) % 2**64) for where in ("Down", "Up") for by in (0, 1, -1)]
    walks += [(n, d, kind, row, other, kept) for other in standings]
    walks += [(n, d, kind, changed_byte(row, i, by), at, kept) for i in range(64) for by in (1, 128)]
    walks += [(n, d, kind, row, at, changed_byte(kept, i, by)) for i in range(64) for by in (1, 128)]
    for other in walks:
        yield offered, allowance, other


def show_offers_counts(name, first, end, told_calls):
    answers, places, trials, rows = zip(*told_calls)
    counted = (f"{answer} {answers.count(answer)}" for answer in ("ring", "none", 20, 21, 22, 24))
    print(f"{name} {first} up to {end}:", *counted, end=" ")
    print(f"trials {sum(trials)} places {sum(places)} rows {sum(rows)} differing 0")


def told_take(walk, offer):
    """What a take says, with its place, its trials and the rows handed back."""
    after, answer, place, trials = take(walk, offer)
    return answer, place, trials, rows_of(after)


def changed_takes(made, index):
    walk, *_, offer = numbered_look(made, index)
    return (told_take(walk, other) for other in changed_offers(offer))


def looks_and_takes(made, index):
    """A look, and takes of its offer there and after a step in between, of the next one's, and of a refused look's."""
    walk, answer, place, trials, offer = numbered_look(made, index)
    yield answer, place, trials, rows_of(walk) + rows_of(offer[2])
    yield told_take(walk, offer)
    yield told_take(step(walk, random_allowance(index))[0], offer)
    yield told_take(walk, numbered_look(made, index + 1)[-1])
    yield told_take(walk, REFUSED_OFFER)


def offers_test():
    walk, offer = REFUSED_WALK, REFUSED_OFFER
    for line in lines("offers_test"):
        print(line, end="")
        walk, offer = show_offers_call(line, walk, offer)
        print()
    for name, calls_of, by in ("offers changed", changed_takes, 100), ("looked at and taken", looks_and_takes, 2000):
        for sort, made in ("walks", numbered_walk), ("records", random_record):
            for first in range(0, 4 * by, by):
                told_calls = (call for index in range(first, first + by) for call in calls_of(made, index))
                show_offers_counts(f"{name}, {sort}", first, first + by, told_calls)


# ---- walk_bench


def walk_bench():
    n, d, kind, hundreds = texts.stored_input("walk_bench")
    _, walk = opened(n, d, kind, (1,) * n)
    rings = trials = places = 0
    while rings < 100 * hundreds:
        walk, answer, place, made = step(walk, MOST)
        trials += made
        places += place
        if answer == "none":
            break
        rings += 1
    print(rings, "rings", trials, "trials", places, "places")


# ---- offer_bench


def offer_bench():
    """Looks and their takes, way 2."""
    n, d, _, hundreds = texts.stored_input("offer_bench")
    _, walk = opened(n, d, 1, (1,) * n)
    trials = places = 0
    for _ in range(100 * hundreds):
        *_, offer = look(walk, 1000000)
        walk, _, place, made = take(walk, offer)
        trials += made
        places += place
    print(trials, "trials", places, "places")


# ---- ranking_test


def counted_refusal(n, d, kind):
    """The conditions of a drawer whose rings are counted."""
    return (1, not stations(n)), (2, d > n), (5, kind not in (1, 2))


def seat_refusal(n, d, kind, row):
    return refusal(*counted_refusal(n, d, kind), (4, len(row) != n), (3, wrong(row)))


def ring_at_refusal(n, d, kind, seat, room):
    """Where one of the first holds, there is no total to ask for."""
    first = refusal(*counted_refusal(n, d, kind), (9, room < n))
    return first or refusal((13, not 1 <= seat <= total(n, d, kind)))


def show_seat(line, n, d, kind, digits):
    row = symbols(digits)
    no = seat_refusal(n, d, kind, row)
    print(f"{line}:", refused(*no) if no else rank(n, d, kind, row))


def show_ring_at(line, n, d, kind, seat, room):
    no = ring_at_refusal(n, d, kind, seat, room)
    print(f"{line}:", end=" ")
    if no:
        print(refused(*no), "as before 80")
    else:
        ring = ring_at(n, d, kind, seat)
        assert shelved(ring) and of_kind(kind, ring) and sum(ring) == d and rank(n, d, kind, ring) == seat
        print(text(ring), "seat", seat, "as before", 80 - n)


def show_seats(name, kind, compared, last):
    print(f"{name}, kind {kind}: compared {compared} agreed {compared} {last}")


def show_drawers():
    """Drawers of up to 12 stations: seats of all rows, rings at all seats with 0 and one above, rings of walks and the none behind them."""
    for kind in 1, 2:
        seats = [rank(n, d, kind, row) for n, d in TO_12 for row in product((0, 1), repeat=n)]
        show_seats("seats of all rows", kind, len(seats), f"sum {sum(seats)}")
    for kind in 1, 2:
        rings = [len(rings_of(n, d, kind)) for n, d in TO_12]
        show_seats("rings at all seats", kind, sum(rings) + 2 * len(rings), f"rings {sum(rings)}")
    for name, allowance in ("plenty", PLENTY), ("1", 1), ("3", 3):
        for kind in 1, 2:
            compared = spent = 0
            for n, d in TO_12:
                walked = book(n, d, kind, (1,) * n)
                assert [ring for ring, _ in walked] == rings_of(n, d, kind)[::-1] + [None]
                compared += len(walked)
                spent += sum(answer == 21 for answer, _ in book_answers(walked, repeat(allowance)))
            show_seats(f"walks, {name} allowed", kind, compared, f"spent {spent}")


def show_grid(name, told):
    told = [no or (0, 0) for no in told]
    numbers = [number for number, _ in told]
    print(f"{name}: calls {len(told)} agreed {len(told)} places {sum(place for _, place in told)} given {numbers.count(0)} refused", end=" ")
    print(*(f"{number} {numbers.count(number)}" for number in range(1, 14)))


def ranking_test():
    for n in range(1, 11):
        assert all(total(n, d, kind) == len(rings_of(n, d, kind)) for d in range(n + 1) for kind in (1, 2))
        rows = product(product((0, 1), repeat=n), range(n + 1), (1, 2))
        assert all(rank_by_turns(n, d, kind, row) == rank(n, d, kind, row) for row, d, kind in rows)
    for line in lines("ranking_test"):
        name, n, d, kind, *rest = line.split(" ")
        n, d, kind = numeral(n), numeral(d), int(kind)
        if name == "seat":
            show_seat(line, n, d, kind, rest[0])
        else:
            show_ring_at(line, n, d, kind, numeral(rest[1]), int(rest[3]))
    show_drawers()
    show_grid("seats of rows", (seat_refusal(*drawer, row) for drawer in DRAWERS for row in ROWS))
    seats = list(product((0, 1, 7, 64, 80), (0, 1, 2, MOST)))
    show_grid("rings at seats", (ring_at_refusal(*drawer, seat, room) for drawer in DRAWERS for room, seat in seats))


# ---- rank_bench


def rank_bench():
    """The ring at a seat; the seats of a row are not stored."""
    n, d, kind, _, _, *seat = texts.stored_input("rank_bench")
    print(text(ring_at(n, d, kind, int.from_bytes(bytes(seat), "big"))))


# ---- drawer_input_test


def show_input(source, room):
    r = texts.read_drawer(source, room)
    size = 0 if r[0] == "refused" else len(r[4])
    print(refused(*r[1:]) if r[0] == "refused" else f"{r[1]} {r[2]} {r[3]} {text(r[4])}", "as before", 256 - size)


def drawer_input_test():
    for sources, room in calls("drawer_input_test", "show_each"):
        for source in sources.split(b"|")[:-1]:
            show_input(source, room)
    for name, number in (("numbers", 1100), ("lengths", 240), ("bytes", 256), ("names", 26 * 256)):
        print(name, "compared", number, "agreed", number)


# ---- drawer_lines_test


def drawer_lines_test():
    print(texts.HEADER, end="")
    for number, row, period, trials in calls("drawer_lines_test", "show_ring"):
        print(texts.ring_line(number, row, period, trials), end="")
    for (trials,) in calls("drawer_lines_test", "show_end"):
        print(texts.end_line(trials), end="")
    for ((name, place),) in calls("drawer_lines_test", "show_refusal"):
        print(texts.refusal_text(texts.NUMBERS[name], place), end="")
    print("rooms compared 257 agreed 257")
    n, ends = 2**64 - 1, 0
    while n > 0:
        n, ends = n - n // 40 - 1, ends + 1
    print("ends compared", ends, "agreed", ends)


# ---- printing_test

NAMES_LINE = "stations holes kind limit"
EXAMPLE = f"{NAMES_LINE}\n6 3 1 111111\n".encode()


def show_tally(name, sources, buffers):
    """Each input's text, in so many buffer lengths."""
    show_texts(name, [texts.drawer(source) for source in sources], buffers)


def show_texts(name, made, buffers):
    printed = [text.encode() for text in made]
    compared = buffers * len(printed)
    checks = sum(int.from_bytes(text, "big") % 10007 for text in printed)
    print(name, "compared", compared, "agreed", compared, end=" ")
    print("bytes", buffers * sum(map(len, printed)), "checks", buffers * checks)


def values(n, d, kind, limit):
    return f"{NAMES_LINE}\n{n} {d} {kind} ".encode() + bytes(limit) + b"\n"


def digits_of(size, number):
    return [48 + (number >> i) % 2 for i in reversed(range(size))]


def opening(index):
    n = (0, 1, 2, 3, 4, 5, 6, 64, 65, 66)[index % 10]
    holes = index // 10 % 8
    kind = (0, 1, 2, 3, 4, 256, 257, 258, 259, 260)[index // 80 % 10]
    size = max(n % 16 + index // 800 % 3 - 1, 0)
    limit = digits_of(size, index % 1000 * 37)
    which = index // 2400 % 4
    if which and size:
        limit[(0, 0, size - 1, (size + 1) // 2 - 1)[which]] = which * 80
    return values(n, 999 if holes == 7 else holes, kind, limit)


def printing_test():
    for n, d, kind in calls("printing_test", "show"):
        print(texts.drawer(values(n, d, kind, digits_of(n, MOST))), end="")
    show_tally("beginnings", (EXAMPLE[:k] for k in range(40)), 5)
    changed = (EXAMPLE[:p] + bytes([EXAMPLE[p] % 255 + 1]) + EXAMPLE[p + 1 :] for p in range(26))
    show_tally("other names", changed, 5)
    show_tally("bytes behind", (EXAMPLE + b"\n" * k for k in range(240)), 5)
    show_tally("lengths of the limit", (values(6, 3, 1, b"1" * k) for k in range(300)), 5)
    show_tally("openings", map(opening, range(9600)), 1)
    stopped = texts.refusal_text(texts.NUMBERS["Unfit"], 0)
    show_texts("other states", [stopped] * 3 + [texts.ring_line(MOST, (0,), 1, 0) + texts.end_line(0)], 301)
    for n in range(1, 15):
        limits = range(2**n) if n < 8 else [2**n - 1]
        drawers = (values(n, d, k, digits_of(n, limit)) for d in range(n + 1) for limit in limits for k in (1, 2, 3))
        show_tally(f"stations {n}", drawers, 1)
    print("buffers of 0 to 4200 bytes")
    for n, d, kind in (6, 3, 4), (14, 7, 1), (14, 7, 2):
        show_tally(f"({n},{d}) kind {kind}", [values(n, d, kind, digits_of(n, MOST))], 4201)


# ---- drawer, and the runs of the same program on other inputs


def drawer_program(crate):
    print(texts.drawer(texts.stored_input(crate)), end="")
