"""The cases of the derivation check and the trace check, for the program crates/list_cases.

  python3 tests/list_cases.py           write crates/list_cases/stdin and crates/list_cases/stdout
  python3 tests/list_cases.py --check   write nothing; self-test the reference, and compare the stored files
  python3 tests/list_cases.py --list    print each case: line of stdout, name, lengths, goal, expected line

stdin has the cases one after the other, in numbers of four bytes, little-endian: the call (1 the
derivation check, 2 the trace check); the book's length and its bytes; the goal's relation in two
numbers, low and high; how many values it has, and these; how many pieces the list has, and these.
A piece is how many numbers are written of it, how many it has, and those written: it goes on with
the written ones over again. stdout has a line 'N at P' for each case, worked out by
tests/checkers.py alone.
"""
import itertools
import sys

sys.dont_write_bytecode = True
import book_cases
import checkers
import reference
import stored
from book_cases import (AND, B, LEAST, MOST, NOT, OR, SMALL, TRUE, Dice, assemble, balanced, changed, eq, le, leaning,
                        record, rem, single)


DERIVATION, TRACE = 1, 2        # the calls
NAMES = {DERIVATION: 'derivation', TRACE: 'trace'}
MILLION = 1000000

# Document 01's derivation D of its book B, and D's trace. The goal is relation 1, which has no places.
D = [0, 0, 1, 0, 1, 1, 1, 2, 1, 2, 3, 2, 3]
T = [0, 0, 0,
     0, 0, 1, 0, 0,
     1, 0, 1, 1, 0, 1,
     1, 1, 2, 1, 0, 2,
     1, 2, 3, 1, 0, 3,
     2, 3, 1, 1, 3]


# ---------------------------------------------------------------------------
# Cases
# ---------------------------------------------------------------------------

def pieces_of(numbers):
    """A list written out, as pieces."""
    return [(list(numbers), len(numbers))]


def expand(pieces):
    """The list that the pieces say."""
    numbers = []
    for written, length in pieces:
        times = 1 if not written else -(-length // len(written))
        numbers += (written * times)[:length]
    return numbers


def case(name, call, data, numbers, relation, values):
    return (name, call, data, pieces_of(numbers), relation, list(values))


def derivation(name, data, numbers, relation, values=()):
    return case(f'{NAMES[DERIVATION]}, {name}', DERIVATION, data, numbers, relation, values)


def trace(name, data, numbers, relation, values=()):
    return case(f'{NAMES[TRACE]}, {name}', TRACE, data, numbers, relation, values)


def both(name, data, numbers, relation, values=()):
    yield derivation(name, data, numbers, relation, values)
    yield trace(name, data, numbers, relation, values)


def replaced(numbers, at, *values):
    return numbers[:at] + list(values) + numbers[at + len(values):]


def book_of(data):
    number, place, book = reference.read_book(data)
    assert number == 0, (number, place)
    return book


def spelled(data, first, steps):
    """The trace of the steps (clause number, values) from a first state with the given places."""
    book = book_of(data)
    rows = []
    at = 0
    for arity in book['arities']:
        rows.append(list(first[at:at + arity]))
        at += arity
    state = [[0] * len(book['arities']), rows]
    numbers = checkers.state_numbers(state)
    for k, values in steps:
        state = checkers.put(state, checkers.fact_of(book['clauses'][k]['head'], values))
        numbers += [k, *values] + checkers.state_numbers(state)
    return numbers


def listed(steps):
    """The derivation of the steps (clause number, values)."""
    return [n for k, values in steps for n in [k, *values]]


def fits(n):
    return LEAST <= n <= MOST


# ---------------------------------------------------------------------------
# Books that several parts use
# ---------------------------------------------------------------------------

# Four relations with no places: 0 starts, 1 and 2 follow, 3 is the query.
FLAGS = assemble([0, 0, 0, 0], [
    record(0, [255], [0], TRUE),
    record(0, [0], [1], TRUE),
    record(0, [1], [2], TRUE),
    record(0, [2], [0], TRUE),
    record(0, [0], [3], TRUE),
    record(0, [255], [3], TRUE)])

# 0 has two places and 1 has three; clauses ask them with a variable twice, and turn them round.
PAIRS = assemble([2, 3, 0], [
    record(2, [255], [0, 0, 1], TRUE),
    record(1, [0, 0, 0], [2], TRUE),
    record(2, [0, 0, 1], [0, 1, 0], TRUE),
    record(2, [0, 1, 0], [1, 0, 1, 0], TRUE),
    record(2, [1, 0, 0, 1], [0, 0, 1], TRUE),
    record(3, [1, 2, 0, 2], [2], TRUE),
    record(1, [255], [1, 0, 0, 0], TRUE)])

# Two relations of one place that may be written freely, a copy from one to the other, and a query from each.
COPY = assemble([1, 1, 0], [
    record(1, [255], [0, 0], TRUE),
    record(1, [255], [1, 0], TRUE),
    record(1, [0, 0], [1, 0], TRUE),
    record(1, [1, 0], [2], eq([1], -2)),
    record(1, [0, 0], [2], eq([1], -3)),
    record(1, [0, 0], [0, 0], TRUE)])

# The most of everything: 16 relations, 15 of 8 places, and a clause of 16 variables from one row to the next.
WIDE = assemble([8] * 15 + [0], [
    record(16, [255], [0, *range(8)], TRUE),
    record(16, [0, *range(8)], [14, *range(8, 16)], le([1] * 8 + [-1] * 8, 0)),
    record(16, [14, *range(15, 7, -1)], [7, 0, 15, 1, 14, 2, 13, 3, 12], TRUE),
    record(8, [7, *range(8)], [15], TRUE)], lo=-9, hi=9)

# One relation with no places, a clause that sets it, and clauses from it to itself of 0, 1 and 2 variables.
LOOP = assemble([0], [
    record(0, [255], [0], TRUE),
    record(0, [0], [0], TRUE),
    record(1, [255], [0], TRUE),
    record(1, [0], [0], TRUE),
    record(2, [0], [0], le([1, -1], 0))])


# ---------------------------------------------------------------------------
# The parts
# ---------------------------------------------------------------------------

def named():
    """Document 01's own cases, and small ones beside them."""
    narrow = changed(B, 48, 2)
    yield derivation('D', B, D, 1)
    yield trace('of D', B, T, 1)
    yield derivation('first 11 numbers of D', B, D[:11], 1)
    yield derivation('0 0, 1 1 2', B, [0, 0, 1, 1, 2], 1)
    yield derivation('D with hi = 2', narrow, D, 1)
    yield trace('number 6 set to 1', B, replaced(T, 6, 1), 1)
    yield trace('0 0 0', B, [0, 0, 0], 1)
    yield trace('of D with hi = 2', narrow, T, 1)
    yield from both('D given to the other', B, D, 1)
    yield from both('T given to the other', B, T, 1)
    for r, values in [(0, [3]), (0, [2]), (0, [0]), (0, [-1]), (0, [4]), (1, [])]:
        yield derivation(f'D, goal {r} {values}', B, D, r, values)
        yield derivation(f'D without its end, goal {r} {values}', B, D[:11], r, values)
        yield trace(f'of D, goal {r} {values}', B, T, r, values)
        yield trace(f'of D without its end, goal {r} {values}', B, T[:26], r, values)
        yield trace(f'first state alone, goal {r} {values}', B, [0, 0, 0], r, values)
    for n in range(4):
        yield derivation(f'printed book, {n} times', SMALL, [0] * n, 0)
        yield trace(f'printed book, {n} times', SMALL, [0] + [0, 1] * n, 0)
    none = assemble([1, 0], [])
    yield from both('no clauses', none, [0], 1)
    yield trace('no clauses, first state', none, [0, 0, 2], 1)
    yield trace('no clauses, first state, the other goal', none, [0, 0, 2], 0, [2])
    yield trace('no clauses, first state and a step', none, [0, 0, 2, 0, 0, 0, 2], 1)


def positions():
    """One number wrong, left out or doubled, at every position of D and of T."""
    for at, old in enumerate(D):
        for n in sorted({-1, 0, 1, 2, 3, 4, old - 1, old + 1, 256, 65536 + old, LEAST, MOST} - {old}):
            yield derivation(f'D, number {at} = {n}', B, replaced(D, at, n), 1)
    for at, old in enumerate(T):
        for n in sorted({-1, 0, 1, 2, 3, 4, old + 1, 256 + old, LEAST, MOST} - {old}):
            yield trace(f'of D, number {at} = {n}', B, replaced(T, at, n), 1)
    for at in range(len(D)):
        yield derivation(f'D without number {at}', B, D[:at] + D[at + 1:], 1)
        yield derivation(f'D, number {at} twice', B, D[:at] + D[at:at + 1] + D[at:], 1)
    for at in range(len(T)):
        yield trace(f'of D without number {at}', B, T[:at] + T[at + 1:], 1)
        yield trace(f'of D, number {at} twice', B, T[:at] + T[at:at + 1] + T[at:], 1)


def wide_steps():
    """Steps of the book WIDE: rows 0, 14 and 7, then the query."""
    low = list(range(-8, 0))
    high = list(range(1, 9))
    back = list(range(8, 0, -1))
    return [
        (0, low + high),
        (1, low + high),
        # Its body is row 14 with the variables 15 to 8.
        (2, low + back),
        (3, [low[0], back[7], low[1], back[6], low[2], back[5], low[3], back[4]]),
    ]


def ends():
    """Lists that end in every position of a step, and of the first state."""
    for n in range(len(D) + 1):
        yield derivation(f'first {n} numbers of D', B, D[:n], 1)
    for n in range(len(T) + 1):
        yield trace(f'of D, first {n} numbers', B, T[:n], 1)
    steps = wide_steps()
    numbers = listed(steps)
    for n in range(len(numbers) + 1):
        yield derivation(f'WIDE, first {n} numbers', WIDE, numbers[:n], 15)
    yield derivation('WIDE, one number more', WIDE, numbers + [0], 15)
    whole = spelled(WIDE, [0] * 120, steps)
    yield trace('WIDE', WIDE, whole, 15)
    size, step = 136, 1 + 16 + 136
    for start in [0, size, size + step, size + 2 * step, size + 3 * step]:
        for n in [1, 2, 16, 17, 18, 135, 136, 137, 143, 144, 145, 151, 152]:
            if start + n < len(whole):
                yield trace(f'WIDE, first {start + n} numbers', WIDE, whole[:start + n], 15)
    # The step is there in part, and what is there is wrong too: 13 comes first.
    yield derivation('ends inside a step, value outside', B, [0, 0, 1, 9], 1)
    yield trace('ends inside a step, value outside', B, T[:3] + [0, 9], 1)
    yield trace('ends inside a step, constraint false', B, T[:3] + [0, 1, 1, 0], 1)
    yield trace('ends inside a step, body not met', B, T[:3] + [1, 0, 1, 1, 0], 1)
    yield trace('ends inside a step, next state wrong', B, T[:3] + [0, 0, 0, 1], 1)
    yield trace('ends inside the first state, flag set', B, [1, 1], 1)
    yield trace('ends inside the first state, at its places', PAIRS, [0, 0, 0, 9, 9, 9, 9], 2)
    # No such clause comes before the list's end.
    yield derivation('ends after a clause that is not there', B, [0, 0, 3], 1)
    yield trace('ends after a clause that is not there', B, T[:3] + [3], 1)


def clause_numbers():
    for k in [-2, -1, 3, 4, 5, 63, 64, 255, 256, 257, 65536, 65537, 16777216, LEAST, LEAST + 1, MOST - 1, MOST]:
        yield derivation(f'clause {k} at the start', B, [k] + D[1:], 1)
        yield derivation(f'clause {k} alone', B, [k], 1)
        yield derivation(f'clause {k} at the end', B, D + [k], 1)
        yield derivation(f'clause {k} in the middle', B, replaced(D, 5, k), 1)
        yield trace(f'clause {k} at the start', B, replaced(T, 3, k), 1)
        yield trace(f'clause {k} at the end', B, T + [k], 1)
        yield trace(f'clause {k} in the middle', B, replaced(T, 14, k), 1)
        yield from both(f'clause {k} of none', assemble([0], []), [0, k], 0)
    full = assemble([0], [record(0, [255 if i == 0 else 0], [0], TRUE) for i in range(64)])
    for k in [-1, 0, 1, 62, 63, 64, 65, 127, 128, 255, 256]:
        yield derivation(f'clause {k} of 64', full, [0, k], 0)
        yield trace(f'clause {k} of 64', full, [0, 0, 1, k, 1], 0)


def windows():
    """Values at both ends of the window and one past each: as inputs, in a first and a next state, and as goal."""
    for lo, hi in [(0, 3), (0, 0), (-1, 0), (-7, -5), (5, 900), (LEAST, MOST), (LEAST, LEAST), (MOST, MOST),
                   (LEAST + 1, MOST - 1), (-32769, 32768), (-129, 255)]:
        data = assemble([2, 0], [
            record(2, [255], [0, 0, 1], TRUE),
            record(3, [0, 0, 1], [0, 1, 2], TRUE),
            record(2, [0, 0, 1], [1], TRUE)], lo=lo, hi=hi)
        name = f'window {lo}..{hi}'
        tried = [n for n in sorted({lo - 1, lo, hi, hi + 1, LEAST, MOST, 0}) if fits(n)]
        for a in tried:
            yield derivation(f'{name}, first value {a}', data, [0, a, lo, 2, a, lo], 1)
            yield derivation(f'{name}, last value {a}', data, [0, hi, a, 2, hi, a], 1)
            yield derivation(f'{name}, in step two {a}', data, [0, lo, hi, 1, lo, hi, a], 0, [hi, a])
            yield derivation(f'{name}, goal value {a}', data, [0, lo, hi], 0, [a, hi])
            yield trace(f'{name}, first value {a}', data, spelled(data, [lo, hi], [(0, [a, lo])]), 0, [a, lo])
            yield trace(f'{name}, last value {a}', data, spelled(data, [hi, lo], [(0, [hi, a])]), 0, [hi, a])
            yield trace(f'{name}, first place {a}', data, spelled(data, [a, hi], [(0, [lo, hi])]), 0, [lo, hi])
            yield trace(f'{name}, second place {a}', data, spelled(data, [lo, a], [(0, [hi, lo])]), 0, [hi, lo])
            yield trace(f'{name}, next place {a}', data, replaced(spelled(data, [lo, lo], [(0, [lo, hi])]), 9, a),
                        0, [lo, hi])
            yield trace(f'{name}, goal value {a}', data, spelled(data, [lo, lo], [(0, [lo, hi])]), 0, [lo, a])
        if fits(lo - 1) and fits(hi + 1):
            yield derivation(f'{name}, two outside', data, [0, hi + 1, lo - 1], 0, [hi + 1, lo - 1])
            yield trace(f'{name}, two places outside', data, [0, 0, lo - 1, hi + 1], 0, [lo, lo])
            yield trace(f'{name}, a flag set and a place outside', data, [0, 1, lo - 1, hi + 1], 0, [lo, lo])
            yield trace(f'{name}, goal outside', data, spelled(data, [lo, lo], [(0, [lo, hi])]), 0, [lo - 1, hi + 1])


def flags():
    """First states: flags that are not 0."""
    for at in range(4):
        for n in [1, 2, -1, 256, 65536, LEAST, MOST]:
            first = replaced([0, 0, 0, 0], at, n)
            yield trace(f'first flag {at} = {n}', FLAGS, first, 3)
            yield trace(f'first flag {at} = {n}, and a step', FLAGS, first + [5] + replaced(first, 3, 1), 3)
    yield trace('first flags 0 1 1 0', FLAGS, [0, 1, 1, 0], 3)
    yield trace('flag before place', B, [0, 1, 9], 1)
    yield trace('flag before list end', B, [0, 1, 0, 0], 1)
    yield trace('last flag of 16', WIDE, [0] * 15 + [1] + [0] * 120, 15)
    yield trace('last place of 120 outside', WIDE, [0] * 135 + [10], 15)
    yield trace('first and last place of 120 outside', WIDE, [0] * 16 + [-10] + [0] * 118 + [10], 15)
    yield trace('first state of 136', WIDE, [0] * 136, 15)
    yield trace('first state of 136, goal of 8', WIDE, [0] * 136, 3, [0] * 8)


def effects():
    """What a step asks and what it leaves, by the errors that are easy to make."""
    # A bodiless clause in the middle of a trace, and a second time with the same head.
    middle = spelled(B, [0], [(0, [0]), (1, [0, 1]), (0, [0]), (1, [0, 1]), (1, [1, 2]), (1, [2, 3]), (2, [3])])
    yield trace('a bodiless clause in the middle', B, middle, 1)
    yield trace('a bodiless clause in the middle, without effect', B, replaced(middle, 18, 1), 1)
    yield trace('a bodiless clause twice', B, spelled(B, [2], [(0, [0]), (0, [0])]), 0, [0])
    yield trace('a bodiless clause twice, then on', B, spelled(B, [2], [(0, [0]), (0, [0]), (1, [0, 1])]), 0, [1])
    yield trace('a bodiless clause at the end', FLAGS, spelled(FLAGS, [], [(0, []), (1, []), (5, [])]), 3)
    yield trace('a bodiless clause at the end, without effect', FLAGS,
                [0, 0, 0, 0, 0, 1, 0, 0, 0, 5, 1, 0, 0, 0], 3)
    for k in [0, 2]:
        yield derivation(f'bodiless clause {k} again in LOOP', LOOP, listed([(0, []), (k, [0] * (k // 2))]), 0)
    yield derivation('a bodiless clause in the middle', B, [0, 0, 1, 0, 1, 0, 0, 1, 0, 1], 0, [1])
    yield derivation('a bodiless clause with the head just before it', B, [0, 0, 0, 0], 0, [0])
    yield derivation('a bodiless clause at the end', FLAGS, [0, 1, 5], 3)
    yield derivation('a bodiless clause alone', FLAGS, [5], 3)

    # A body's flag stays set.
    stays = [(0, []), (1, []), (2, []), (1, []), (4, []), (3, [])]
    yield trace('a body used again', FLAGS, spelled(FLAGS, [], stays), 3)
    yield trace('a body cleared', FLAGS, [0, 0, 0, 0, 0, 1, 0, 0, 0, 1, 0, 1, 0, 0], 1)
    yield trace('a body cleared, then used', FLAGS, [0, 0, 0, 0, 0, 1, 0, 0, 0, 1, 0, 1, 0, 0, 4, 0, 1, 0, 1], 3)
    yield trace('a body used twice, its place asked', COPY,
                spelled(COPY, [1, 1], [(0, [3]), (2, [3]), (2, [3]), (4, [3])]), 2)
    yield trace('query from an unset flag', FLAGS, [0, 0, 0, 0, 4, 0, 0, 0, 1], 3)
    yield trace('body flag of the next relation', FLAGS, [0, 0, 0, 0, 0, 1, 0, 0, 0, 2, 1, 0, 1, 0], 2)
    yield trace('places met, flag not set', COPY, spelled(COPY, [3, 3], [(4, [3])]), 2)
    yield trace('places met, flag not set, after a step', COPY, spelled(COPY, [3, 3], [(1, [3]), (4, [3])]), 2)
    yield trace('flag set, place not met', COPY, spelled(COPY, [3, 3], [(0, [2]), (4, [3])]), 2)
    yield trace('place met before it was written again', COPY,
                spelled(COPY, [0, 0], [(0, [3]), (0, [1]), (4, [3])]), 2)
    yield trace('place met again', COPY, spelled(COPY, [0, 0], [(0, [3]), (0, [1]), (0, [3]), (4, [3])]), 2)
    yield trace('head and body the same relation', COPY, spelled(COPY, [0, 0], [(0, [3]), (5, [3]), (4, [3])]), 2)
    yield trace('head and body the same relation, another value', COPY,
                spelled(COPY, [0, 0], [(0, [3]), (5, [2]), (4, [2])]), 2)
    yield trace('goal reached, then lost', COPY, spelled(COPY, [0, 0], [(0, [3]), (0, [2])]), 0, [3])
    yield trace('goal reached, then lost, the later goal', COPY, spelled(COPY, [0, 0], [(0, [3]), (0, [2])]), 0, [2])
    yield trace('goal reached, then steps elsewhere', COPY, spelled(COPY, [0, 0], [(0, [3]), (1, [2])]), 0, [3])
    yield trace('goal relation unset, its places met', COPY, spelled(COPY, [3, 2], [(0, [3])]), 1, [2])

    # A step leaves the places of another relation alone, set or not.
    frame = spelled(COPY, [1, 2], [(0, [3])])
    yield trace('another relation unset', COPY, frame, 0, [3])
    for n in [0, 1, 3, -1]:
        yield trace(f'another relation unset, its place now {n}', COPY, replaced(frame, 11, n), 0, [3])
    frame = spelled(COPY, [1, 2], [(1, [3]), (0, [0])])
    yield trace('another relation set', COPY, frame, 0, [0])
    yield trace('another relation set, its place as at first', COPY, replaced(frame, 18, 2), 0, [0])
    yield trace('another relation set, its flag cleared', COPY, replaced(frame, 15, 0), 0, [0])
    frame = spelled(PAIRS, [0, 1, 2, 3, 0], [(0, [3, 2]), (2, [3, 2])])
    yield trace('places that no step wrote', PAIRS, frame, 0, [2, 3])
    for at in range(8, len(frame)):
        yield trace(f'places that no step wrote, number {at} off by one', PAIRS, replaced(frame, at, frame[at] ^ 1), 0,
                    [2, 3])
    steps = wide_steps()
    whole = spelled(WIDE, [n % 19 - 9 for n in range(120)], steps)
    yield trace('WIDE, places that no step wrote', WIDE, whole, 15)
    for at in range(136 + 17, len(whole), 11):
        yield trace(f'WIDE, number {at} more by one', WIDE, replaced(whole, at, whole[at] + 1), 15)
    # Two numbers wrong: the first counts.
    yield trace('two numbers of the next state wrong', B, replaced(replaced(T, 7, 9), 5, 0), 1)
    yield trace('next state wrong, and the next step too', B, replaced(replaced(T, 7, 9), 8, 9), 1)
    yield trace('flag 2 in a next state', B, replaced(T, 5, 2), 1)

    # A variable that occurs twice in the body.
    for a, b in [(0, 0), (3, 3), (0, 1), (1, 0), (2, 3)]:
        for v in sorted({a, b}):
            yield derivation(f'{a} {b} asked as {v} {v}', PAIRS, [0, a, b, 1, v], 2)
            yield trace(f'{a} {b} asked as {v} {v}', PAIRS, spelled(PAIRS, [0] * 5, [(0, [a, b]), (1, [v])]), 2)
        yield derivation(f'{a} {b} turned', PAIRS, [0, a, b, 2, a, b, 2, b, a], 0, [a, b])
        yield derivation(f'{a} {b} turned once', PAIRS, [0, a, b, 2, a, b], 0, [a, b])
        yield derivation(f'{a} {b} not turned', PAIRS, [0, a, b, 2, a, b, 2, a, b], 0, [a, b])
        # Body r0(y, x), head r1(x, y, x); then body r1(x, x, y), which asks the first two alike.
        yield derivation(f'{a} {b} to three places', PAIRS, [0, a, b, 3, b, a], 1, [b, a, b])
        yield derivation(f'{a} {b} to three places and back', PAIRS, [0, a, b, 3, b, a, 4, b, b], 0, [b, b])
        yield trace(f'{a} {b} to three places and back', PAIRS,
                    spelled(PAIRS, [1, 2, 3, 0, 1], [(0, [a, b]), (3, [b, a]), (4, [b, b])]), 0, [b, b])
        yield derivation(f'{a} {b} to three places, then a query', PAIRS, [0, a, b, 3, b, a, 5, a, 2, b], 2)
        yield derivation(f'{a} {b} to three places, a free variable outside', PAIRS, [0, a, b, 3, b, a, 5, a, 4, b], 2)
        yield trace(f'{a} {b} to three places, then a query', PAIRS,
                    spelled(PAIRS, [1, 2, 3, 0, 1], [(0, [a, b]), (3, [b, a]), (5, [a, 0, b])]), 2)
    yield derivation('three places of one variable', PAIRS, [6, 2, 4, 2, 2, 1, 2], 2)
    yield derivation('three places, the last differs', PAIRS, [6, 2, 4, 2, 1, 1, 2], 2)

    # A derivation asks the fact just before, a trace any that stands.
    yield derivation('the fact before the last', FLAGS, [0, 1, 4], 3)
    yield trace('the fact before the last', FLAGS, spelled(FLAGS, [], [(0, []), (1, []), (4, [])]), 3)
    yield derivation('a body at the start', FLAGS, [1], 1)
    yield derivation('a body at the start, then right', FLAGS, [1, 2], 2)
    yield derivation('another relation with the same values', COPY, [0, 2, 3, 2], 2)
    yield derivation('round and round', FLAGS, [0] + [1, 2, 3] * 5 + [4], 3)
    yield derivation('round and round, one step left out', FLAGS, [0] + [1, 2, 3] * 4 + [1, 3, 4], 3)
    yield derivation('the goal in the middle', FLAGS, [0, 1, 2], 1)
    yield derivation('same relation, another value at the end', B, D[:8], 0, [1])

    # Which fault comes first in a step.
    yield derivation('value outside, constraint false, body not met', B, [0, 0, 1, 9, 0], 1)
    yield derivation('second value outside, first makes it false', B, [0, 0, 1, 1, 9], 1)
    yield derivation('constraint false, body not met', B, [0, 0, 1, 1, 3], 1)
    yield derivation('constraint false at a start with a body', B, [1, 1, 1], 1)
    yield derivation('constraint false, bodiless in the middle', B, [0, 0, 0, 1], 1)
    yield trace('value outside, constraint false, body not met', B, T[:8] + [1, 9, 0, 5, 5, 5], 1)
    yield trace('constraint false, body not met, next state wrong', B, T[:8] + [1, 1, 3, 5, 5, 5], 1)
    yield trace('body not met, next state wrong', B, T[:8] + [1, 1, 2, 5, 5, 5], 1)
    yield trace('next state wrong, goal not reached', B, T[:8] + [1, 0, 1, 1, 0, 0], 1)


def goals():
    """Relations that are not there, counts that are not the arity, and what comes before and after them."""
    for r in [2, 3, 15, 16, 17, 255, 256, 2 ** 31, 2 ** 32, 2 ** 32 + 1, 2 ** 63, 2 ** 63 + 1, 2 ** 64 - 1]:
        yield from both(f'goal relation {r}', B, D, r)
        yield from both(f'goal relation {r} with a value', B, T, r, [3])
        yield derivation(f'goal relation {r} of 16', WIDE, [0], r)
        yield trace(f'goal relation {r} of 16, with 8 values', WIDE, [0] * 136, r, [0] * 8)
    for n in [0, 1, 2, 3, 7, 8, 9, 16]:
        yield from both(f'{n} values for one place', B, D[:11], 0, [3] * n)
        yield trace(f'{n} values for one place, trace', B, T, 0, [3] * n)
        yield derivation(f'{n} values for no place', B, D, 1, [0] * n)
        yield trace(f'{n} values for no place', B, T, 1, [0] * n)
        yield from both(f'{n} values for 8 places', WIDE, listed(wide_steps()), 7, [0] * n)
        yield from both(f'{n} values, empty list', B, [], 0, [0] * n)
    steps = wide_steps()
    end = checkers.fact_of(book_of(WIDE)['clauses'][2]['head'], steps[2][1])[1]
    part = listed(steps[:3])
    whole = spelled(WIDE, [0] * 120, steps[:3])
    yield derivation('goal of 8 places', WIDE, part, 7, end)
    yield trace('goal of 8 places', WIDE, whole, 7, end)
    for i in range(8):
        for n in [end[i] + 1, 10, -10, LEAST, MOST]:
            yield derivation(f'goal of 8 places, value {i} = {n}', WIDE, part, 7, replaced(end, i, n))
            yield trace(f'goal of 8 places, value {i} = {n}', WIDE, whole, 7, replaced(end, i, n))
    yield trace('goal of the row above', WIDE, whole, 6, end)
    yield trace('goal of the row above, its places', WIDE, whole, 6, [0] * 8)
    yield trace('goal of the row below', WIDE, whole, 8, end)
    yield trace('goal of row 0', WIDE, whole, 0, list(range(-8, 0)))
    yield trace('goal of row 14', WIDE, whole, 14, list(range(1, 9)))
    yield derivation('goal of row 14', WIDE, part, 14, list(range(1, 9)))
    # Outside the window: only 17, also where the list has an earlier fault, which counts.
    for n in [-1, 4, LEAST, MOST]:
        yield from both(f'goal {n} outside', B, D[:11], 0, [n])
        yield derivation(f'goal {n} outside, a later fault', B, D[:9] + [9], 0, [n])
        yield trace(f'goal {n} outside, trace', B, T, 0, [n])
        yield trace(f'goal {n} outside, also the state', B, replaced(T, 25, n), 0, [n])
    # Empty lists.
    yield from both('empty list', B, [], 1)
    yield from both('empty list, other goal', B, [], 0, [0])
    yield from both('empty list, no clauses', assemble([0], []), [], 0)
    yield from both('empty list, no such goal', B, [], 2)


def refused_books():
    """A refused book ends the call, whatever else is wrong."""
    seen = []
    for data, number, place in book_cases.BY_HAND:
        if number != 0 and len(data) <= 100:
            seen.append((data, number, place))
    seen.append((bytes(60001), 1, 0))
    for i, (data, number, place) in enumerate(seen):
        yield derivation(f'refused book {i}: {number} at {place}', data, D, 1)
        if len(data) <= 100:
            yield trace(f'refused book {i}: {number} at {place}', data, T, 1)
            yield from both(f'refused book {i}: {number} at {place}, empty list', data, [], 1)
            yield from both(f'refused book {i}: {number} at {place}, no such goal', data, [0], 2 ** 63, [1, 2])
    for at in range(len(B)):
        broken = changed(B, at, B[at] ^ 64)
        yield derivation(f'B with byte {at} changed', broken, D, 1)
        yield trace(f'B with byte {at} changed', broken, T, 1)


def asked(name, variables, constraint, values, lo=LEAST, hi=MOST):
    """The truth of a constraint at values: 0 at 0, or 15 at 0."""
    return derivation(name, single(variables, constraint, lo=lo, hi=hi), [0, *values], 0)


def truths():
    """All seven kinds, and how they nest."""
    leaf = {'true': TRUE, 'false': NOT + TRUE}
    yield asked('true', 0, TRUE, [])
    yield asked('not true', 0, NOT + TRUE, [])
    yield asked('not not true', 0, NOT + NOT + TRUE, [])
    for a, b in itertools.product(leaf, leaf):
        for name, kind in [('and', AND), ('or', OR)]:
            yield asked(f'{a} {name} {b}', 0, kind + leaf[a] + leaf[b], [])
            yield asked(f'not ({a} {name} {b})', 0, NOT + kind + leaf[a] + leaf[b], [])
            for c in leaf:
                for other, second in [('and', AND), ('or', OR)]:
                    yield asked(f'({a} {name} {b}) {other} {c}', 0, second + kind + leaf[a] + leaf[b] + leaf[c], [])
                    yield asked(f'{a} {name} ({b} {other} {c})', 0, kind + leaf[a] + second + leaf[b] + leaf[c], [])
    for s in [-2, -1, 0, 1, 2]:
        yield asked(f'le, sum {s}', 1, le([1], 0), [s])
        yield asked(f'eq, sum {s}', 1, eq([1], 0), [s])
        yield asked(f'le, sum {s} by the constant', 0, le([], s), [])
        yield asked(f'eq, sum {s} by the constant', 0, eq([], s), [])
        yield asked(f'le, sum {s}, twice negative', 1, le([-1], 0), [-s])
        yield asked(f'eq, sum {s}, of three', 3, eq([2, -3, 1], 5), [-1, 1, s])
    # Which coefficient goes with which variable.
    for v in [2, 3, 8, 16]:
        values = [(7 * i) % 11 - 5 for i in range(v)]
        coefficients = [(5 * i) % 13 - 6 for i in range(v)]
        s = sum(c * x for c, x in zip(coefficients, values))
        for off in [-1, 0, 1]:
            yield asked(f'sum of {v}, off by {off}', v, eq(coefficients, off - s), values)
            yield asked(f'sum of {v}, at most, off by {off}', v, le(coefficients, off - s), values)
            yield asked(f'sum of {v} turned, off by {off}', v, eq(coefficients[::-1], off - s), values)
        for i in range(v):
            yield asked(f'sum of {v}, value {i} off', v, eq(coefficients, -s), replaced(values, i, values[i] + 1))
    # Depth and number of nodes: the value of the deepest leaf decides.
    for depth in [2, 3, 15, 16]:
        for x in [0, 1]:
            yield asked(f'not, depth {depth}, {x}', 1, NOT * (depth - 1) + eq([1], 0), [x])
            for right in [False, True]:
                tree = leaning(AND, depth, eq([1], 0), right)
                yield asked(f'and leaning, depth {depth}, {right}, {x}', 1, tree, [x])
    for nodes in [63, 64]:
        for i in range(0, 32, 3):
            one = [eq([1], 0)] * i + [eq([1], -1)] + [eq([1], 0)] * (31 - i)
            for x in [0, 1]:
                yield asked(f'{nodes} nodes, leaf {i}, all, {x}', 1, NOT * (nodes - 63) + balanced(one, (AND, AND)), [x])
                yield asked(f'{nodes} nodes, leaf {i}, some, {x}', 1, NOT * (nodes - 63) + balanced(one, (OR, OR)), [x])
    yield asked('an or whose first child is long', 2, AND + OR + rem([1, 1], 0, 3, 1) + le([1, 0], 0) + eq([0, 1], -7),
                [9, 7])


def remainders():
    """Kind 6 at and on both sides of zero."""
    for d in [1, 2, 3, 5, 65535]:
        for r in sorted({0, 1, 2, d - 1} & set(range(d))):
            for s in sorted({-2 * d, -d - 1, -d, -d + r, r - d, -2, -1, 0, 1, 2, r, d - 1, d, d + 1, d + r, 2 * d + r,
                             2 * d - 1}):
                yield asked(f'remainder {r} by {d} of {s}', 1, rem([1], 0, d, r), [s])
    for s in [5, -1, -4, 2, 8]:
        yield asked(f'remainder 2 by 3 of {s}, constant', 0, rem([], s, 3, 2), [])
        yield asked(f'remainder 2 by 3 of {s}, denied', 0, NOT + rem([], s, 3, 2), [])
        yield asked(f'remainder 2 by 3 of {s}, in parts', 2, rem([3, -1], 1, 3, 2), [s, 2 * s + 1])
    for d in [1, 2, 32767, 32768, 65534, 65535]:
        for s in [MOST, MOST - 1, 65535, 65536, LEAST, LEAST + 1, -65535, -65536]:
            for r in sorted({s % d, (s + 1) % d, -(-s % d) % d, (-s) % d}):
                yield asked(f'remainder {r} by {d} of {s}, large', 1, rem([1], 0, d, r), [s])


def sums():
    """Sums at the ends of their range: coefficients, values and constants at theirs, up to 16 variables."""
    for v in [1, 2, 15, 16]:
        for c, x, k in itertools.product([-32768, 32767], [LEAST, MOST], [LEAST, MOST, 0]):
            s = v * c * x + k
            name = f'{v} times {c} * {x} + {k}'
            yield asked(f'{name} <= 0', v, le([c] * v, k), [x] * v)
            yield asked(f'not {name} <= 0', v, NOT + le([c] * v, k), [x] * v)
            yield asked(f'{name} = 0', v, eq([c] * v, k), [x] * v)
            for d in [65535, 7]:
                for off in [0, 1]:
                    yield asked(f'{name} by {d}, off by {off}', v, rem([c] * v, k, d, (s + off) % d), [x] * v)
    # Large parts that cancel, and sums that are 0 or not where 32 or 64 bits would wrap.
    for off in [-1, 0, 1]:
        yield asked(f'large parts cancel, off by {off}', 16, eq([32767] * 8 + [-32767] * 8, off), [MOST] * 16)
        yield asked(f'16 large parts cancel, off by {off}', 16, eq([-32768] * 16, off - 262144), [LEAST] * 8 + [MOST] * 8)
        yield asked(f'16 large parts cancel, at most, off by {off}', 16, le([-32768] * 16, off - 262144), [MOST, LEAST] * 8)
        yield asked(f'16 large parts cancel, by 2, off by {off}', 16, rem([-32768] * 16, off - 262144, 2, off % 2),
                    [LEAST, MOST] * 8)
        yield asked(f'2^32 and {off}', 2, eq([2, 2], off), [MOST, 1])
        yield asked(f'2^32 less 2^32, {off}', 3, eq([2, 2, -32768], off), [MOST, 1, 131072])
        yield asked(f'2^46 and {off}', 1, le([-32768], off), [LEAST])
        yield asked(f'-2^46 and {off}', 1, le([-32768], off), [MOST])
        yield asked(f'2^31 less 2^31, {off}', 1, eq([1], MOST), [off - MOST])
        yield asked(f'least and least, {off}', 2, le([1, -1], off), [LEAST, LEAST])
    last = [32767] * 15 + [-32768]
    for x in [LEAST, MOST, 0, -1]:
        yield asked(f'16 variables, the last {x}', 16, le(last, LEAST), [LEAST] * 15 + [x])
        yield asked(f'16 variables, the last {x}, other way', 16, le(last, MOST), [MOST] * 15 + [x])
        yield asked(f'16 variables, the first {x}', 16, le(last[::-1], MOST), [x] + [-1] * 15)
    # 2^46 + 2^46 - (2^46 - 2^15) - (2^46 - 2^15) is 65536.
    for off in [-1, 0, 1]:
        yield asked(f'four parts cancel, off by {off}', 4, eq([-32768] * 4, off - 65536), [LEAST, LEAST, MOST, MOST])
        yield asked(f'two and two, off by {off}', 4, eq([-32768, -32768, 32767, 32767], off), [32767, 32767, 32768, 32768])


def large_books():
    """Books near the most that a book may have."""
    leaves = [le([3] * 16, -1), eq([1] * 16, -16), rem([2] * 16, 1, 9, 6), TRUE]
    constraint = NOT + balanced([leaves[i % 4] for i in range(32)], (OR, AND))
    first = record(16, [255], [0, 0], constraint)
    later = record(16, [0, 3], [0, 3], constraint)
    count = 1
    while len(assemble([1, 0], [first] + [later] * count)) + len(later) + 50 <= 60000:
        count += 1
    records = [first] + [later] * count
    last = record(2, [0, 1], [1], rem([-1, 1], 0, 4, 3))
    data = assemble([1, 0], records + [last], lo=-20, hi=20)
    assert 58000 < len(data) <= 60000 and len(records) < 64
    truth = [v for v in ([1] * 16, [0] * 16, [-1] * 16, [2] * 16) if checkers.holds(book_of(data)['clauses'][0]['constraint'], v)]
    x = truth[0]
    k = len(records)
    yield derivation('large book', data, listed([(0, x), (count, x), (k, [x[0] - 3, x[0]])]), 1)
    yield derivation('large book, last constraint false', data, listed([(0, x), (count, x), (k, [x[0] - 2, x[0]])]), 1)
    yield derivation('large book, no such clause', data, listed([(0, x)]) + [k + 1], 1)
    yield trace('large book', data, spelled(data, [0], [(0, x), (count, x), (k, [x[0] - 3, x[0]])]), 1)
    many = [record(0, [255], [0], NOT + balanced([TRUE] * 32))] + [record(0, [0], [0], balanced([TRUE] * 32))] * 63
    data = assemble([0], many)
    yield derivation('64 clauses of 64 nodes', data, [0], 0)
    yield derivation('64 clauses of 63 nodes, from the second', data, [1, 63], 0)


def long_lists():
    """Lists of a million numbers, of one more, and near them."""
    def long(name, call, pieces, relation=0, values=(), data=LOOP):
        return (f'{NAMES[call]}, {name}', call, data, pieces, relation, list(values))

    for n in [MILLION - 1, MILLION, MILLION + 1]:
        yield long(f'{n} numbers', DERIVATION, [([0], 1), ([1], n - 1)])
        yield long(f'{n} zeros', DERIVATION, [([0], n)])
        yield long(f'{n} numbers, no such goal', DERIVATION, [([0], 1), ([1], n - 1)], 1)
        yield long(f'{n} zeros', TRACE, [([0], n)])
    yield long('a million numbers, the last no clause', DERIVATION, [([0], 1), ([1], MILLION - 2), ([5], 1)])
    yield long('a million numbers, the last bodiless', DERIVATION, [([0], 1), ([1], MILLION - 2), ([0], 1)])
    yield long('a million numbers, the last a step too short', DERIVATION, [([0], 1), ([1], MILLION - 2), ([3], 1)])
    yield long('a million numbers, steps of three', DERIVATION, [([0], 1), ([4, 1, 2], MILLION - 1)])
    yield long('a million numbers, the last makes it false', DERIVATION, [([0], 1), ([4, 1, 2], MILLION - 2), ([0], 1)])
    # A first state of one number, and 333,333 steps of three.
    whole = [([0], 1), ([2, 3, 1], 3), ([3, 0, 1], MILLION - 4)]
    yield long('a million numbers', TRACE, whole)
    yield long('a million numbers, the last 0', TRACE, whole[:2] + [([3, 0, 1], MILLION - 5), ([0], 1)])
    yield long('a million numbers, the last input outside', TRACE,
               whole[:2] + [([3, 0, 1], MILLION - 6), ([4, 1], 2)])
    yield long('one fewer than a million numbers', TRACE, whole[:2] + [([3, 0, 1], MILLION - 5)])
    yield long('one more than a million numbers', TRACE, [([0], 1), ([0, 1], 2), ([1, 1], MILLION - 2)])
    yield long('two fewer than a million and one', TRACE, [([0], 1), ([0, 1], 2), ([1, 1], MILLION - 4)])
    # 16 relations, 136 numbers a state: as many steps as fit.
    row = [0] * 16 + [1] * 120
    after = replaced(row, 0, 1)
    step = [0, *[1] * 16, *after]
    steps = (MILLION - 136) // len(step)
    pieces = [(row, 136), (step, steps * len(step))]
    yield long('WIDE, as long as can be', TRACE, pieces, 0, [1] * 8, WIDE)
    yield long('WIDE, as long as can be, query', TRACE, pieces, 15, (), WIDE)
    yield long('WIDE, and on to a million', TRACE, [pieces[0], (step, MILLION - 136)], 0, [1] * 8, WIDE)
    yield long('WIDE, and on past a million', TRACE, [pieces[0], (step, MILLION - 135)], 0, [1] * 8, WIDE)
    yield long('WIDE, the last number off', TRACE, [pieces[0], (step, steps * len(step) - 1), ([2], 1)], 0, [1] * 8, WIDE)
    # B counts to 3 and starts again, which only a trace can.
    turn = T[3:26]
    n = (MILLION - 3) // len(turn) * len(turn)
    yield long('B round and round', TRACE, [([0, 0, 0], 3), (turn, n)], 0, [3], B)
    yield long('B round and round, then the query', TRACE, [([0, 0, 0], 3), (turn, n - len(turn)), (T[26:], 5)], 1, [], B)


# ---------------------------------------------------------------------------
# Random books with lists that are right by the way they are made
# ---------------------------------------------------------------------------

class Grower(Dice):
    """Makes books together with derivations and traces of them."""

    def value(self, lo, hi):
        return self.pick([lo, hi, lo + self.below(min(hi - lo, 3) + 1), lo + self.below(2 ** 31) % (hi - lo + 1)])

    def sum_near(self, values, spread):
        """Coefficients and a constant whose sum at the values is near 0, where the constant can make it so."""
        most = self.pick([1, 3, 3, 32767])
        coefficients = [self.below(2 * most + 1) - most for _ in values]
        constant = self.below(2 * spread + 1) - spread - checkers.total(coefficients, 0, values)
        return coefficients, max(LEAST, min(MOST, constant))

    def near(self, values, depth):
        """A node of which it is open whether it is true of the values."""
        kind = self.below(7) if depth > 1 else self.pick([0, 1, 1, 2, 2, 6, 6])
        if kind == 0:
            return ('true',)
        if kind == 3:
            return ('not', self.near(values, depth - 1))
        if kind in (4, 5):
            return (('and', 'or')[kind - 4], self.near(values, depth - 1), self.near(values, depth - 1))
        coefficients, constant = self.sum_near(values, 2)
        if kind == 6:
            d = self.pick([1, 2, 3, 5, 65535])
            return ('rem', coefficients, constant, d, self.pick([0, d - 1, self.below(d)]))
        return (('le', 'eq')[kind - 1], coefficients, constant)

    def true_at(self, values, depth):
        node = self.near(values, depth)
        return node if checkers.holds(node, values) else ('not', node)

    def clause_for(self, book, fact):
        """A new clause, and values at which it is an instance whose body is the fact, or that has none."""
        lo, hi = book['lo'], book['hi']
        values = []
        arguments = []
        if fact is not None:
            for v in fact[1]:
                same = [i for i, w in enumerate(values) if w == v]
                if same and self.below(3):
                    arguments.append(self.pick(same))
                else:
                    arguments.append(len(values))
                    values.append(v)
        values += [self.value(lo, hi) for _ in range(self.below(4))]
        relation = self.below(len(book['arities']))
        arity = book['arities'][relation]
        if arity > 0 and not values:
            values = [self.value(lo, hi)]
        # The variables in some other order.
        order = list(range(len(values)))
        for i in range(len(order) - 1, 0, -1):
            j = self.below(i + 1)
            order[i], order[j] = order[j], order[i]
        turned = [0] * len(values)
        for i, v in zip(order, values):
            turned[i] = v
        return {
            'variables': len(values),
            'body': None if fact is None else (fact[0], [order[a] for a in arguments]),
            'head': (relation, [self.below(len(values)) for _ in range(arity)]),
            'constraint': self.true_at(turned, 1 + self.below(4)),
        }, turned

    def instance_for(self, book, clause, fact):
        """Values at which the clause is an instance with this body, or None if a few tries find none."""
        for _ in range(4):
            values = [self.value(book['lo'], book['hi']) for _ in range(clause['variables'])]
            if clause['body'] is not None:
                relation, arguments = clause['body']
                if fact is None or fact[0] != relation:
                    return None
                for a, v in zip(arguments, fact[1]):
                    values[a] = v
                if checkers.fact_of(clause['body'], values) != fact:
                    return None
            if checkers.holds(clause['constraint'], values):
                return values
        return None

    def grown(self, most_relations, most_arity, steps, lo, hi):
        """A book and a derivation, as steps (clause number, values), that grew together."""
        arities = [self.below(most_arity + 1) for _ in range(1 + self.below(most_relations))]
        query = self.below(len(arities))
        arities[query] = 0
        book = {'lo': lo, 'hi': hi, 'arities': arities, 'query': query, 'clauses': []}
        made = []
        fact = None
        for _ in range(steps):
            found = None
            for k, clause in enumerate(book['clauses']):
                if (clause['body'] is None) == (fact is None) and self.below(2):
                    found = self.instance_for(book, clause, fact)
                    if found is not None:
                        break
            if found is None:
                if len(book['clauses']) == 64:
                    break
                clause, found = self.clause_for(book, fact)
                k = len(book['clauses'])
                book['clauses'].append(clause)
            made.append((k, found))
            fact = checkers.fact_of(clause['head'], found)
        if self.below(2) and len(book['clauses']) < 64:
            clause, _ = self.clause_for(book, None)
            book['clauses'].append(clause)
        return book, made

    def wandered(self, book, planned, turns):
        """A first state's places, and the steps of a trace: those planned that are open, and others between them."""
        state = checkers.fresh_state(book, book['lo'])
        state[1] = [[self.value(book['lo'], book['hi']) for _ in row] for row in state[1]]
        first = [n for row in state[1] for n in row]
        made = []
        left = list(planned)
        for _ in range(turns):
            if left and (not made or self.below(2)):
                k, values = left.pop(0)
            else:
                k = self.below(len(book['clauses']))
                body = book['clauses'][k]['body']
                fact = None if body is None else (body[0], state[1][body[0]])
                values = self.instance_for(book, book['clauses'][k], fact)
            clause = book['clauses'][k]
            if values is None:
                continue
            if clause['body'] is not None and not checkers.in_state(state, checkers.fact_of(clause['body'], values)):
                continue
            state = checkers.put(state, checkers.fact_of(clause['head'], values))
            made.append((k, values))
        facts = [(r, state[1][r]) for r, flag in enumerate(state[0]) if flag == 1]
        return first, made, facts

    def wrong_number(self, book, numbers):
        """The list with one number wrong."""
        at = self.below(len(numbers))
        old = numbers[at]
        tried = [old + 1, old - 1, book['lo'], book['hi'], book['lo'] - 1, book['hi'] + 1, 0, 1, -1,
                 len(book['clauses']), len(book['clauses']) - 1, LEAST, MOST, old ^ 1, self.pick(numbers)]
        tried = [n for n in tried if fits(n) and n != old]
        n = self.pick(tried)
        return f'number {at} = {n}', replaced(numbers, at, n)

    def wrong_form(self, numbers):
        """The list cut, with a number less or more, with two numbers changed about, or with a part twice."""
        at = self.below(len(numbers))
        kind = self.below(5)
        if kind == 0:
            return f'first {at} numbers', numbers[:at]
        if kind == 1:
            return f'without number {at}', numbers[:at] + numbers[at + 1:]
        if kind == 2:
            return f'number {at} twice', numbers[:at + 1] + numbers[at:]
        to = self.below(len(numbers))
        if kind == 3:
            other = replaced(numbers, at, numbers[to])
            return f'numbers {at} and {to} changed about', replaced(other, to, numbers[at])
        at, to = min(at, to), max(at, to)
        return f'numbers {at} to {to} twice', numbers[:to + 1] + numbers[at:]

    def wrong_goal(self, book, goal):
        relation, values = goal
        kind = self.below(4)
        if kind == 0 or (kind < 3 and not values):
            relation = self.pick([self.below(len(book['arities'])), len(book['arities']), 255, 2 ** 32 + relation])
            return (relation, values)
        if kind == 1:
            return (relation, values[1:] if self.below(2) else values + [0])
        if kind == 2:
            i = self.below(len(values))
            n = self.pick([n for n in [values[i] + 1, values[i] - 1, book['lo'], book['hi'], book['hi'] + 1] if fits(n)])
            return (relation, replaced(values, i, n))
        r = self.below(len(book['arities']))
        return (r, [self.value(book['lo'], book['hi']) for _ in range(book['arities'][r])])


WINDOWS = [(0, 3), (-1, 1), (0, 1), (-2, 2), (5, 5), (LEAST, MOST), (-100, 1000), (LEAST, LEAST + 2), (MOST - 2, MOST)]


def grown_books():
    """(number, book, derivation steps, its goal, dice) of each random book."""
    dice = Grower(11)
    for i in range(150):
        lo, hi = WINDOWS[i % len(WINDOWS)]
        sizes = [(2, 2, 5), (3, 2, 8), (4, 3, 8), (1, 1, 4), (3, 1, 12), (16, 8, 5), (6, 4, 6)][i % 7]
        book, steps = dice.grown(*sizes[:2], 1 + dice.below(sizes[2]), lo, hi)
        k, values = steps[-1]
        yield i, book, steps, checkers.fact_of(book['clauses'][k]['head'], values), dice


def grown():
    for i, book, steps, goal, dice in grown_books():
        data = reference.write_book(book)
        numbers = listed(steps)
        yield derivation(f'grown {i}', data, numbers, *goal)
        for _ in range(7):
            name, wrong = dice.wrong_number(book, numbers)
            yield derivation(f'grown {i}, {name}', data, wrong, *goal)
        for _ in range(3):
            name, wrong = dice.wrong_form(numbers)
            yield derivation(f'grown {i}, {name}', data, wrong, *goal)
        for _ in range(2):
            at = dice.below(len(steps))
            yield derivation(f'grown {i}, without step {at}', data, listed(steps[:at] + steps[at + 1:]), *goal)
        other = dice.wrong_goal(book, goal)
        yield derivation(f'grown {i}, goal {other}', data, numbers, *other)

        first, walk, facts = dice.wandered(book, steps, 2 + dice.below(10))
        numbers = spelled(data, first, walk)
        goal = dice.pick(facts)
        yield trace(f'grown {i}', data, numbers, *goal)
        for _ in range(8):
            name, wrong = dice.wrong_number(book, numbers)
            yield trace(f'grown {i}, {name}', data, wrong, *goal)
        for _ in range(2):
            name, wrong = dice.wrong_form(numbers)
            yield trace(f'grown {i}, {name}', data, wrong, *goal)
        for _ in range(3):
            at = dice.below(len(walk))
            yield trace(f'grown {i}, without step {at}', data, spelled(data, first, walk[:at] + walk[at + 1:]), *goal)
        other = dice.wrong_goal(book, goal)
        yield trace(f'grown {i}, goal {other}', data, numbers, *other)


def reached(book):
    """Every derivable fact of a book with few instances, by breadth: fact -> steps of a derivation."""
    window = range(book['lo'], book['hi'] + 1)
    instances = []
    for k, clause in enumerate(book['clauses']):
        for values in itertools.product(window, repeat=clause['variables']):
            if checkers.holds(clause['constraint'], values):
                body = None if clause['body'] is None else checkers.fact_of(clause['body'], values)
                instances.append((k, list(values), body, checkers.fact_of(clause['head'], values)))

    def key(fact):
        return None if fact is None else (fact[0], *fact[1])

    found = {}
    front = [(None, [])]
    while front:
        later = []
        for fact, steps in front:
            for k, values, body, head in instances:
                if key(body) == key(fact) and key(head) not in found:
                    found[key(head)] = steps + [(k, values)]
                    later.append((head, found[key(head)]))
        front = later
    return found


def searched():
    """Random books in small windows, and the derivations that a search finds: the farthest fact, and another."""
    dice = Grower(12)
    for i in range(60):
        lo = dice.pick([0, -1, -2, 1])
        hi = lo + dice.below(3)
        arities = [dice.below(3) for _ in range(1 + dice.below(3))] + [0]
        book = {'lo': lo, 'hi': hi, 'arities': arities, 'query': len(arities) - 1, 'clauses': []}
        for k in range(3 + dice.below(4)):
            v = 1 + dice.below(3)
            constraint = dice.near([dice.value(lo, hi) for _ in range(v)], 1 + dice.below(3))
            book['clauses'].append({
                'variables': v,
                'body': None if k == 0 else dice.pick([None] + [dice.atom(arities, v)] * 3),
                'head': dice.atom(arities, v),
                'constraint': constraint})
        data = reference.write_book(book)
        found = reached(book)
        if not found:
            continue
        far = max(found, key=lambda f: (len(found[f]), f))
        for fact in [far, dice.pick(sorted(found))]:
            goal = (fact[0], list(fact[1:]))
            numbers = listed(found[fact])
            yield derivation(f'searched {i}', data, numbers, *goal)
            whole = spelled(data, [lo] * sum(arities), found[fact])
            yield trace(f'searched {i}', data, whole, *goal)
            for _ in range(3):
                name, wrong = dice.wrong_number(book, numbers)
                yield derivation(f'searched {i}, {name}', data, wrong, *goal)
                name, wrong = dice.wrong_number(book, whole)
                yield trace(f'searched {i}, {name}', data, wrong, *goal)


def random_truths():
    """Random constraints at random values."""
    dice = Grower(13)
    for i in range(250):
        v = dice.pick([0, 1, 2, 3, 5, 16])
        values = [dice.pick([LEAST, MOST, 0, 1, -1, dice.i32()]) for _ in range(v)]
        node = dice.node(v, 1 + dice.below(6), 1 + dice.below(20))[0]
        yield asked(f'random constraint {i}', v, reference.write_node(node), values)
    for i in range(250):
        v = dice.pick([1, 2, 3, 5, 16])
        values = [dice.below(21) - 10 for _ in range(v)]
        node = dice.near(values, 1 + dice.below(5))
        yield asked(f'random constraint near its values {i}', v, reference.write_node(node), values)


PARTS = [named, positions, ends, clause_numbers, windows, flags, effects, goals, refused_books, truths, remainders, sums,
         large_books, grown, searched, random_truths, long_lists]


def cases():
    """Every case once, in order. A case that came before is left out."""
    made = []
    seen = set()
    for part in PARTS:
        for one in part():
            key = repr(one[1:])
            if key not in seen:
                seen.add(key)
                made.append(one)
    return made


# ---------------------------------------------------------------------------
# What is written, and the self-test
# ---------------------------------------------------------------------------

def u32(n):
    return (n % 2 ** 32).to_bytes(4, 'little')


def bytes_of(one):
    """A case as it stands in stdin."""
    _, call, data, pieces, relation, values = one
    made = u32(call) + u32(len(data)) + data + u32(relation) + u32(relation >> 32)
    made += u32(len(values)) + b''.join(map(u32, values)) + u32(len(pieces))
    for written, length in pieces:
        assert 0 <= len(written) <= length
        made += u32(len(written)) + u32(length) + b''.join(map(u32, written))
    return made


def line_of(one):
    """The line due for a case."""
    _, call, data, pieces, relation, values = one
    check = checkers.check_derivation if call == DERIVATION else checkers.check_trace
    number, place = check(data, expand(pieces), relation, values)
    return f'{number} at {place}'


# Worked out by hand from document 01: name, call, book, list, goal, number, place.
PAIR = bytes.fromhex(    # one relation p of two places, a query; p(x, y); p(x, x) -> query; window 0..3
    '02 00'
    ' 02 FF 00 00 01 00'
    ' 01 00 00 00 01 00'
    ' 02 00 08 00'
    ' 00 00 00 00 03 00 00 00 0E 00 02 00 02 01 01 00')
BY_HAND = [
    ('D', DERIVATION, B, D, 1, [], 0, 0),
    ('the trace of D', TRACE, B, T, 1, [], 0, 0),
    ('first 11 numbers of D', DERIVATION, B, D[:11], 1, [], 17, 11),
    ('0 0, 1 1 2', DERIVATION, B, [0, 0, 1, 1, 2], 1, [], 16, 2),
    ('D with hi = 2', DERIVATION, changed(B, 48, 2), D, 1, [], 14, 10),
    ('number 6 set to 1', TRACE, B, replaced(T, 6, 1), 1, [], 19, 6),
    ('0 0 0', TRACE, B, [0, 0, 0], 1, [], 17, 3),
    ('a refused book', DERIVATION, changed(B, 58, 2), [], 9, [], 2, 44),
    ('a refused book', TRACE, changed(B, 0, 9), [], 9, [], 3, 0),
    ('no such relation', DERIVATION, B, D, 2, [], 10, 0),
    ('no such relation', TRACE, B, T, 2 ** 63, [], 10, 0),
    ('a value too many', DERIVATION, B, [], 1, [0], 10, 0),
    ('a value too few', TRACE, B, T, 0, [], 10, 0),
    ('an empty list', DERIVATION, B, [], 1, [], 11, 0),
    ('an empty list', TRACE, B, [], 0, [4], 11, 0),
    ('a list too long', DERIVATION, SMALL, [9] * 1000001, 0, [], 11, 0),
    ('a list as long as may be', DERIVATION, SMALL, [9] * 1000000, 0, [], 12, 0),
    ('no clause 3', DERIVATION, B, [0, 0, 3], 1, [], 12, 2),
    ('no clause -1', TRACE, B, [0, 0, 0, -1], 1, [], 12, 3),
    ('ends inside a step', DERIVATION, B, [0, 0, 1, 9], 1, [], 13, 2),
    ('ends inside the first state', TRACE, B, [1, 1], 1, [], 13, 0),
    ('ends inside a next state', TRACE, B, [0, 0, 0, 0, 9, 1, 0], 1, [], 13, 3),
    ('a value below the window', DERIVATION, B, [0, 0, 1, 0, -1], 1, [], 14, 4),
    ('a place above the window', TRACE, B, [0, 0, 4], 1, [], 14, 2),
    ('an input above the window', TRACE, B, [0, 0, 0, 0, 4, 9, 9, 9], 1, [], 14, 4),
    ('the constraint is false', DERIVATION, B, [0, 1], 0, [1], 15, 0),
    ('the constraint is false', TRACE, B, [0, 0, 0, 0, 1, 1, 0, 1], 0, [1], 15, 3),
    ('a body at the start', DERIVATION, B, [1, 0, 1], 0, [1], 16, 0),
    ('no body after step one', DERIVATION, SMALL, [0, 0], 0, [], 16, 1),
    ('the flag is not set', TRACE, B, [0, 0, 0, 1, 0, 1, 1, 0, 1], 0, [1], 16, 3),
    ('a variable twice, the same places', DERIVATION, PAIR, [0, 2, 2, 1, 2], 1, [], 0, 0),
    ('a variable twice, other places', DERIVATION, PAIR, [0, 2, 3, 1, 2], 1, [], 16, 3),
    ('a variable twice, other places', TRACE, PAIR, [0, 0, 0, 0, 0, 2, 3, 1, 0, 2, 3, 1, 3, 1, 1, 2, 3], 1, [], 16, 11),
    ('a goal outside the window', DERIVATION, B, [0, 0], 0, [9], 17, 2),
    ('goal places met, flag not set', TRACE, B, [0, 0, 2], 0, [2], 17, 3),
    ('a flag in the first state', TRACE, B, [0, 1, 9], 1, [], 18, 1),
    ('a flag of -1 in the first state', TRACE, SMALL, [-1], 0, [], 18, 0),
    ('the body cleared', TRACE, B, T[:26] + [2, 3, 0, 1, 3], 1, [], 19, 28),
    ('a place that no step wrote', TRACE, B, [0, 0, 1, 0, 0, 1, 0, 1], 0, [0], 19, 7),
    ('bodiless twice', TRACE, SMALL, [0, 0, 1, 0, 1], 0, [], 0, 0),
    ('a place kept until it is written', TRACE, B, [0, 0, 1, 0, 0, 1, 0, 0], 0, [0], 0, 0),
]


def self_test(made, lines):
    """The results of all tests, as (name, passed)."""
    for name, call, data, numbers, relation, values, number, place in BY_HAND:
        check = checkers.check_derivation if call == DERIVATION else checkers.check_trace
        yield f'by hand: {name}: {number} at {place}', check(data, numbers, relation, values) == (number, place)
    for s, true in [(5, True), (-1, False), (2, True), (0, False), (-4, False)]:
        yield f'by hand: remainder 2 by 3 of {s}', checkers.holds(('rem', [], s, 3, 2), []) == true
    # What was made right is accepted, and the parts that a list can be put together from hold.
    for one, line in zip(made, lines):
        name = one[0].split(', ')
        if len(name) == 2 and name[1].split()[0] in ('grown', 'searched'):
            yield f'made right: {one[0]}', line == '0 at 0'
        yield f'pieces: {one[0]}', sum(length for _, length in one[3]) <= MILLION + 1
    for call, name in NAMES.items():
        numbers = [line.split()[0] for one, line in zip(made, lines) if one[1] == call]
        for n in given(call):
            yield f'two cases or more of the {name} check give {n}', numbers.count(str(n)) >= 2


def given(call):
    """The numbers that a check can give."""
    return [*range(9), *range(10, 18)] + ([18, 19] if call == TRACE else [])


def main(words):
    made = cases()
    lines = [line_of(one) for one in made]
    stdin = b''.join(map(bytes_of, made))
    stdout = ''.join(line + '\n' for line in lines).encode()
    if words == ['--list']:
        for i, (one, line) in enumerate(zip(made, lines)):
            length = sum(n for _, n in one[3])
            print(f'{i + 1}: {one[0]} (book of {len(one[2])}, list of {length}, goal {one[4]} {one[5]}): {line}')
        return 0
    results = list(self_test(made, lines))
    results += stored.kept({'list_cases/stdin': stdin, 'list_cases/stdout': stdout}, words)
    print(f'{len(made)} cases, {len(stdin)} bytes')
    for n in given(TRACE):
        of = [sum(one[1] == call and line.split()[0] == str(n) for one, line in zip(made, lines))
              for call in NAMES]
        print(f'  {of[0]} derivations and {of[1]} traces give {n}')
    return stored.told(results)


if __name__ == '__main__':
    stored.run(main, __doc__)
