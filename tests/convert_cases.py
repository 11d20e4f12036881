"""The cases of the two conversions, for the program crates/convert_cases.

  python3 tests/convert_cases.py           write crates/convert_cases/stdin and crates/convert_cases/stdout
  python3 tests/convert_cases.py --check   write nothing; self-test the reference, and compare the stored files
  python3 tests/convert_cases.py --list    print each case: line of stdout, name, lengths, goal, expected line

stdin has the cases one after the other, in numbers of four bytes, little-endian: the call (1
derivation to trace, 2 trace to derivation); 0 where the list lies in the smaller of two buffers and
the room in the larger, 1 where it is the other way; the room's length; then book, goal and list as
tests/list_cases.py has them. Number i of the room is -1 - i mod 1000 before the call.

stdout has a line 'N at P S' for each case, worked out by tests/checkers.py alone: number, place, and
a checksum of the whole room after the call.
"""
import sys

sys.dont_write_bytecode = True
import checkers
import list_cases
import reference
import stored
from book_cases import B, LEAST, MOST, SMALL, TRUE, assemble, changed, eq, record
from list_cases import (COPY, D, DERIVATION, FLAGS, LOOP, MILLION, PAIRS, T, WIDE, Grower, book_of, expand, listed,
                        pieces_of, replaced, spelled, u32, wide_steps)


TO_TRACE, TO_DERIVATION = 1, 2          # the calls
SMALLER, LARGER = 500000, MILLION + 1   # numbers of the two buffers


# ---------------------------------------------------------------------------
# Cases: (name, call, room's length, book, pieces, relation, values)
# ---------------------------------------------------------------------------

def convert(name, call, room, data, numbers, relation, values=()):
    names = {TO_TRACE: 'to a trace', TO_DERIVATION: 'to a derivation'}
    return (f'{names[call]}, {name}, room of {room}', call, room, data, as_pieces(numbers), relation, list(values))


def as_pieces(numbers):
    """A list written out or in pieces, in pieces."""
    return numbers if numbers and isinstance(numbers[0], tuple) else pieces_of(numbers)


def needed(call, data, numbers, relation, values=()):
    """The length that the conversion writes, or 0 where it is refused."""
    _, _, wanted = due(call, data, as_pieces(numbers), relation, list(values))
    return 0 if wanted is None else len(wanted)


def rooms(name, call, data, numbers, relation, values=(), around=(-1, 0, 1)):
    """The case with rooms around the length that is needed."""
    n = needed(call, data, numbers, relation, values)
    for room in sorted({max(n + i, 0) for i in around}):
        yield convert(name, call, room, data, numbers, relation, values)


def there_and_back(name, data, steps, relation, values=(), around=(-1, 0, 1)):
    """A derivation to its trace, and that trace to the derivation."""
    numbers = listed(steps)
    book = book_of(data)
    whole = spelled(data, [book['lo']] * sum(book['arities']), steps)
    yield from rooms(name, TO_TRACE, data, numbers, relation, values, around)
    yield from rooms(name, TO_DERIVATION, data, whole, relation, values, around)


def back(name, data, first, steps, relation, values=(), around=(0, 2)):
    """The trace of the steps to a derivation."""
    yield from rooms(name, TO_DERIVATION, data, spelled(data, first, steps), relation, values, around)


# ---------------------------------------------------------------------------
# The parts
# ---------------------------------------------------------------------------

def named():
    """Document 01's derivation and its trace, with rooms of every length around the needed ones."""
    for room in [*range(36), 62, 100, 1000]:
        yield convert('D', TO_TRACE, room, B, D, 1)
    for room in [*range(18), 31, 100, 1000]:
        yield convert('the trace of D', TO_DERIVATION, room, B, T, 1)
    for r, values in [(0, [3]), (0, [2]), (0, [4]), (1, [])]:
        yield from rooms(f'D, goal {r} {values}', TO_TRACE, B, D, r, values)
        yield from rooms(f'D without its end, goal {r} {values}', TO_TRACE, B, D[:11], r, values)
        yield from rooms(f'the trace of D, goal {r} {values}', TO_DERIVATION, B, T, r, values)
        yield from rooms(f'the trace of D without its end, goal {r} {values}', TO_DERIVATION, B, T[:26], r, values)
    yield from there_and_back('the printed book', SMALL, [(0, [])], 0, around=(-1, 0, 1, 5))
    steps = wide_steps()
    end = checkers.fact_of(book_of(WIDE)['clauses'][2]['head'], steps[2][1])[1]
    yield from there_and_back('WIDE', WIDE, steps, 15, around=(-100, -2, -1, 0, 1, 2, 100))
    yield from there_and_back('WIDE, a goal of 8 places', WIDE, steps[:3], 7, end)
    # Each side given the other's list.
    yield convert('T given as a derivation', TO_TRACE, 100, B, T, 1)
    yield convert('D given as a trace', TO_DERIVATION, 100, B, D, 1)


def first_states():
    """The first state's places are all lo, whatever lo is."""
    for lo, hi in [(0, 3), (-5, -2), (7, 9), (LEAST, MOST), (MOST, MOST), (-1, 0)]:
        data = assemble([2, 0, 1], [
            record(1, [255], [2, 0], TRUE),
            record(2, [2, 1], [0, 0, 1], TRUE),
            record(2, [0, 0, 1], [1], TRUE)], lo=lo, hi=hi, query=1)
        yield from there_and_back(f'window {lo}..{hi}, one step', data, [(0, [hi])], 2, [hi])
        yield from there_and_back(f'window {lo}..{hi}', data, [(0, [hi]), (1, [lo, hi]), (2, [lo, hi])], 1)
        # A trace that starts elsewhere gives the same derivation.
        yield from back(f'window {lo}..{hi}, other first places', data, [hi, lo, hi],
                        [(0, [hi]), (1, [lo, hi]), (2, [lo, hi])], 1)


def refusals():
    """The cases of the two checks, refused or not, each in some room that must be kept or filled."""
    dice = Grower(21)
    parts = [(list_cases.named, 1), (list_cases.flags, 5), (list_cases.effects, 2), (list_cases.goals, 3),
             (list_cases.ends, 6), (list_cases.clause_numbers, 7), (list_cases.windows, 6), (list_cases.positions, 11),
             (list_cases.sums, 15), (list_cases.grown, 5), (list_cases.searched, 5)]
    for part, every in parts:
        for i, (name, check, data, pieces, relation, values) in enumerate(part()):
            if i % every:
                continue
            call = TO_TRACE if check == DERIVATION else TO_DERIVATION
            numbers = expand(pieces)
            n = needed(call, data, numbers, relation, values)
            room = dice.pick([0, n, n + dice.below(10), max(n - 1 - dice.below(10), 0), dice.below(60)])
            yield convert(name, call, room, data, numbers, relation, values)
    for i, (name, _, data, pieces, relation, values) in enumerate(list_cases.refused_books()):
        if i % 4 == 0 and len(data) < 1000:
            for call in [TO_TRACE, TO_DERIVATION]:
                yield convert(name, call, dice.below(40), data, expand(pieces), relation, values)


# Relations a, b, c of one place and the query: what is written freely, copies from one to the next, and
# two ways into each of b and c.
NET = assemble([1, 1, 1, 0], [
    record(1, [255], [0, 0], TRUE),                 # 0: a(x)
    record(1, [255], [1, 0], TRUE),                 # 1: b(x)
    record(1, [0, 0], [1, 0], TRUE),                # 2: a(x) -> b(x)
    record(2, [1, 0], [2, 1], eq([1, -1], 1)),      # 3: b(x) -> c(x + 1)
    record(1, [2, 0], [3], TRUE),                   # 4: c(x) -> query
    record(1, [0, 0], [3], TRUE),                   # 5: a(x) -> query
    record(2, [0, 0], [0, 1], TRUE),                # 6: a(x) -> a(y)
    record(1, [2, 0], [0, 0], TRUE),                # 7: c(x) -> a(x)
    record(0, [255], [3], TRUE)])                   # 8: query


def detours():
    """Traces with steps that the goal does not need, and facts written again."""
    plain = [(0, [1]), (2, [1]), (3, [1, 2]), (4, [2])]
    first = [3, 2, 1]
    yield from there_and_back('no detour', NET, plain, 3, around=(-2, -1, 0, 1, 2))
    # One step that the goal does not need, at each place.
    for other in [(0, [3]), (1, [3]), (1, [1]), (0, [1]), (8, [])]:
        for at in range(5):
            steps = plain[:at] + [other] + plain[at:]
            yield from back(f'{other} before step {at}', NET, first, steps, 3)
            if at < 4:
                yield from back(f'{other} before step {at}, goal c', NET, first, steps[:4], 2, [2])
    # The last step has nothing to do with the goal.
    for goal in [(0, [1]), (1, [1]), (2, [2]), (3, [])]:
        yield from back(f'four facts, goal {goal}', NET, first, plain, *goal)
        yield from back(f'four facts and more, goal {goal}', NET, first, plain + [(6, [1, 0]), (8, [])], *goal)
    # The goal's relation written twice: the last counts.
    yield from back('the goal twice, by other clauses', NET, first, plain + [(5, [1])], 3)
    yield from back('the goal twice, the last without body', NET, first, plain + [(8, [])], 3)
    yield from back('the goal twice, the first without body', NET, first, [(8, [])] + plain, 3)
    yield from back('the goal twice, the same step', NET, first, plain + [plain[-1]], 3)
    yield from back('b twice with one value, the last without body', NET, first, [(0, [1]), (2, [1]), (1, [1])], 1, [1])
    yield from back('b twice with one value, the first without body', NET, first, [(0, [1]), (1, [1]), (2, [1])], 1, [1])
    yield from back('b twice with two values', NET, first, [(0, [1]), (2, [1]), (1, [2])], 1, [2])
    # The body's relation written again after it was used: the later writer is not the one to take.
    yield from back('a written again after it was used', NET, first, [(0, [1]), (2, [1]), (0, [3]), (3, [1, 2]), (4, [2])], 3)
    yield from back('a and b written again after use', NET, first,
                    [(0, [1]), (2, [1]), (0, [3]), (3, [1, 2]), (1, [0]), (4, [2]), (0, [0])], 3)
    yield from back('all written again after use', NET, first,
                    plain[:3] + [(0, [2]), (2, [2]), (1, [0])] + plain[3:] + [(0, [0]), (1, [3])], 3)
    yield from back('c written again after the query', NET, first, plain + [(1, [2]), (3, [2, 3])], 3)
    yield from back('c written again after the query, goal c', NET, first, plain + [(1, [2]), (3, [2, 3])], 2, [3])
    # The body's relation written again before it is used, with the same value: the last earlier one is taken.
    yield from back('a written twice before it is used', NET, first, [(0, [1]), (0, [1]), (2, [1])], 1, [1])
    yield from back('a written by two clauses before it is used', NET, first, [(0, [2]), (6, [2, 1]), (2, [1])], 1, [1])
    yield from back('a written by two clauses, bodiless last', NET, first, [(0, [2]), (6, [2, 1]), (0, [1]), (2, [1])], 1, [1])
    # Round and round: a -> b -> c -> a.
    turn = [(2, [0]), (3, [0, 1]), (7, [1]), (2, [1]), (3, [1, 2]), (7, [2]), (2, [2]), (3, [2, 3]), (7, [3])]
    steps = [(0, [0])] + turn
    for goal in [(0, [3]), (1, [2]), (2, [3])]:
        yield from back(f'round and round, goal {goal}', NET, first, steps, *goal)
        yield from back(f'round and round with stops, goal {goal}', NET, first,
                        [s for step in steps for s in (step, (8, []))], *goal)
    yield from there_and_back('round and round', NET, steps + [(5, [3])], 3)
    yield from back('round, then started anew', NET, first, steps + [(0, [1]), (2, [1])], 1, [1])
    yield from back('round, then started anew, goal c', NET, first, steps + [(0, [1]), (2, [1])], 2, [3])
    # A chain in one relation.
    chain = [(0, [0])] + [(6, [i % 4, (i + 1) % 4]) for i in range(20)]
    yield from there_and_back('a chain in one relation', NET, chain, 0, [0])
    yield from back('a chain in one relation, started anew in its middle', NET, first, chain + [(0, [0])] + chain[1:6], 0, [1])
    # A goal that holds only in the middle, and one that holds nowhere.
    yield from back('a goal only in the middle', NET, first, [(0, [1]), (2, [1]), (0, [2])], 0, [1], around=(0, 9))
    yield from back('a goal only in the middle, again at the end', NET, first, [(0, [1]), (0, [2]), (0, [1])], 0, [1])
    yield from back('a goal that is in the first places only', NET, first, [(0, [1]), (2, [1])], 2, [1], around=(0, 9))
    yield convert('a goal only in the middle', TO_TRACE, 60, NET, listed(plain), 2, [2])
    yield convert('a goal outside the window', TO_DERIVATION, 60, NET, spelled(NET, first, plain), 2, [4])
    # With places of two and three, and variables that repeat.
    yield from there_and_back('PAIRS', PAIRS, [(0, [2, 2]), (3, [2, 2]), (4, [2, 2]), (1, [2])], 2)
    yield from back('PAIRS with a detour', PAIRS, [0, 1, 2, 3, 0],
                    [(0, [2, 3]), (2, [2, 3]), (0, [1, 1]), (1, [1]), (6, [3]), (4, [3, 3])], 2)
    yield from back('PAIRS with a detour, goal 0', PAIRS, [0, 1, 2, 3, 0],
                    [(0, [2, 3]), (2, [2, 3]), (0, [1, 1]), (1, [1]), (6, [3]), (4, [3, 3])], 0, [3, 3])


def walks():
    """Random books: derivations over and back, and traces that wander."""
    dice = Grower(22)
    windows = list_cases.WINDOWS
    for i in range(120):
        lo, hi = windows[i % len(windows)]
        sizes = [(2, 2, 6), (3, 2, 9), (4, 3, 9), (1, 1, 6), (3, 1, 14), (16, 8, 5), (6, 4, 8)][i % 7]
        book, steps = dice.grown(*sizes[:2], 1 + dice.below(sizes[2]), lo, hi)
        data = reference.write_book(book)
        k, values = steps[-1]
        goal = checkers.fact_of(book['clauses'][k]['head'], values)
        yield from there_and_back(f'walk {i}', data, steps, *goal, around=(-1, 0, 1 + dice.below(6)))
        first, walk, facts = dice.wandered(book, steps, 4 + dice.below(30))
        for goal in facts[:4]:
            yield from back(f'walk {i}, goal {goal}', data, first, walk, *goal, around=(0, dice.below(6)))
        numbers = spelled(data, first, walk)
        for _ in range(2):
            name, wrong = dice.wrong_number(book, numbers)
            yield convert(f'walk {i}, {name}', TO_DERIVATION, dice.below(80), data, wrong, *facts[-1])
        name, wrong = dice.wrong_number(book, listed(steps))
        yield convert(f'walk {i}, {name}', TO_TRACE, dice.below(200), data, wrong, *goal)


def counts():
    """Traces of every small number of steps, and around the larger powers of two, with links near and far."""
    dice = Grower(23)
    # Each step of the chain, or one in a few: steps of NET with 1, 2 and 3 numbers before their state.
    for n in [*range(1, 40), 63, 64, 65, 100, 127, 128, 129, 255, 256, 257]:
        steps = [(0, [0])]
        here = 0
        while len(steps) < n:
            kind = dice.below(4)
            if kind == 0:
                steps.append((8, []))
            elif kind == 1:
                steps.append((1, [dice.below(4)]))
            else:
                to = dice.below(4)
                steps.append((6, [here, to]))
                here = to
        yield from back(f'{n} steps', NET, [0, 0, 0], steps, 0, [here], around=(-1, 0))

    # Longer ones in pieces: the flags' book, five numbers a step.
    def flagged(name, parts, goal):
        """Steps of FLAGS, each part a list of clause numbers and how often it is repeated."""
        pieces = [([0, 0, 0, 0], 4)]
        state = checkers.fresh_state(book_of(FLAGS), 0)
        clauses = book_of(FLAGS)['clauses']
        for part, times in parts:
            for turn in range(min(times, 2)):
                numbers = []
                for k in part:
                    state = checkers.put(state, (clauses[k]['head'][0], []))
                    numbers += [k, *state[0]]
                # The first turn may set flags that were not set; all later ones are alike.
                pieces.append((numbers, len(numbers) * (1 if turn == 0 else times - 1)))
        return rooms(name, TO_DERIVATION, FLAGS, pieces, goal, around=(0,))

    for n in [300, 511, 512, 513, 1000, 1023, 1024, 1025, 2047, 2048, 2049, 4095, 4096, 4097, 10000, 65536]:
        yield from flagged(f'{n} steps, all in the chain', [([0], 1), ([1, 2, 3], (n - 2) // 3), ([4], 1)], 3)
        yield from flagged(f'{n} steps, the links at both ends', [([0], 1), ([1], 1), ([5, 0], (n - 3) // 2), ([2], 1)], 2)
        yield from flagged(f'{n} steps, few links between many others',
                           [([0, 1], 1), ([5], n // 5), ([2], 1), ([0], n // 5), ([3], 1), ([1, 5], n // 5), ([4], 1)], 3)
    for n in [1, 2, 3, 60, 250, 500, 1000]:
        # A link each so many steps.
        parts = [([0], 1)]
        for k in [1, 2, 3] * 4:
            parts += [([5], n), ([k], 1)]
        yield from flagged(f'a link each {n} steps', parts + [([4], 1)], 3)


def long_lists():
    """Around a million numbers, on either side."""
    ones = [([0], 1)]

    # Derivation to trace, one relation without places: 1 + 2 for each step of no variables, 3 for one of one.
    for room in [999998, 999999]:
        yield convert('to 999,999 numbers', TO_TRACE, room, LOOP, ones + [([1], 499998)], 0)
    for room in [999999, 1000000, 1000001]:
        yield convert('to 1,000,000 numbers', TO_TRACE, room, LOOP, ones + [([1], 499997), ([3, 2], 2)], 0)
    above = ones + [([1], 499999)]
    for room in [0, 1000001]:
        yield convert('to 1,000,001 numbers', TO_TRACE, room, LOOP, above, 0)
    yield convert('to 1,000,001 numbers, no such goal', TO_TRACE, 5, LOOP, above, 1)
    yield convert('to 1,000,001 numbers, the last step wrong', TO_TRACE, 5, LOOP, ones + [([1], 499998), ([0], 1)], 0)
    for n in [MILLION, MILLION + 1]:
        yield convert(f'of {n} numbers', TO_TRACE, 7, LOOP, ones + [([1], n - 1)], 0)
    # 137 numbers a step, though a derivation has one.
    many = assemble([8] * 15 + [0], [record(0, [255], [15], TRUE), record(0, [15], [15], TRUE)], lo=-1, hi=1)
    yield convert('of a million numbers, 137 a step', TO_TRACE, 7, many, ones + [([1], MILLION - 1)], 15)
    for n, room in [(7298, 1000000), (7298, 999961), (7299, 1000000)]:
        yield convert(f'of {n} steps, 137 a step', TO_TRACE, room, many, ones + [([1], n - 1)], 15)
    wide = assemble([8] * 15 + [0], [
        record(16, [255], [0, *range(8)], TRUE), record(16, [0, *range(8)], [0, *range(8)], TRUE)])
    row = [1] * 16
    for n, room in [(6535, 1000000), (6535, 999990), (6536, 1000000)]:
        yield convert(f'of {n} steps, 153 a step', TO_TRACE, room, wide, [([0, *row], 17), ([1, *row], 17 * (n - 1))], 0, row[:8])

    # Trace to derivation: the longest chains, and the shortest in the longest traces.
    chain = [([0], 1), ([0, 1], 2), ([1, 1], 999996)]
    for room in [499998, 499999]:
        yield convert('of 999,999 numbers, all in the chain', TO_DERIVATION, room, LOOP, chain, 0)
    yield convert('of 1,000,001 numbers', TO_DERIVATION, 500000, LOOP, chain[:2] + [([1, 1], 999998)], 0)
    yield convert('of a million numbers, all in the chain', TO_DERIVATION, 9, LOOP,
                  [([0], 1), ([2, 3, 1], 3), ([3, 0, 1], MILLION - 4)], 0)
    yield convert('of a million numbers, started anew at the end', TO_DERIVATION, 3, LOOP,
                  [([0], 1), ([0, 1], 2), ([1, 1], 999994), ([2, 3, 1], 3)], 0)
    yield convert('of 999,999 numbers, the last wrong', TO_DERIVATION, 9, LOOP, chain[:2] + [([1, 1], 999995), ([2], 1)], 0)
    # p(3) at the front, then only q, then the query from p: the two links lie as far apart as can be.
    far = [([0, 0, 0, 2, 2], 5), ([0, 3, 1, 0, 0, 3, 2], 7), ([1, 1, 1, 1, 0, 3, 1, 1, 2, 1, 1, 0, 3, 2], 14 * 71427),
           ([4, 3, 1, 1, 1, 3, 2], 7)]
    for room in [3, 5]:
        yield convert('two links far apart', TO_DERIVATION, room, COPY, far, 2)


PARTS = [named, first_states, detours, refusals, walks, counts, long_lists]


def cases():
    """Every case once, in order. A case that came before is left out."""
    made = []
    seen = set()
    for part in PARTS:
        for one in part():
            key = repr(one[1:])
            if key not in seen:
                seen.add(key)
                made.append(one)
    return made


# ---------------------------------------------------------------------------
# What is written, and the self-test
# ---------------------------------------------------------------------------

def room_of(n):
    """A room before the call."""
    return [-1 - i % 1000 for i in range(n)]


def checksum(room):
    total = 0
    for n in room:
        total = (total * 65537 + n % 2 ** 32) % 2147483647
    return total


DUE = {}      # what was worked out already: a list is asked with several rooms


def due(call, data, pieces, relation, values):
    key = (call, data, repr(pieces), relation, tuple(values))
    if key not in DUE:
        work = checkers.trace_due if call == TO_TRACE else checkers.derivation_due
        DUE[key] = work(data, expand(pieces), relation, values)
    return DUE[key]


def side_of(one):
    """0 where the list fits the smaller buffer and the room the larger, 1 where it must be the other way."""
    _, _, room, _, pieces, _, _ = one
    length = sum(n for _, n in pieces)
    side = 0 if length <= SMALLER and room <= LARGER else 1
    assert side == 0 or (length <= LARGER and room <= SMALLER), one[0]
    return side


def bytes_of(one):
    """A case as it stands in stdin."""
    _, call, room, data, pieces, relation, values = one
    rest = list_cases.bytes_of((None, call, data, pieces, relation, values))
    return rest[:4] + u32(side_of(one)) + u32(room) + rest[4:]


def line_of(one):
    """The line due for a case."""
    _, call, room, data, pieces, relation, values = one
    number, place, after = checkers.written(due(call, data, pieces, relation, values), room_of(room))
    assert len(after) == room
    return f'{number} at {place} {checksum(after)}'


# Worked out by hand from document 01: name, call, book, list, goal, room, number, place, the room then.
BY_HAND = [
    ('D', TO_TRACE, B, D, 1, [], [7] * 33, 0, 31, T + [7, 7]),
    ('D, a room that fits', TO_TRACE, B, D, 1, [], [7] * 31, 0, 31, T),
    ('D, a room of 30', TO_TRACE, B, D, 1, [], [7] * 30, 9, 31, [7] * 30),
    ('D, no room', TO_TRACE, B, D, 1, [], [], 9, 31, []),
    ('the trace of D', TO_DERIVATION, B, T, 1, [], [7] * 14, 0, 13, D + [7]),
    ('the trace of D, a room of 12', TO_DERIVATION, B, T, 1, [], [7] * 12, 9, 13, [7] * 12),
    ('D cut', TO_TRACE, B, D[:11], 1, [], [7] * 40, 17, 11, [7] * 40),
    ('the trace of D, number 6 set to 1', TO_DERIVATION, B, replaced(T, 6, 1), 1, [], [7] * 2, 19, 6, [7] * 2),
    ('a refused book', TO_TRACE, changed(B, 58, 2), D, 1, [], [], 2, 44, []),
    ('a list too long', TO_DERIVATION, SMALL, [0] * 1000001, 0, [], [], 11, 0, []),
    # The printed book's one clause, and again: the second step is the last that wrote the relation.
    ('bodiless twice', TO_DERIVATION, SMALL, [0, 0, 1, 0, 1], 0, [], [5, 5], 0, 1, [0, 5]),
    ('one step', TO_TRACE, SMALL, [0], 0, [], [5, 5, 5, 5], 0, 3, [0, 0, 1, 5]),
    # COPY: p(3), q(3) from it, then p(1): q(3) came of the first of the two.
    ('a body written again after use', TO_DERIVATION, COPY,
     [0, 0, 0, 1, 1, 0, 3, 1, 0, 0, 3, 1, 2, 3, 1, 1, 0, 3, 3, 0, 1, 1, 1, 0, 1, 3], 1, [3], [9] * 5, 0, 4, [0, 3, 2, 3, 9]),
    # The same trace, goal p(1): its last writer has no body.
    ('the goal written again', TO_DERIVATION, COPY,
     [0, 0, 0, 1, 1, 0, 3, 1, 0, 0, 3, 1, 2, 3, 1, 1, 0, 3, 3, 0, 1, 1, 1, 0, 1, 3], 0, [1], [9] * 5, 0, 2, [0, 1, 9, 9, 9]),
    ('the goal only in the middle', TO_DERIVATION, COPY,
     [0, 0, 0, 1, 1, 0, 3, 1, 0, 0, 3, 1, 2, 3, 1, 1, 0, 3, 3, 0, 1, 1, 1, 0, 1, 3], 0, [3], [9] * 5, 17, 26, [9] * 5),
    # B with lo = -1: the first state's place is lo.
    ('places start at lo', TO_TRACE, changed(B, 44, 255, 255, 255, 255), [0, 0], 0, [0], [9] * 9, 0, 8,
     [0, 0, -1, 0, 0, 1, 0, 0, 9]),
    ('a trace too long', TO_TRACE, LOOP, [0] + [1] * 499999, 0, [], [], 20, 1000001, []),
    ('a trace of a million', TO_TRACE, LOOP, [0] + [1] * 499997 + [3, 0], 0, [], [], 9, 1000000, []),
]


def self_test(made, lines):
    """The results of all tests, as (name, passed)."""
    for name, call, data, numbers, relation, values, room, number, place, after in BY_HAND:
        conversion = checkers.to_trace if call == TO_TRACE else checkers.to_derivation
        answer = conversion(data, numbers, relation, values, room)
        yield f'by hand: {name}: {number} at {place}', answer == (number, place, after)
    yield 'by hand: checksum', checksum([1, -1]) == (65537 + 4294967295) % 2147483647
    for one, line in zip(made, lines):
        name, call, room, data, pieces, relation, values = one
        number = int(line.split()[0])
        numbers = expand(pieces)
        if len(numbers) > 100000:
            continue
        check, other = checkers.check_derivation, checkers.check_trace
        if call == TO_DERIVATION:
            check, other = other, check
        refused, place = check(data, numbers, relation, values)
        if refused != 0:
            yield f'refused as the check refuses: {name}', line.split()[:3] == [str(refused), 'at', str(place)]
            continue
        yield f'refused for its length alone: {name}', number in (0, 9, 20)
        if number != 0:
            continue
        wanted = due(call, data, pieces, relation, values)[2]
        yield f'what is written is accepted: {name}', other(data, wanted, relation, values) == (0, 0)
        if call == TO_TRACE:
            again = checkers.to_derivation(data, wanted, relation, values, [0] * len(numbers))
            yield f'over and back: {name}', again == (0, len(numbers), numbers)
        else:
            book = book_of(data)
            fewer = checkers.walk_derivation(book, wanted, (relation, values))
            steps = checkers.walk_trace(book, numbers, (relation, values))
            yield f'no more steps: {name}', len(fewer) <= len(steps)
    for call, name in [(TO_TRACE, 'to a trace'), (TO_DERIVATION, 'to a derivation')]:
        numbers = [line.split()[0] for one, line in zip(made, lines) if one[1] == call]
        for n in given(call):
            yield f'two cases or more {name} give {n}', numbers.count(str(n)) >= 2


def given(call):
    """The numbers from 9 up that a conversion can give, 0, and 1 to 8 of a refused book."""
    return [*range(18)] + ([20] if call == TO_TRACE else [18, 19])


def main(words):
    made = cases()
    lines = [line_of(one) for one in made]
    stdin = b''.join(map(bytes_of, made))
    stdout = ''.join(line + '\n' for line in lines).encode()
    if words == ['--list']:
        for i, (one, line) in enumerate(zip(made, lines)):
            length = sum(n for _, n in one[4])
            print(f'{i + 1}: {one[0]} (book of {len(one[3])}, list of {length}, goal {one[5]} {one[6]}): {line}')
        return 0
    results = list(self_test(made, lines))
    results += stored.kept({'convert_cases/stdin': stdin, 'convert_cases/stdout': stdout}, words)
    print(f'{len(made)} cases, {len(stdin)} bytes')
    for n in range(21):
        of = [sum(one[1] == call and line.split()[0] == str(n) for one, line in zip(made, lines))
              for call in (TO_TRACE, TO_DERIVATION)]
        print(f'  {of[0]} to a trace and {of[1]} to a derivation give {n}')
    return stored.told(results)


if __name__ == '__main__':
    stored.run(main, __doc__)
