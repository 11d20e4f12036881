"""The cases of the model check, for the program crates/model_cases.

  python3 tests/model_cases.py           write crates/model_cases/stdin and crates/model_cases/stdout
  python3 tests/model_cases.py --check   write nothing; self-test the second model check, and compare the stored files
  python3 tests/model_cases.py --list    print each case: line of stdout, name, lengths, expected line

stdin has each case as the lengths of book and model (u32 each, little-endian) and the bytes of
both. stdout has the whole reply on a line for each, worked out by tests/models.py alone:
'N at P count C clause K values' and the sixteen values.
"""
import itertools
import sys

sys.dont_write_bytecode = True
import book_cases
import models
import reference
import stored
from book_cases import AND, B, LEAST, MOST, NOT, OR, SMALL, TRUE
from book_cases import Dice, assemble, balanced, changed, eq, i32, le, leaning, record, rem

FALSE = NOT + TRUE


# ---------------------------------------------------------------------------
# The cases
# ---------------------------------------------------------------------------

def named():
    """Document 01's own."""
    yield 'B, true and not true', B, TRUE + FALSE
    yield 'B with hi = 2, true and not true', changed(B, 48, 2), TRUE + FALSE
    yield 'width 1000', wide(1000, [2]), TRUE + FALSE
    yield 'width 1000, one more clause', wide(1000, [2, 0]), TRUE + FALSE


def wide(width, variables, lo=0, **wrong):
    """A book whose clauses have so many variables, each without body and with head 0 of no places."""
    return assemble([0, 0], [record(v, [255], [0], TRUE) for v in variables], lo=lo, hi=lo + width - 1, **wrong)


def around_b():
    """Book B with other models: what is reached is 0 to 3, or 0 to hi."""
    below = {n: le([1], -n) for n in range(-1, 5)}
    for hi in range(5):
        book = changed(B, 48, hi)
        for n, constraint in below.items():
            yield f'B with hi = {hi}, at most {n}', book, constraint + FALSE
        for n in range(5):
            yield f'B with hi = {hi}, not {n}', book, NOT + eq([1], -n) + FALSE
            yield f'B with hi = {hi}, only {n}', book, eq([1], -n) + FALSE
        yield f'B with hi = {hi}, even', book, rem([1], 0, 2, 0) + FALSE
        yield f'B with hi = {hi}, odd', book, rem([1], 0, 2, 1) + FALSE
        yield f'B with hi = {hi}, the query true', book, TRUE + TRUE
    for lo in range(-4, 1):
        yield f'B with lo = {lo}', changed(B, 44, *i32(lo)), TRUE + FALSE
        yield f'B with lo = {lo}, not negative', changed(B, 44, *i32(lo)), le([-1], 0) + FALSE
    yield 'the printed book, not true', SMALL, FALSE
    yield 'the printed book, true', SMALL, TRUE
    yield 'no clauses', assemble([0], []), FALSE
    yield 'no clauses, 16 relations', assemble([8] * 15 + [0], []), TRUE * 15 + FALSE


def pinned(variables, values):
    """A constraint that is true at these values of the variables alone: the value less the variable is 0."""
    tests = []
    for i, value in enumerate(values):
        one = [0] * variables
        one[i] = -1
        tests.append(eq(one, value))
    return balanced(tests, (AND,)) if tests else TRUE


def first_and_last():
    """A break at the very first and the very last assignment of each clause, and nowhere else."""
    for lo, hi in [(0, 3), (-2, 1), (-3, -1), (5, 5), (-7, -7), (LEAST, LEAST + 2), (MOST - 1, MOST)]:
        shape = [2, 0, 1, 3]
        for k in range(4):
            for end, value in [('first', lo), ('last', hi)]:
                # Clause k alone has head 1, whose constraint is false.
                records = []
                for j, v in enumerate(shape):
                    at = pinned(v, [value] * v)
                    records.append(record(v, [255], [1 if j == k else 0], at))
                book = assemble([0, 0, 0], records, lo=lo, hi=hi)
                yield f'window {lo} {hi}, {end} of clause {k}', book, TRUE + FALSE + FALSE
                yield f'window {lo} {hi}, {end} of clause {k}, accepted', book, TRUE + TRUE + FALSE
    # One assignment in the middle, the first variable slowest.
    for values in itertools.product(range(-1, 2), repeat=3):
        book = assemble([0, 0, 0], [
            record(1, [255], [0], TRUE), record(3, [255], [1], pinned(3, values)), record(0, [255], [1], TRUE)],
            lo=-1, hi=1)
        yield f'broken at {values}', book, TRUE + FALSE + FALSE
    # Two assignments are broken: the first by clause, then by values, is told.
    for a, b in itertools.permutations([(0, 2), (2, 0), (1, 1)], 2):
        either = OR + pinned(2, a) + pinned(2, b)
        yield f'broken at {a} and {b}', assemble([0, 0], [record(2, [255], [0], either)], hi=2), FALSE + FALSE
        both = [record(2, [255], [0], pinned(2, a)), record(2, [255], [0], pinned(2, b))]
        yield f'broken at {a}, then at {b}', assemble([0, 0], both, hi=2), FALSE + FALSE
    # The constraint is true, or false, of all; the body or the head decides.
    for constraint in [TRUE, FALSE]:
        for body, head in itertools.product([TRUE, FALSE], repeat=2):
            book = assemble([1, 1, 0], [record(2, [0, 1], [1, 0], constraint)])
            yield f'{constraint} from {body} to {head}', book, body + head + FALSE
    # 64 clauses, the last of them broken; and one in the middle.
    plain = record(1, [255], [0], TRUE)
    for k in [0, 31, 63]:
        records = [plain] * k + [record(1, [255], [1], eq([1], -3))] + [plain] * (63 - k)
        yield f'clause {k} of 64', assemble([0, 0, 0], records), TRUE + FALSE + FALSE


def variables():
    """Clauses of 0 variables, and of 16 with lo = hi."""
    for v in range(17):
        for lo in [0, -5, LEAST, MOST]:
            constraint = eq([1] * v, 0) if lo == 0 else TRUE
            book = assemble([1, 0], [record(v, [255], [1], constraint)], lo=lo, hi=lo)
            yield f'{v} variables, all {lo}', book, TRUE + FALSE
        if v > 0:
            for lo in [0, -5, LEAST, MOST]:
                book = assemble([1, 0], [record(v, [0, v - 1], [0, 0], TRUE)], lo=lo, hi=lo)
                yield f'{v} variables, all {lo}, accepted', book, TRUE + FALSE
                coefficients = [(-1) ** i * (i + 1) for i in range(v)]
                kept = lo * sum(coefficients)
                if LEAST <= -kept <= MOST:
                    book = assemble([1, 0], [record(v, [255], [0, v - 1], eq(coefficients, -kept))], lo=lo, hi=lo)
                    yield f'{v} variables, all {lo}, their sum right', book, FALSE + FALSE
                    book = assemble([1, 0], [record(v, [255], [0, v - 1], NOT + eq(coefficients, -kept))], lo=lo, hi=lo)
                    yield f'{v} variables, all {lo}, their sum wrong', book, FALSE + FALSE
    for v in [1, 2, 15, 16]:
        # The ends of the sum's range.
        for lo in [LEAST, MOST]:
            for c in [-32768, 32767]:
                for constant in [LEAST, MOST]:
                    leaves = [(b'\1', 'at most 0'), (NOT + b'\1', 'above 0'), (b'\2', '0')]
                    for front, name in leaves:
                        node = front + eq([c] * v, constant)[1:]
                        book = assemble([0, 0], [record(v, [255], [0], node)], lo=lo, hi=lo)
                        yield f'{v} times {c} times {lo} and {constant} is {name}', book, FALSE + FALSE
                    total = c * lo * v + constant
                    for d in [1, 2, 3, 65535]:
                        for r in sorted({total % d, (total + 1) % d}):
                            book = assemble([0, 0], [record(v, [255], [0], rem([c] * v, constant, d, r))], lo=lo, hi=lo)
                            yield f'{v} times {c} times {lo} and {constant} leaves {r} by {d}', book, FALSE + FALSE


def arguments():
    """Which values the constraints of body and head are asked of."""
    for lo, hi in [(0, 2), (-1, 1)]:
        for body, head in itertools.product(itertools.product(range(3), repeat=2), repeat=2):
            book = assemble([2, 2, 0], [record(3, [0, *body], [1, *head], TRUE)], lo=lo, hi=hi)
            # The body's first place is below its second, and so is the head's.
            yield f'window {lo} {hi}, body {body}, head {head}', book, le([1, -1], 1) + le([1, -1], 1) + FALSE
    book = assemble([8, 0], [record(8, [0, *range(8)], [0, *reversed(range(8))], TRUE)], hi=1)
    for i in range(8):
        one = [0] * 8
        one[i] = 1
        yield f'place {i} of 8', book, eq(one, 0) + FALSE
    yield 'weights of 8', book, le([2 ** i for i in range(8)], -100) + FALSE
    # Each relation as body and as head.
    for n in range(15):
        arities = [1] * 15 + [0]
        book = assemble(arities, [record(2, [n, 0], [(n + 1) % 15, 1], eq([1, -1], 1))])
        model = [le([1], -j % 4 - 4) for j in range(15)]
        yield f'from relation {n} to the next', book, b''.join(model) + FALSE
    # The query as body and head.
    yield 'the query as body', assemble([1, 0], [record(1, [1], [0, 0], TRUE)]), FALSE + FALSE
    yield 'the query as head', assemble([1, 0], [record(1, [0, 0], [1], TRUE)]), FALSE + FALSE
    yield 'the query as head, true', assemble([1, 0], [record(1, [0, 0], [1], TRUE)]), TRUE + FALSE
    yield 'the query as body and head', assemble([1, 0], [record(1, [1], [1], TRUE)]), FALSE + FALSE


def counts():
    """A million assignments, and numbers of them that would wrap."""
    within = [(1000, [2]), (1000, [1] * 64), (100, [3]), (10, [6]), (1000000, [1]), (999999, [1, 0]), (500000, [1, 1]),
              (250000, [1] * 4), (15625, [1] * 64), (999937, [1] + [0] * 63), (2, [16] * 15), (1, [16] * 64)]
    over = [(1000, [2, 0]), (1000, [0, 2]), (1000, [2, 1]), (1001, [2]), (1000001, [1]), (1000000, [1, 0]),
            (500000, [1, 1, 0]), (500001, [1, 1]), (100, [3, 0]), (10, [6, 0]), (10, [7]), (2, [16] * 16),
            (999938, [1] + [0] * 63)]
    for width, variables in within + over:
        shape = ' '.join(map(str, variables))
        yield f'width {width}, clauses of {shape}', wide(width, variables), TRUE + FALSE
    whole = 2 ** 32
    for v in range(1, 17):
        # 2^32, 2^64 and so on: kept in 32 or 64 bits they are 0.
        yield f'the whole of i32, {v} variables', wide(whole, [v], lo=LEAST), TRUE + FALSE
        yield f'the whole of i32, {v} variables, 64 clauses', wide(whole, [v] * 64, lo=LEAST), TRUE + FALSE
        yield f'the whole of i32 but one, {v} variables', wide(whole - 1, [v], lo=LEAST), TRUE + FALSE
        yield f'2^16, {v} variables', wide(2 ** 16, [v], lo=-2 ** 15), TRUE + FALSE
        yield f'2^8, {v} variables', wide(2 ** 8, [v], lo=-2 ** 7), TRUE + FALSE
        yield f'4, {v} variables', wide(4, [v], lo=-2), TRUE + FALSE
        yield f'2^31, {v} variables', wide(2 ** 31, [v], lo=-2 ** 30), TRUE + FALSE
    yield 'the whole of i32, no variables', wide(whole, [0], lo=LEAST), TRUE + FALSE
    yield 'the whole of i32, no variables, broken', wide(whole, [0], lo=LEAST), FALSE + FALSE
    yield 'the whole of i32, no variables, 64 clauses', wide(whole, [0] * 64, lo=LEAST), TRUE + FALSE
    yield 'the whole of i32, no variables, then 16', wide(whole, [0, 0, 16], lo=LEAST), FALSE + FALSE
    yield 'the whole of i32, 2 variables, then none', wide(whole, [2, 0], lo=LEAST), FALSE + FALSE
    yield '2^64 and a million', wide(whole, [2, 0], lo=LEAST), TRUE + FALSE
    yield 'the whole of i32, no clauses', wide(whole, [], lo=LEAST), TRUE + FALSE

    # Broken late in a million: the last one, the one before it, and in the middle; and the first.
    for name, values in [('first', (0, 0)), ('second', (0, 1)), ('last of row 0', (0, 999)), ('first of row 1', (1, 0)),
                         ('middle', (500, 500)), ('last but one', (999, 998)), ('last', (999, 999))]:
        book = assemble([0, 0], [record(2, [255], [0], pinned(2, values))], hi=999)
        yield f'a million, broken at the {name}', book, FALSE + FALSE
        moved = tuple(v - 500 for v in values)
        book = assemble([2, 0], [record(2, [0, 0, 1], [1], pinned(2, moved))], lo=-500, hi=499)
        yield f'a million from -500, broken at the {name}', book, TRUE + FALSE
    book = assemble([0, 0], [record(2, [255], [0], pinned(2, (999, 999))), record(0, [255], [0], TRUE)], hi=999)
    yield 'a million and one, broken', book, FALSE + FALSE
    yield '16 variables of 2, broken at the last', assemble(
        [0, 0], [record(16, [255], [0], eq([1] * 16, -16))], lo=0, hi=1), FALSE + FALSE
    yield '16 variables of 2, broken at the first of four', assemble(
        [0, 0], [record(16, [255], [0], eq([1] * 16, -4))], lo=0, hi=1), FALSE + FALSE


def faulty():
    """Every way of 21, 22 and 23."""
    # One relation of each arity beside the query, before it and behind it.
    for a in [0, 1, 2, 7, 8]:
        c = [(-1) ** i * (300 + i) for i in range(a)]
        whole = AND + le(c, 7) + OR + eq(c, -7) + NOT + rem(c, 5, 700, 600)
        books = {'before': (assemble([a, 0], []), whole, FALSE), 'behind': (assemble([0, a], [], query=0), FALSE, whole)}
        for name, (book, first, second) in books.items():
            model = first + second
            for n in range(len(model) + 1):
                yield f'arity {a} {name} the query, cut at {n}', book, model[:n]
            for n in [1, 2, 16, 300]:
                yield f'arity {a} {name} the query, {n} bytes left', book, model + bytes(n)
            yield f'arity {a} {name} the query, one byte 255 left', book, model + b'\xff'
            yield f'arity {a} {name} the query, turned', book, second + first
            for at in range(len(model)):
                for value in [7, 255]:
                    yield f'arity {a} {name} the query, byte {at} = {value}', book, changed(model, at, value)
        for d, r in [(0, 0), (0, 1), (1, 0), (1, 1), (1, 2), (2, 1), (2, 2), (3, 65535), (65535, 65534), (65535, 65535), (256, 1), (1, 256)]:
            book = assemble([a, 0], [])
            yield f'arity {a}, d = {d}, r = {r}', book, rem(c, 0, d, r) + FALSE
            yield f'arity {a}, d = {d}, r = {r}, second child', book, AND + TRUE + rem(c, 0, d, r) + FALSE
            for n in range(1, 5):
                yield f'arity {a}, d = {d}, r = {r}, {n} bytes short', book, rem(c, 0, d, r)[:-n]

    one = assemble([0, 0], [])
    for k in [*range(7, 12), 127, 128, 254, 255]:
        yield f'kind {k}', one, bytes([k]) + FALSE
        yield f'kind {k} of the query', one, TRUE + bytes([k])
        yield f'not, kind {k}', one, NOT + bytes([k]) + FALSE
        yield f'and true, kind {k}', one, AND + TRUE + bytes([k]) + FALSE
        yield f'or, kind {k}', one, OR + bytes([k])
    for depth in [15, 16, 17, 18]:
        for name, tree in [('not', NOT * (depth - 1) + TRUE), ('and left', leaning(AND, depth, TRUE, False)),
                           ('and right', leaning(AND, depth, TRUE, True)), ('or right', leaning(OR, depth, TRUE, True))]:
            yield f'{name}, depth {depth}', one, tree + FALSE
            yield f'{name}, depth {depth} of the query', one, TRUE + tree
            yield f'not of {name}, depth {depth + 1} of the query', one, TRUE + NOT + tree
        yield f'not, depth {depth}, then the end', one, NOT * (depth - 1)
        yield f'not, depth {depth}, an unknown kind', one, NOT * (depth - 1) + b'\7'
    for nodes in range(62, 68):
        tree = NOT * (1 - nodes % 2) + balanced([TRUE] * ((nodes + 1) // 2))
        yield f'{nodes} nodes', one, tree + FALSE
        yield f'{nodes} nodes of the query', one, TRUE + tree
        yield f'{nodes} nodes, and {nodes} of the query', one, tree + tree
        yield f'{nodes} nodes, cut', one, tree[:-1]
        place = assemble([2, 0], [])
        sums = NOT * (1 - nodes % 2) + balanced([rem([1, 2], 3, 4, 3)] * ((nodes + 1) // 2))
        yield f'{nodes} nodes of sums', place, sums + FALSE
        yield f'{nodes} nodes of sums, cut', place, sums[:-13]
    # 16 relations with constraints of 64 nodes: they are counted one by one.
    full = NOT + balanced([rem([1] * 8, 3, 4, 3)] * 32)
    many = assemble([8] * 15 + [0], [])
    yield '15 constraints of 64 nodes', many, full * 15 + FALSE
    yield '15 constraints of 64 nodes, the last one cut', many, full * 15
    yield '15 constraints of 64 nodes, one byte left', many, full * 15 + FALSE + b'\0'
    yield '15 constraints of 64 nodes, the last of 65', many, full * 14 + balanced([TRUE] * 33) + FALSE
    yield '65536 bytes left', one, TRUE + FALSE + bytes(65536)
    yield 'empty', one, b''
    yield 'one relation, empty', assemble([0], []), b''
    # Left over counts from its first byte, even where it would be a constraint.
    yield 'one constraint too many', one, TRUE + FALSE + TRUE
    yield 'one constraint too few', one, FALSE
    # A fault before the end, and the end before a fault.
    yield 'kind 7, then left over', one, TRUE + b'\7' + bytes(5)
    yield 'the query true, one byte left', one, TRUE + TRUE + b'\0'
    yield 'the query true, cut', assemble([0, 1], [], query=0), TRUE + le([1], 0)[:-1]
    yield 'the query true, kind 7 behind', assemble([0, 1], [], query=0), TRUE + b'\7'

    # 23: every kind of node in the query's constraint, true and false; the query in every place.
    trees = {'true': TRUE, 'not true': FALSE, 'not not true': NOT + FALSE}
    for n in [LEAST, -1, 0, 1, 2, 3, 4, MOST]:
        trees[f'{n} at most 0'] = le([], n)
        trees[f'{n} is 0'] = eq([], n)
        for d, r in [(1, 0), (3, 0), (3, 2), (65535, 1)]:
            trees[f'{n} by {d} leaves {r}'] = rem([], n, d, r)
    for a, b in itertools.product([TRUE, FALSE], repeat=2):
        trees[f'{a} and {b}'] = AND + a + b
        trees[f'{a} or {b}'] = OR + a + b
    book = assemble([1, 0, 1], [record(1, [0, 0], [2, 0], TRUE)], query=1)
    for name, tree in trees.items():
        yield f'query {name}', book, TRUE + tree + TRUE
        yield f'query not {name}', book, le([1], -9) + NOT + tree + le([1], -9)
    for q in range(16):
        arities = [1] * 16
        arities[q] = 0
        book = assemble(arities, [record(1, [255], [(q + 1) % 16, 0], TRUE)], query=q)
        model = [TRUE if r % 2 else le([1], -3) for r in range(16)]
        for name, tree in [('true', TRUE), ('not true', FALSE), ('a sum', eq([], 0))]:
            model[q] = tree
            yield f'query {q}, {name}', book, b''.join(model)
    # 23 before 24 and 25, 24 before 25, 21 and 22 before 23.
    large = wide(1001, [2])
    yield 'the query true, too many', large, TRUE + TRUE
    yield 'the query true, broken', B, FALSE + TRUE
    yield 'too many, broken at once', large, FALSE + FALSE
    yield 'too many, kind 7', large, b'\7' + FALSE
    yield 'too many, cut', large, TRUE
    yield 'too many, one byte left', large, TRUE + FALSE + TRUE


def refused():
    """Refused books, with models of all sorts."""
    by_number = {}
    for name, data in book_cases.cases():
        number, _, book = reference.read_book(data)
        if book is None and len(data) < 1000:
            by_number.setdefault(number, []).append((name, data))
    for number in sorted(by_number):
        found = by_number[number]
        for i, (name, data) in enumerate(found[::max(1, len(found) // 12)]):
            model = [b'', TRUE + FALSE, TRUE, b'\7', bytes(100)][i % 5]
            yield f'{name}, model {model[:3].hex()}', data, model
    for at, value in [(58, 2), (0, 9), (40, 14), (5, 1)]:
        yield f'B, byte {at} = {value}', changed(B, at, value), TRUE + FALSE
    yield 'empty book, empty model', b'', b''
    yield '60001 bytes', bytes(60001), TRUE
    # The largest book: 24, and what comes before it.
    long = book_cases.padded(60000)
    yield '60000 bytes, too many', long, TRUE * 15 + FALSE
    yield '60000 bytes, one window', changed(long, 60000 - 16, *i32(0), *i32(0)), TRUE * 15 + FALSE
    yield '60000 bytes, one window, false', changed(long, 60000 - 16, *i32(7), *i32(7)), FALSE * 16


class Small(Dice):
    """Random books with small numbers and windows, so that constraints are true now and then."""

    def i16(self):
        return self.pick([0, 1, -1, 2, -2, 3])

    def i32(self):
        return self.pick([0, 1, -1, 2, -2, 3, -3, 5])

    def window(self):
        lo = self.pick([0, 0, 1, -1, -2, -5, LEAST, MOST - 4])
        return lo, lo + self.below(4)

    def small_book(self):
        arities = [self.below(3) for _ in range(1 + self.below(3))]
        query = self.below(len(arities) + 1)
        arities.insert(query, 0)
        lo, hi = self.window()
        book = {'arities': arities, 'query': query, 'clauses': [], 'lo': lo, 'hi': hi}
        for _ in range(1 + self.below(5)):
            v = self.below(4)
            book['clauses'].append({
                'variables': v,
                'body': self.pick([None, self.atom(arities, v), self.atom(arities, v)]),
                'head': self.atom(arities, v),
                'constraint': self.node(v, 4, 1 + self.below(6))[0],
            })
        return book


def reached(book):
    """The facts that derivations of the book derive, as a set for each relation."""
    known = [set() for _ in book['arities']]
    window = range(book['lo'], book['hi'] + 1)
    pairs = []
    for clause in book['clauses']:
        for values in itertools.product(window, repeat=clause['variables']):
            if models.holds(clause['constraint'], values):
                pairs.append(models.facts(clause, values))
    grown = True
    while grown:
        grown = False
        for body, head in pairs:
            if (body is None or tuple(body[1]) in known[body[0]]) and tuple(head[1]) not in known[head[0]]:
                known[head[0]].add(tuple(head[1]))
                grown = True
    return known


def described(facts, arity, width):
    """A constraint that is true of these facts alone, within a window of that width; None if they are too many."""
    if not facts:
        return FALSE
    if arity == 0:
        return TRUE
    if len(facts) > 32:
        return None
    weights = [width ** i for i in range(arity)]
    leaves = []
    for fact in sorted(facts):
        constant = sum(w * v for w, v in zip(weights, fact))
        if not LEAST <= constant <= MOST:
            return None
        leaves.append(eq([-w for w in weights], constant))
    return balanced(leaves, (OR,))


def model_of(known, book):
    parts = [described(facts, arity, book['hi'] - book['lo'] + 1) for facts, arity in zip(known, book['arities'])]
    return None if None in parts else b''.join(parts)


def shuffled():
    """Random small books with random models, and with the facts that are reached, one more or less."""
    dice = Small(7)
    for i in range(500):
        book = dice.small_book()
        data = reference.write_book(book)
        for j in range(2):
            parts = [reference.write_node(dice.node(a, 4, 1 + dice.below(6))[0]) for a in book['arities']]
            if dice.below(4) > 0:
                parts[book['query']] = FALSE
            yield f'random book {i}, random model {j}', data, b''.join(parts)
        known = reached(book)
        model = model_of(known, book)
        if model is None:
            continue
        yield f'random book {i}, what is reached', data, model
        # Without the query, without one fact, with one more.
        known[book['query']] = set()
        yield f'random book {i}, what is reached, the query denied', data, model_of(known, book)
        facts = [(r, fact) for r in range(len(known)) for fact in sorted(known[r])]
        if facts:
            r, fact = dice.pick(facts)
            less = [s - {fact} if s is known[r] else s for s in known]
            yield f'random book {i}, without {fact} of {r}', data, model_of(less, book)
        r = dice.below(len(known))
        fact = tuple(book['lo'] + dice.below(book['hi'] - book['lo'] + 1) for _ in range(book['arities'][r]))
        more = [s | {fact} if s is known[r] else s for s in known]
        if model_of(more, book) is not None:
            yield f'random book {i}, with {fact} of {r}', data, model_of(more, book)
        if i % 4 == 0:
            yield f'random book {i}, one byte less', data, model[:-1]
            yield f'random book {i}, one byte more', data, model + b'\0'
            at = dice.below(len(model))
            yield f'random book {i}, model damaged', data, changed(model, at, dice.pick([dice.below(8), dice.below(256)]))


def cases():
    """Every case once, in order: (name, book, model)."""
    made = []
    seen = set()
    for part in [named, around_b, first_and_last, variables, arguments, counts, faulty, refused, shuffled]:
        for name, data, model in part():
            if (data, model) not in seen:
                seen.add((data, model))
                made.append((name, data, model))
    return made


# ---------------------------------------------------------------------------
# What is written, and the self-test
# ---------------------------------------------------------------------------

def line_of(reply):
    number, place, count, clause, values = reply
    return f'{number} at {place} count {count} clause {clause} values {" ".join(map(str, values))}'


def slowly(data, model_data):
    """The reply's count, clause and values again, without the made-up source: for small books."""
    _, _, book = reference.read_book(data)
    model, _ = models.read_model(book, model_data)
    window = range(book['lo'], book['hi'] + 1)
    every = [(k, values) for k, clause in enumerate(book['clauses'])
             for values in itertools.product(window, repeat=clause['variables'])]
    for count, (k, values) in enumerate(every, 1):
        if models.breaks(book['clauses'][k], model, values):
            return (25, count, count, k, [*values, *[0] * (16 - len(values))])
    return (0, 0, len(every), 0, [0] * 16)


# Worked out by hand from document 01: book, model, number, place, count, clause, values.
BY_HAND = [
    (B, '00 03 00', 25, 24, 24, 2, [3]),
    (changed(B, 48, 2), '00 03 00', 0, 0, 15, 0, []),
    # All B's facts are 0 to 3: below 3 is left by clause 1 at 2, 3, the twelfth of its assignments.
    (B, '01 01 00 FE FF FF FF 03 00', 25, 4 + 12, 16, 1, [2, 3]),
    # Nothing in relation 0: clause 0 is broken at 0.
    (B, '03 00 03 00', 25, 1, 1, 0, [0]),
    (B, '00 00', 23, 1, 0, 0, []),
    (B, '00', 22, 1, 0, 0, []),
    (B, '', 22, 0, 0, 0, []),
    (B, '00 03', 22, 2, 0, 0, []),
    (B, '00 03 00 00', 22, 3, 0, 0, []),
    (B, '07', 21, 0, 0, 0, []),
    (B, '00 07', 21, 1, 0, 0, []),
    (B, '00 03 07', 21, 2, 0, 0, []),
    # A sum over relation 0's one place is 1 + 2 + 4 bytes, then d and r.
    (B, '06 01 00 00 00 00 00 00 00 00 00 03 00', 21, 7, 0, 0, []),
    (B, '06 01 00 00 00 00 00 02 00 02 00 03 00', 21, 9, 0, 0, []),
    (B, '06 01 00 00 00 00 00 02 00 02', 22, 10, 0, 0, []),
    (B, '06 01 00 00 00 00 00 00', 22, 8, 0, 0, []),
    (B, '03 ' * 16 + '00 03 00', 21, 16, 0, 0, []),
    (changed(B, 58, 2), '00 03 00', 2, 44, 0, 0, []),
    # With lo = -1 there are 5 + 25 + 5 assignments; the last one is broken.
    (changed(B, 44, 255, 255, 255, 255), '00 03 00', 25, 35, 35, 2, [3]),
    # Whole i32: clause 0 has 2^32 assignments.
    (changed(B, 44, 0, 0, 0, 128, 255, 255, 255, 127), '00 03 00', 24, 0, 0, 0, []),
    (SMALL, '03 00', 25, 1, 1, 0, []),
    (wide(1000, [2]), '00 03 00', 0, 0, 1000000, 0, []),
    (wide(1000, [2, 0]), '00 03 00', 24, 0, 0, 0, []),
    (wide(1000, [1]), '03 00 03 00', 25, 1, 1, 0, [0]),
]


def self_test(made, replies):
    """The results of all tests, as (name, passed)."""
    for data, model, number, place, count, clause, values in BY_HAND:
        due = (number, place, count, clause, values + [0] * (16 - len(values)))
        yield f'by hand: {due}', models.check_model(data, bytes.fromhex(model)) == due
    for (name, data, model), reply in zip(made, replies):
        if reply[0] in (0, 25):
            book = reference.read_book(data)[2]
            if models.assignments(book) <= 300:
                yield f'again: {name}', slowly(data, model) == reply
            yield f'count: {name}', reply[2] == (reply[1] if reply[0] == 25 else models.assignments(book))
        if name.endswith('what is reached'):
            # The least model: accepted exactly when the query is not in it.
            book = reference.read_book(data)[2]
            yield f'least: {name}', reply[0] == (23 if reached(book)[book['query']] else 0)
    numbers = [reply[0] for reply in replies]
    for n in [0, *range(1, 9), 21, 22, 23, 24, 25]:
        yield f'ten cases or more give {n}', numbers.count(n) >= (10 if n > 8 or n == 0 else 5)


def main(words):
    made = cases()
    replies = [models.check_model(data, model) for _, data, model in made]
    lines = [line_of(reply) for reply in replies]
    if words == ['--list']:
        for i, ((name, data, model), line) in enumerate(zip(made, lines)):
            print(f'{i + 1}: {name} ({len(data)} and {len(model)} bytes): {line}')
        return 0
    stdin = b''.join(len(data).to_bytes(4, 'little') + len(model).to_bytes(4, 'little') + data + model
                     for _, data, model in made)
    stdout = ''.join(line + '\n' for line in lines).encode()
    results = list(self_test(made, replies))
    results += stored.kept({'model_cases/stdin': stdin, 'model_cases/stdout': stdout}, words)
    print(f'{len(made)} cases, {len(stdin)} bytes in, {len(stdout)} out')
    for n in [*range(9), *range(21, 26)]:
        print(f'  {sum(reply[0] == n for reply in replies)} give {n}')
    return stored.told(results)


if __name__ == '__main__':
    stored.run(main, __doc__)
