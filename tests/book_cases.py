"""The cases of the clause book's reader, for the program crates/book_cases.

  python3 tests/book_cases.py           write crates/book_cases/stdin and crates/book_cases/stdout
  python3 tests/book_cases.py --check   write nothing; self-test the reference, and compare the stored files
  python3 tests/book_cases.py --list    print each case: line of stdout, name, length, expected line

stdin has each case as its length (u32, little-endian) and its bytes. stdout has a line for each,
worked out by tests/reference.py alone: 'N at P' for the reader's number and place, then
' length:checksum' for each constraint part asked for. These are the clauses 0 to count for an
accepted book (count itself is absent), clause 0 for a refused one, and for both clause 2^63.
"""
import sys

sys.dont_write_bytecode = True
import reference
import stored

# Document 01's book B, and the 23 bytes of "Printed text".
B = bytes.fromhex(
    '01 00'
    ' 01 FF 00 00 02 01 00 00 00 00 00'
    ' 02 00 00 00 01 02 01 00 FF FF 01 00 00 00'
    ' 01 00 00 01 02 01 00 FD FF FF FF'
    ' 02 00 0D 00 1B 00'
    ' 00 00 00 00 03 00 00 00 26 00 03 00 02 01 01 00')
SMALL = bytes.fromhex('00 00 FF 00 00 01 00') + bytes(8) + bytes.fromhex('05 00 01 00 01 00 01 00')

LEAST, MOST = -2 ** 31, 2 ** 31 - 1     # the ends of i32


# ---------------------------------------------------------------------------
# Building books, right and wrong
# ---------------------------------------------------------------------------

def u16(n):
    return (n % 65536).to_bytes(2, 'little')


def i16(n):
    return n.to_bytes(2, 'little', signed=True)


def i32(n):
    return n.to_bytes(4, 'little', signed=True)


def le(coefficients, constant):
    return b'\1' + b''.join(map(i16, coefficients)) + i32(constant)


def eq(coefficients, constant):
    return b'\2' + b''.join(map(i16, coefficients)) + i32(constant)


def rem(coefficients, constant, d, r):
    return b'\6' + b''.join(map(i16, coefficients)) + i32(constant) + u16(d) + u16(r)


TRUE, NOT, AND, OR = b'\0', b'\3', b'\4', b'\5'


def record(variables, body, head, constraint):
    """A record; body and head are lists of bytes, a relation and its arguments."""
    return bytes([variables, *body, *head]) + constraint


def assemble(arities, records, lo=0, hi=3, query=None, start=None, count=None, relations=None,
             one=1, zero=0, entries=None, left=b''):
    """A book of these records. Each trailer field, the index entries and bytes left over can be set wrong."""
    data = bytes(arities)
    places = []
    for r in records:
        places.append(len(data))
        data += r
    data += left
    start = len(data) if start is None else start
    count = len(records) if count is None else count
    relations = len(arities) if relations is None else relations
    query = len(arities) - 1 if query is None else query
    index = b''.join(map(u16, places if entries is None else entries))
    return (data + index + i32(lo) + i32(hi) + u16(start) + u16(count)
            + bytes([relations, query, one, zero]))


def single(variables, constraint, **wrong):
    """A book of one relation with no places, and one clause without body."""
    return assemble([0], [record(variables, [255], [0], constraint)], **wrong)


def changed(data, at, *values):
    """The data with the bytes at `at` replaced; a negative `at` counts from the end."""
    at = at % len(data)
    return data[:at] + bytes(values) + data[at + len(values):]


def balanced(leaves, kinds=(AND, OR)):
    """A tree as flat as can be over the leaves, its kinds taken in turn."""
    if len(leaves) == 1:
        return leaves[0]
    half = (len(leaves) + 1) // 2
    turned = kinds[1:] + kinds[:1]
    return kinds[0] + balanced(leaves[:half], turned) + balanced(leaves[half:], turned)


class Dice:
    """Random numbers that are the same wherever and whenever they are made."""

    def __init__(self, seed):
        self.state = seed

    def below(self, n):
        self.state = (self.state * 6364136223846793005 + 1442695040888963407) % 2 ** 64
        return (self.state >> 33) % n

    def pick(self, items):
        return items[self.below(len(items))]

    def bytes(self, n):
        return bytes(self.below(256) for _ in range(n))

    def i16(self):
        return self.pick([0, 1, -1, 2, -32768, 32767, self.below(65536) - 32768])

    def i32(self):
        return self.pick([0, 1, -1, LEAST, MOST, self.below(2 ** 31) * 2 - 2 ** 31])

    def node(self, variables, depth, budget):
        """A node of at most `budget` nodes and the given depth, and how many it took."""
        kind = self.below(7)
        if kind in (3, 4, 5) and (depth <= 1 or budget < 3):
            kind = self.pick([0, 1, 2, 6])
        coefficients = [self.i16() for _ in range(variables)]
        if kind == 0:
            return ('true',), 1
        if kind in (1, 2):
            return (('le', 'eq')[kind - 1], coefficients, self.i32()), 1
        if kind == 6:
            d = self.pick([1, 2, 3, 65535, 1 + self.below(65535)])
            return ('rem', coefficients, self.i32(), d, self.pick([0, d - 1, self.below(d)])), 1
        first, took = self.node(variables, depth - 1, budget - (1 if kind == 3 else 2))
        if kind == 3:
            return ('not', first), took + 1
        second, more = self.node(variables, depth - 1, budget - 1 - took)
        return (('and', 'or')[kind - 4], first, second), took + more + 1

    def atom(self, arities, variables):
        fitting = [r for r, a in enumerate(arities) if a == 0 or variables > 0]
        r = self.pick(fitting)
        return (r, [self.below(variables) for _ in range(arities[r])])

    def book(self, relations, clauses, variables, budget):
        """A book within the limits; the numbers given are the most of each."""
        arities = [self.below(5) for _ in range(1 + self.below(relations))]
        query = self.below(len(arities))
        arities[query] = 0
        book = {'arities': arities, 'query': query, 'clauses': []}
        book['lo'], book['hi'] = sorted([self.i32(), self.i32()])
        for _ in range(self.below(clauses + 1)):
            v = self.below(variables + 1)
            book['clauses'].append({
                'variables': v,
                'body': self.pick([None, self.atom(arities, v)]),
                'head': self.atom(arities, v),
                'constraint': self.node(v, 16, budget)[0],
            })
        return book


# ---------------------------------------------------------------------------
# The cases
# ---------------------------------------------------------------------------

def named():
    """Document 01's own."""
    yield 'B', B
    yield 'B, byte 58 = 2', changed(B, 58, 2)
    yield 'B, byte 0 = 9', changed(B, 0, 9)
    yield 'B, byte 40 = 14', changed(B, 40, 14)
    yield 'B, byte 5 = 1', changed(B, 5, 1)
    yield 'B with hi = 2', changed(B, 48, 2)
    yield 'the printed book', SMALL


def padded(length):
    """A book of 64 clauses, 16 relations and 16 variables in each clause, of `length` bytes.

    The longest accepted book has 60,000 bytes: the limits on clauses and nodes would allow 87,000.
    A clause here has 19 bytes before its constraint, which has 44 nodes in 916 bytes, and
    16 + 64 * (19 + 916) + 2 * 64 + 16 = 60,000. A `not` more or less in the last one moves that by one.
    """
    dice = Dice(60000)
    arities = [8] * 15 + [0]
    records = []
    for k in range(64):
        leaves = [rem([dice.i16() for _ in range(16)], dice.i32(), 65535, dice.below(65535)) for _ in range(20)]
        leaves += [make([dice.i16() for _ in range(16)], dice.i32()) for make in (le, eq)]
        nots = 1 + (length - 60000 if k == 63 else 0)
        atoms = [[dice.below(15), *[dice.below(16) for _ in range(8)]] for _ in range(2)]
        records.append(record(16, *atoms, NOT * nots + balanced(leaves)))
    return assemble(arities, records, lo=LEAST, hi=MOST)


def lengths():
    for n in [*range(0, 24), 31, 32, 33, 255, 256, 257]:
        yield f'{n} zeros', bytes(n)
        yield f'{n} bytes 255', b'\xff' * n
    for n in range(16):
        yield f'last {n} bytes of B', B[len(B) - n:]
    yield 'shortest book', assemble([0], [])
    yield 'trailer alone', assemble([], [], relations=1, query=0)
    long = padded(60000)
    assert len(long) == 60000
    yield '60000 bytes', long
    yield '59999 bytes', padded(59999)
    yield '60001 bytes, else right', padded(60001)
    yield '60000 bytes, last kind unknown', changed(long, 60000 - 16 - 128 - 37, 7)
    yield '60000 zeros', bytes(60000)
    yield '60001 zeros', bytes(60001)
    yield '60001 bytes, a trailer of 60000', b'\0' + long


def trailers():
    base = assemble([0], [])
    ends = [LEAST, LEAST + 1, -256, -1, 0, 1, 255, 256, MOST]
    for lo in ends:
        for hi in ends:
            yield f'window {lo} {hi}', assemble([0], [], lo=lo, hi=hi)
    for hi in [-1, 0]:
        yield f'B, window 0 {hi}', changed(B, 48, *i32(hi))

    # The index start, the count and the length have to agree.
    for name, book in [('B', B), ('shortest', base), ('printed', SMALL)]:
        at = len(book) - 8
        start = reference.number_at(book, at, 2)
        for s in sorted({0, 1, 2, start - 2, start - 1, start + 1, start + 2, start + 256, 255, 256, 32768, 65535}):
            yield f'{name}, index start {s}', changed(book, at, *u16(s))
        for c in [0, 1, 2, 3, 4, 5, 63, 64, 65, 255, 256, 257, 32768, 32769, 32771, 65535]:
            yield f'{name}, count {c}', changed(book, at + 2, *u16(c))
        for n in range(256):
            if n < 4 or n in (15, 16, 17, 127, 128, 255):
                yield f'{name}, relations {n}', changed(book, at + 4, n)
                yield f'{name}, query {n}', changed(book, at + 5, n)
        for n in [0, 2, 3, 127, 129, 255]:
            yield f'{name}, byte 14 = {n}', changed(book, at + 6, n)
        for n in [1, 2, 128, 255]:
            yield f'{name}, byte 15 = {n}', changed(book, at + 7, n)
        yield f'{name}, bytes 14 and 15 swapped', changed(book, at + 6, 0, 1)
        for n in [1, 2, 16]:
            yield f'{name}, {n} bytes before', bytes(n) + book
            yield f'{name}, {n} bytes behind', book + bytes(n)
            yield f'{name}, {n} bytes more before the trailer', book[:-16] + bytes(n) + book[-16:]
            yield f'{name}, {n} bytes less in front', book[n:]
            yield f'{name}, {n} bytes less behind', book[:-n]
    for c in [1, 2, 8, 64]:
        # start + 2 * count + 16 would be the length if it wrapped at 65,536.
        yield f'start wraps, {c} clauses', assemble([0], [], start=65536 + 1 - 2 * c, count=c)
    for c in [32768, 32769]:
        yield f'count {c} wraps', assemble([0], [record(0, [255], [0], TRUE)] * (c - 32768), count=c)

    # Each other limit of the trailer on both sides, all else right.
    for n in [1, 2, 3, 8, 15, 16, 17, 32]:
        yield f'{n} relations', assemble([0] * n, [])
        yield f'{n} relations, query {n}', assemble([0] * n, [], query=n)
        yield f'{n} relations, query 0', assemble([0] * n, [], query=0)
        yield f'{n} relations, query 255', assemble([0] * n, [], query=255)
        yield f'index start {n - 1} below {n} relations', assemble([0] * (n - 1), [], relations=n, query=0)
        yield f'index start {n} above {n - 1} relations', assemble([0] * n, [], relations=n - 1, query=0)
    yield '0 relations, query 0', assemble([], [], relations=0, query=0)
    yield '0 relations, query 255', assemble([], [], relations=0, query=255)
    plain = record(0, [255], [0], TRUE)
    for n in [0, 1, 2, 63, 64, 65, 66, 128, 256, 257]:
        yield f'{n} clauses', assemble([0], [plain] * n)
    # The trailer is judged before everything else.
    yield 'bad trailer, bad arity', assemble([9], [], one=0)
    yield 'bad trailer, bad entry', assemble([0], [plain], lo=1, hi=0, entries=[9])


def arities():
    for n in [1, 2, 3, 16]:
        for i in range(n - 1):
            for a in [0, 1, 7, 8, 9, 10, 16, 128, 255]:
                if n < 16 or i in (0, 7, 14):
                    yield f'arity {a} at {i} of {n}', assemble([0] * i + [a] + [0] * (n - 1 - i), [])
        for q in sorted({0, n // 2, n - 1}):
            for a in [1, 2, 8, 9, 255]:
                yield f'query {q} of {n} with arity {a}', assemble([0] * q + [a] + [0] * (n - 1 - q), [], query=q)
    yield 'all arities 8', assemble([8] * 15 + [0], [])
    yield 'two arities over 8', assemble([0, 9, 10, 0], [])
    yield 'arity over 8, then the query', assemble([9, 1], [])
    yield 'the query, then an arity over 8', assemble([1, 9], [], query=0)
    yield 'bad arity, bad entry', assemble([9, 0], [record(0, [255], [1], TRUE)], entries=[9])
    yield 'bad arity, bad record', assemble([9, 0], [record(17, [255], [1], TRUE)])
    for a in range(9):
        arguments = list(range(a))
        yield f'atoms of arity {a}', assemble([a, 0], [record(8, [0, *arguments], [0, *reversed(arguments)], TRUE)])


def indexes():
    plain = record(0, [255], [0], TRUE)
    many = assemble([0], [plain] * 64)
    where = {'B': (B, 38, 3), 'the printed book': (SMALL, 5, 1), '64 clauses': (many, 257, 64)}
    for name, (book, start, count) in where.items():
        for k in sorted({0, 1, count // 2, count - 2, count - 1}):
            if not 0 <= k < count:
                continue
            right = reference.number_at(book, start + 2 * k, 2)
            for off in [-256, -2, -1, 1, 2, 4, 256, 32768]:
                yield f'{name}, entry {k} off by {off}', changed(book, start + 2 * k, *u16(right + off))
            for value in [0, start - 1, start, start + 2 * k, len(book) - 1, len(book), 65535]:
                yield f'{name}, entry {k} is {value}', changed(book, start + 2 * k, *u16(value))
    yield 'B, entries all 0', changed(B, 38, 0, 0, 0, 0, 0, 0)
    yield 'B, entries turned', changed(B, 38, 27, 0, 13, 0, 2, 0)
    yield 'B, entries all the first', changed(B, 38, 2, 0, 2, 0, 2, 0)
    yield 'B, entries big-endian', changed(B, 38, 0, 2, 0, 13, 0, 27)
    # An entry above 255, and a byte or more between two records: the entry is not where reading stands.
    long = record(16, [255], [0], balanced([le([7] * 16, 1)] * 8))
    yield 'entry above 255', assemble([0], [long] * 3)
    yield 'entry above 255, high byte lost', assemble([0], [long] * 2, entries=[1, (1 + len(long)) % 256])
    for gap in [1, 2, 16]:
        two = [plain + bytes(gap), plain]
        yield f'gap of {gap}, entry behind it', assemble([0], two)
        yield f'gap of {gap}, entry before it', assemble([0], two, entries=[1, 5])
    yield 'first record one byte late', assemble([0], [b'\0' + plain], entries=[2])
    yield 'first record one byte early', assemble([0], [plain], entries=[0])

    # Bytes left before the index.
    for n in [1, 2, 3, 16, 250]:
        for records in [[], [plain], [plain] * 2, [plain] * 64]:
            yield f'{n} bytes left after {len(records)} clauses', assemble([0], records, left=bytes(n))
        yield f'{n} bytes left in B', B[:38] + b'\xff' * n + B[38:52] + u16(38 + n) + B[54:]
    yield 'a whole record left', assemble([0], [plain] * 2, count=1, entries=[1])
    # Entry before record, record before the next entry.
    bad = record(17, [255], [0], TRUE)
    yield 'bad entry, bad record', assemble([0], [bad], entries=[2])
    yield 'bad record, bad next entry', assemble([0], [bad, plain], entries=[1, 0])
    yield 'bad next entry, bad next record', assemble([0], [plain, bad], entries=[1, 0])
    yield 'bad record, bytes left', assemble([0], [bad], left=b'\0')
    dice = Dice(4)
    for i in range(60):
        at = 38 + 2 * dice.below(3)
        yield f'B, random entry {i}', changed(B, at, *u16(dice.pick([dice.below(60), dice.below(65536)])))


def records():
    for n in [1, 2, 15, 16]:
        none = [0] * n
        for r in sorted({0, n - 1, n, n + 1, 15, 16, 17, 127, 128, 254, 255}):
            yield f'{n} relations, body {r}', assemble(none, [record(0, [r], [0], TRUE)])
            yield f'{n} relations, head {r}', assemble(none, [record(0, [255], [r], TRUE)])
            yield f'{n} relations, body and head {r}', assemble(none, [record(0, [r], [r], TRUE)])
        yield f'{n} relations, bad head in a last clause', assemble(
            none, [record(0, [255], [0], TRUE)] * 3 + [record(0, [0], [n], TRUE)])
    for v in [0, 1, 2, 15, 16, 17, 18, 32, 127, 128, 254, 255]:
        yield f'V = {v}', single(v, TRUE)
        yield f'V = {v} in a second clause', assemble(
            [0], [record(1, [255], [0], TRUE), record(v, [255], [0], TRUE)])
        yield f'V = {v}, bad body', assemble([0], [record(v, [1], [0], TRUE)])
        for a in sorted({0, max(v - 1, 0), v, min(v + 1, 255), 255}):
            yield f'V = {v}, body argument {a}', assemble([1, 0], [record(v, [0, a], [1], TRUE)])
            yield f'V = {v}, head argument {a}', assemble([1, 0], [record(v, [255], [0, a], TRUE)])
    for i in range(8):
        for a in [3, 4, 255]:
            wrong = [0, 1, 2, 3, 3, 2, 1, 0]
            wrong[i] = a
            yield f'body argument {i} of 8 is {a}', assemble([8, 0], [record(4, [0, *wrong], [1], TRUE)])
            yield f'head argument {i} of 8 is {a}', assemble([8, 0], [record(4, [255], [0, *wrong], TRUE)])
    yield 'one variable in all places', assemble([8, 0], [record(1, [0] + [0] * 8, [0] + [0] * 8, TRUE)])
    yield 'two bad arguments', assemble([2, 0], [record(1, [0, 1, 2], [0, 3, 3], TRUE)])
    yield 'bad argument, bad head', assemble([1, 0], [record(1, [0, 1], [9], TRUE)])
    yield 'bad head, bad kind', assemble([0], [record(0, [255], [1], b'\7')])
    yield 'the query as body', assemble([0], [record(0, [0], [0], TRUE)])


def leaning(kind, depth, leaf, right):
    """`kind` nodes in a row with `leaf` at the given depth, down the left or the right child."""
    if depth == 1:
        return leaf
    rest = leaning(kind, depth - 1, leaf, right)
    return kind + TRUE + rest if right else kind + rest + TRUE


def constraints():
    for k in [0, 7, 8, 9, 16, 127, 128, 254, 255]:
        yield f'kind {k}', single(0, bytes([k]))
        for name, front in [('not', NOT), ('and', AND), ('and true', AND + TRUE), ('or', OR), ('or true', OR + TRUE)]:
            yield f'{name}, kind {k}', single(0, front + bytes([k]) + (TRUE if name in ('and', 'or') else b''))
        yield f'kind {k} after a sum', single(1, AND + le([1], 1) + bytes([k]))

    # Sums of every length; the numbers themselves are not judged.
    for v in range(17):
        cs = [(-1) ** i * 1000 * i for i in range(v)]
        yield f'sums of {v}', single(v, AND + le(cs, -5) + OR + eq(cs, 5) + rem(cs, 0, 7, 6))
        yield f'sums of {v}, too few', single(v, le(cs[:-1], -5) if v else le([], 0)[:-1])
        yield f'sums of {v}, too many', single(v, le(cs + [1], -5))
        yield f'sums of {v}, all bits', single(v, rem([-1] * v, -1, 65535, 65534))
    for c in [LEAST, -1, 0, MOST]:
        yield f'constant {c}', single(1, OR + le([-32768], c) + eq([32767], c))

    for d in [0, 1, 2, 3, 255, 256, 257, 32767, 32768, 65534, 65535]:
        for r in sorted({0, 1, 2, 255, 256, max(d - 1, 0), d, min(d + 1, 65535), 65535}):
            yield f'd = {d}, r = {r}', single(0, rem([], 0, d, r))
    for d, r in [(0, 0), (1, 1), (3, 2), (3, 3), (256, 1), (1, 256)]:
        for v in [1, 16]:
            yield f'd = {d}, r = {r}, V = {v}', single(v, rem([1] * v, 0, d, r))
        yield f'd = {d}, r = {r}, in a second child', single(0, AND + TRUE + rem([], 0, d, r))
    yield 'd = 0 in the first child, kind 7 in the second', single(0, AND + rem([], 0, 0, 0) + b'\7')

    # Depth.
    leaves = {'true': TRUE, 'le': le([1], 0), 'eq': eq([1], 0), 'rem': rem([1], 0, 2, 1)}
    for depth in [2, 3, 15, 16, 17, 18, 30]:
        yield f'not, depth {depth}', single(0, NOT * (depth - 1) + TRUE)
        for side in ['left', 'right']:
            for name, kind in [('and', AND), ('or', OR)]:
                yield f'{name} to the {side}, depth {depth}', single(0, leaning(kind, depth, TRUE, side == 'right'))
    for name, leaf in leaves.items():
        for depth in [16, 17]:
            yield f'{name} at depth {depth}', single(1, NOT * (depth - 1) + leaf)
            yield f'{name} at depth {depth}, right', single(1, leaning(OR, depth, leaf, True))
            yield f'{name} at depth {depth}, left', single(1, leaning(AND, depth, leaf, False))
    for first in [15, 16, 17]:
        for second in [15, 16, 17]:
            yield f'depth {first} and {second}', single(0, AND + NOT * (first - 2) + TRUE + NOT * (second - 2) + TRUE)
    yield 'not, depth 17, unknown kind', single(0, NOT * 16 + b'\7')
    yield 'and, depth 17 in the first child, kind 7 behind', single(0, AND + NOT * 15 + TRUE + b'\7')
    yield 'zigzag, depth 16', single(0, (AND + TRUE + NOT) * 7 + AND + TRUE + TRUE)
    yield 'zigzag, depth 17', single(0, (AND + TRUE + NOT) * 8 + TRUE)

    # Nodes: n leaves take n - 1 branches, and a `not` makes the number even.
    for nodes in [61, 62, 63, 64, 65, 66, 67, 80, 127]:
        for name, leaf in leaves.items():
            tree = NOT * (1 - nodes % 2) + balanced([leaf] * ((nodes + 1) // 2))
            yield f'{nodes} nodes of {name}', single(1, tree)
        mixed = [list(leaves.values())[i % 4] for i in range((nodes + 1) // 2)]
        yield f'{nodes} nodes of all kinds', single(1, NOT * (1 - nodes % 2) + balanced(mixed, (OR, AND)))
        yield f'{nodes} nodes, a not at the last leaf', single(
            0, balanced([TRUE] * ((nodes + 1) // 2 - 1) + [NOT * (1 - nodes % 2) + TRUE]))
    comb = AND + leaning(AND, 15, TRUE, True) + AND + leaning(OR, 14, TRUE, True)
    for nodes, last in [(63, leaning(AND, 3, TRUE, True)), (65, leaning(AND, 4, TRUE, True))]:
        assert len(comb + last) == nodes
        yield f'comb of {nodes} nodes', single(0, comb + last)
    yield 'node 64 of unknown kind', single(0, AND + balanced([TRUE] * 31) + AND + b'\7' + TRUE)
    yield 'node 65 of unknown kind', single(0, AND + balanced([TRUE] * 31) + AND + TRUE + b'\7')
    for nodes in [32, 40, 63, 64]:
        # The nodes are counted for each clause by itself.
        tree = NOT * (1 - nodes % 2) + balanced([TRUE] * ((nodes + 1) // 2))
        clause = record(0, [255], [0], tree)
        yield f'3 clauses of {nodes} nodes', assemble([0], [clause] * 3)
    full = record(0, [255], [0], NOT + balanced([TRUE] * 32))
    yield '64 clauses of 64 nodes', assemble([0], [full] * 64)
    yield '64 clauses of 64 nodes, the last of 65', assemble(
        [0], [full] * 63 + [record(0, [255], [0], balanced([TRUE] * 33))])


def cuts():
    """A record cut at each byte: the index stands where its next byte or number is due."""
    c = [300, -2]
    leaves = AND + le(c, 7) + OR + eq(c, -7) + NOT + rem(c, 5, 700, 600)
    atoms = {'body and head': ([0, 0, 1, 1], [0, 1, 0, 0]), 'no body': ([255], [0, 1, 1, 1]), 'query': ([1], [1])}
    for count in [2, 16]:
        # With 16 relations the index begins with 16, which no relation, argument or kind may be.
        arities = [3] + [0] * (count - 1)
        for name, (body, head) in atoms.items():
            whole = record(2, body, head, leaves)
            for n in range(len(whole) + 1):
                yield f'{name}, {count} relations, cut at {n}', assemble(arities, [whole[:n]])
        second = record(2, [0, 0, 1, 1], [1], OR + NOT + rem(c, 5, 1, 0) + le(c, 0))
        for n in range(len(second)):
            yield f'second clause, {count} relations, cut at {n}', assemble(
                arities, [record(0, [255], [1], TRUE), second[:n]])
        for v in [0, 16]:
            for kind in [le, eq, rem]:
                one = kind([1] * v, 1, *([9, 8] if kind is rem else []))
                for n in range(0, len(one), 1 if v == 0 else 3):
                    whole = record(v, [255], [1], one[:n])
                    yield f'{kind.__name__} of {v}, {count} relations, cut at {n}', assemble(arities, [whole])
    # A third clause is due, and no record is left for it.
    plain = record(0, [255], [0], TRUE)
    for n in [1, 2, 63]:
        yield f'record {n} absent', assemble([0], [plain] * n + [b''])
        yield f'records {n} and on absent', assemble([0], [plain] * n + [b''] * (64 - n))
    # The index stands where node 65 and depth 17 are due: 8, since nothing is there to judge.
    yield 'cut before node 65', single(0, balanced([TRUE] * 33)[:64])
    yield 'cut before depth 17', single(0, NOT * 16)
    yield 'cut before depth 16', single(0, NOT * 15)
    yield 'd = 0, cut before r', single(0, rem([], 0, 0, 0)[:-2])
    yield 'd = 0, cut in r', single(0, rem([], 0, 0, 0)[:-1])
    yield 'd = 0, cut in d', single(0, rem([], 0, 0, 0)[:-3])
    yield 'r = d, cut in r', single(0, rem([], 0, 1, 1)[:-1])
    # A record that would go on through index and trailer.
    yield 'nots to the index', single(0, NOT * 5)
    yield 'sum over the index', single(16, le([1] * 16, 1)[:2])


def damaged():
    """One byte wrong, at every position of three small books."""
    for at, old in enumerate(B):
        for value in sorted({0, 1, 2, 3, 6, 7, 16, 17, 255, (old + 1) % 256, (old - 1) % 256, old ^ 128} - {old}):
            yield f'B, byte {at} = {value}', changed(B, at, value)
    for at, old in enumerate(SMALL):
        for value in sorted({0, 1, 2, 3, 5, 6, 7, 17, 255, (old + 1) % 256, old ^ 128} - {old}):
            yield f'printed book, byte {at} = {value}', changed(SMALL, at, value)
    deep = assemble([2, 0], [
        record(2, [255], [0, 1, 0], OR + NOT + rem([1, -1], -9, 5, 4) + AND + TRUE + le([0, 3], 4)),
        record(1, [0, 0, 0], [1], NOT + eq([2], 1))])
    yield 'a book of all kinds', deep
    for at, old in enumerate(deep):
        for value in sorted({0, 3, 6, 7, 255, (old + 1) % 256} - {old}):
            yield f'a book of all kinds, byte {at} = {value}', changed(deep, at, value)


def shuffled():
    """Random bytes, right so far and then random, and random books."""
    dice = Dice(1)
    for i in range(60):
        yield f'random bytes {i}', dice.bytes(16 + dice.below(80))
    for i in range(60):
        # A right length and a random rest of the trailer.
        n, k = dice.below(20), dice.below(3)
        data = dice.bytes(n + 2 * k) + dice.bytes(8) + u16(n) + u16(k) + bytes([dice.below(20), dice.below(4), 1, 0])
        yield f'random trailer {i}', data
    for i in range(60):
        # A right trailer over random bytes.
        n, k = 1 + dice.below(5), dice.below(4)
        start = n + dice.below(40)
        data = bytes(dice.below(11) for _ in range(n)) + dice.bytes(start - n + 2 * k)
        yield f'right trailer {i}', data + i32(-1) + i32(1) + u16(start) + u16(k) + bytes([n, dice.below(n), 1, 0])
    for i in range(240):
        # Right up to the first entry, then a record of small random bytes.
        ars = [dice.below(3) for _ in range(dice.below(3))] + [0]
        most = dice.pick([2, 4, 7, 8])
        body = bytes(dice.below(most) for _ in range(dice.below(40)))
        front = bytes([dice.below(4), dice.pick([255, 0, 0, dice.below(4)])])
        yield f'random record {i}', assemble(ars, [front + body])

    dice = Dice(2)
    for i in range(170):
        size = [(2, 1, 2, 4), (3, 3, 4, 8), (16, 6, 16, 12), (4, 20, 3, 3), (2, 2, 1, 64)][i % 5]
        book = dice.book(*size)
        data = reference.write_book(book)
        yield f'random book {i}', data
        for j in range(2):
            at = dice.below(len(data))
            yield f'random book {i}, damage {j}', changed(data, at, dice.pick([dice.below(8), dice.below(256)]))
        # One byte less or more somewhere before the index, the trailer made to fit.
        start = reference.number_at(data, len(data) - 8, 2)
        at = len(book['arities']) + dice.below(start - len(book['arities']) + 1)
        if i % 2 == 0 and at < start:
            yield f'random book {i}, one byte less', data[:at] + data[at + 1:-8] + u16(start - 1) + data[-6:]
        else:
            more = bytes([dice.below(8)])
            yield f'random book {i}, one byte more', data[:at] + more + data[at:-8] + u16(start + 1) + data[-6:]


def cases():
    """Every case once, in order: (name, bytes). A case that came before is left out."""
    made = []
    seen = set()
    for part in [named, lengths, trailers, arities, indexes, records, constraints, cuts, damaged, shuffled]:
        for name, data in part():
            if data not in seen:
                seen.add(data)
                made.append((name, data))
    return made


# ---------------------------------------------------------------------------
# What is written, and the self-test
# ---------------------------------------------------------------------------

def checksum(part):
    total = 0
    for b in part:
        total = (total * 257 + b) % 65521
    return total


def line_of(data):
    """The line due for a case."""
    number, place, book = reference.read_book(data)
    parts = reference.constraint_parts(data)
    wanted = len(book['clauses']) if book else 0
    line = f'{number} at {place}'
    for k in [*range(wanted + 1), 2 ** 63]:
        start, end = parts[k] if k < len(parts) else (0, 0)
        line += f' {end - start}:{checksum(data[start:end])}'
    return line


# Worked out by hand from document 01: bytes, number, place.
WINDOW = ' 00 00 00 00 00 00 00 00 '
BY_HAND = [
    (B, 0, 0),
    (SMALL, 0, 0),
    (changed(B, 58, 2), 2, 44),
    (changed(B, 0, 9), 3, 0),
    (changed(B, 40, 14), 4, 40),
    (changed(B, 5, 1), 6, 5),
    # 1: too short, too long.
    (b'', 1, 0),
    (bytes(15), 1, 0),
    (bytes(60001), 1, 0),
    # 2: no relation; lo = 1 above hi = 0; a byte too many.
    (bytes(16), 2, 0),
    (bytes.fromhex('00 01 00 00 00 00 00 00 00 01 00 00 00 01 00 01 00'), 2, 1),
    (b'\0' + B, 2, 45),
    (bytes(60000), 2, 59984),
    # 3: the query's arity is 1; the second of two arities is 9.
    (bytes.fromhex('01' + WINDOW + '01 00 00 00 01 00 01 00'), 3, 0),
    (bytes.fromhex('00 09' + WINDOW + '02 00 00 00 02 00 01 00'), 3, 1),
    # 4: a byte left with no clause; the printed book's entry one too low.
    (bytes.fromhex('00 07' + WINDOW + '02 00 00 00 01 00 01 00'), 4, 1),
    (changed(SMALL, 5, 0), 4, 5),
    # 5: the printed book with body 1, and with head 255.
    (changed(SMALL, 2, 1), 5, 2),
    (changed(SMALL, 3, 255), 5, 3),
    # 6: the printed book with 17 variables; B's second clause with argument 2 of 2 variables.
    (changed(SMALL, 1, 17), 6, 1),
    (changed(B, 17, 2), 6, 17),
    # 7: the printed book with kind 7; d = 0; r = d = 1; and r = 0 below d = 1, accepted.
    (changed(SMALL, 4, 7), 7, 4),
    (bytes.fromhex('00 00 FF 00 06 00 00 00 00 00 00 00 00 01 00' + WINDOW + '0D 00 01 00 01 00 01 00'), 7, 9),
    (bytes.fromhex('00 00 FF 00 06 00 00 00 00 01 00 01 00 01 00' + WINDOW + '0D 00 01 00 01 00 01 00'), 7, 11),
    (bytes.fromhex('00 00 FF 00 06 00 00 00 00 01 00 00 00 01 00' + WINDOW + '0D 00 01 00 01 00 01 00'), 0, 0),
    # 7: a not at depth 17, in a record of V, body, head, 16 nots and a true.
    (bytes.fromhex('00 00 FF 00' + ' 03' * 16 + '00 01 00' + WINDOW + '15 00 01 00 01 00 01 00'), 7, 20),
    (bytes.fromhex('00 00 FF 00' + ' 03' * 15 + '00 01 00' + WINDOW + '14 00 01 00 01 00 01 00'), 0, 0),
    # 8: the printed book with a not, whose child is not there; an empty record; a sum cut short.
    (changed(SMALL, 4, 3), 8, 5),
    (bytes.fromhex('00 01 00' + WINDOW + '01 00 01 00 01 00 01 00'), 8, 1),
    (bytes.fromhex('00 00 FF 00 01 00 00 00 01 00' + WINDOW + '08 00 01 00 01 00 01 00'), 8, 8),
]
PARTS_BY_HAND = [
    (B, 0, (6, 13)), (B, 1, (18, 27)), (B, 2, (31, 38)), (B, 3, (0, 0)),
    (SMALL, 0, (4, 5)), (SMALL, 1, (0, 0)), (changed(B, 58, 2), 0, (0, 0)),
]


def self_test(made, lines):
    """The results of all tests, as (name, passed)."""
    for data, number, place in BY_HAND:
        yield f'by hand: {number} at {place}', reference.read_book(data)[:2] == (number, place)
    for data, k, part in PARTS_BY_HAND:
        yield f'by hand: part {k} is {part}', reference.constraint_part(data, k) == part
    for name, data in made:
        _, _, book = reference.read_book(data)
        if book is not None:
            yield f'written as read: {name}', reference.write_book(book) == data
    numbers = [line.split()[0] for line in lines]
    for n in range(9):
        yield f'two cases or more give {n}', numbers.count(str(n)) >= 2


def main(words):
    made = cases()
    lines = [line_of(data) for _, data in made]
    stdin = b''.join(len(data).to_bytes(4, 'little') + data for _, data in made)
    stdout = ''.join(line + '\n' for line in lines).encode()
    if words == ['--list']:
        for i, ((name, data), line) in enumerate(zip(made, lines)):
            print(f'{i + 1}: {name} ({len(data)} bytes): {line}')
        return 0
    results = list(self_test(made, lines))
    results += stored.kept({'book_cases/stdin': stdin, 'book_cases/stdout': stdout}, words)
    print(f'{len(made)} cases, {len(stdin)} bytes')
    for n in range(9):
        print(f'  {sum(line.split()[0] == str(n) for line in lines)} give {n}')
    return stored.told(results)


if __name__ == '__main__':
    stored.run(main, __doc__)
