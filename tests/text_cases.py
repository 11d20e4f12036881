"""The cases of the printed text, for the program crates/text_cases.

  python3 tests/text_cases.py           write crates/text_cases/stdin and stdout, and those of crates/vmt
  python3 tests/text_cases.py --check   write nothing; self-test the second printer, and compare the stored files
  python3 tests/text_cases.py --list    print each case: name, length of the book, expected line

stdin has each case as the size of the room and the length of the book (u32 each, little-endian)
and the book's bytes. Before the call byte i of the room is i mod 251. stdout has for each case a
line worked out by tests/printer.py alone: 'N at P' for number and place, then ' length:checksum'
for what was written and for the rest of the room. A text of at most 1,500 bytes follows as it is.

crates/vmt is run on book B. tests/vmt_cases.py runs it on the other books.
"""
import sys

sys.dont_write_bytecode = True
import book_cases
import printer
import reference
import stored
from book_cases import AND, B, LEAST, MOST, NOT, OR, SMALL, TRUE
from book_cases import Dice, assemble, balanced, changed, checksum, eq, le, record, rem, single

BUFFER = 65536          # the printing program's text buffer
LARGEST_ROOM = 100000   # of crates/text_cases
SHOWN = 1500            # a longer text is not printed


# ---------------------------------------------------------------------------
# The cases
# ---------------------------------------------------------------------------

def named():
    """Document 01's own."""
    yield 'the printed book', SMALL
    yield 'B', B
    yield 'B with hi = 2', changed(B, 48, 2)
    yield 'B, byte 58 = 2', changed(B, 58, 2)
    yield 'B, byte 0 = 9', changed(B, 0, 9)
    yield 'B, byte 40 = 14', changed(B, 40, 14)
    yield 'B, byte 5 = 1', changed(B, 5, 1)
    yield 'empty input', b''


def kinds():
    """Every kind of node, and the numbers in them."""
    leaves = {'true': TRUE, 'le': le([7], -8), 'eq': eq([-7], 8), 'rem': rem([3], 4, 5, 2)}
    for name, leaf in leaves.items():
        yield f'{name}', single(1, leaf)
        yield f'not {name}', single(1, NOT + leaf)
        for other, second in leaves.items():
            yield f'{name} and {other}', single(1, AND + leaf + second)
            yield f'{name} or {other}', single(1, OR + leaf + second)
    yield 'not not true', single(0, NOT + NOT + TRUE)
    yield 'not of an and', single(0, NOT + AND + TRUE + TRUE)
    yield 'and of an or, first', single(0, AND + OR + TRUE + TRUE + TRUE)
    yield 'and of an or, second', single(0, AND + TRUE + OR + TRUE + TRUE)
    yield 'or of an and, first', single(0, OR + AND + TRUE + TRUE + TRUE)
    yield 'or of an and, second', single(0, OR + TRUE + AND + TRUE + TRUE)
    every = AND + OR + NOT + le([1, -1], 2) + eq([-32768, 32767], LEAST) + AND + TRUE + rem([0, 5], MOST, 65535, 65534)
    yield 'every kind in one constraint', single(2, every)
    yield 'every kind, with places', assemble(
        [2, 1, 0], [record(2, [0, 0, 1], [1, 1], every), record(1, [1, 0], [2], NOT + rem([-1], -1, 1, 0))])
    for c in [0, 1, -1, 9, 10, -9, -10, 255, 256, 32767, -32767, -32768]:
        yield f'coefficient {c}', single(1, le([c], 0))
        yield f'coefficient {c} in a remainder', single(1, rem([c], 0, 2, 1))
    for d in [1, 2, 9, 10, 255, 256, 32767, 32768, 65535]:
        for r in sorted({0, d - 1, d // 2}):
            yield f'd = {d}, r = {r}', single(0, rem([], 0, d, r))
    yield 'zero coefficients', single(4, OR + le([0, 0, 0, 0], 0) + eq([0, 1, 0, -1], 0))
    for v in range(17):
        cs = [(-1) ** i * 1000 * i for i in range(v)]
        yield f'sums of {v}', single(v, OR + le(cs, 1) + OR + eq(cs, -1) + rem(cs, 0, 7, 6))
    for depth in [15, 16]:
        yield f'not, depth {depth}', single(0, NOT * (depth - 1) + TRUE)
        for right in [False, True]:
            side = 'right' if right else 'left'
            yield f'and to the {side}, depth {depth}', single(0, book_cases.leaning(AND, depth, TRUE, right))
            yield f'or to the {side}, depth {depth}', single(1, book_cases.leaning(OR, depth, rem([1], 2, 3, 0), right))
    yield '64 nodes', single(1, NOT + balanced([TRUE, le([1], 1), eq([2], 2), rem([3], 3, 3, 0)] * 8))
    yield '63 nodes', single(0, balanced([TRUE] * 32))


def digits():
    """Numbers on both sides of each power of ten and of two, as constants and as limits of the window."""
    powers = [10 ** n for n in range(10)] + [2 ** n for n in (7, 8, 15, 16, 24, 30)]
    numbers = {LEAST, LEAST + 1, 0, MOST, MOST - 1, 1234567890, 1020304050, 1000000001}
    for p in powers:
        numbers |= {p - 1, p, p + 1}
    numbers |= {-n for n in numbers if n > 0}
    for n in sorted(numbers):
        yield f'constant {n}', single(0, eq([], n))
        yield f'window {n} alone', assemble([1, 0], [record(1, [255], [0, 0], TRUE)], lo=n, hi=n)


def windows():
    ends = [LEAST, LEAST + 1, -10, -9, -1, 0, 1, 9, 10, MOST - 1, MOST]
    for lo in ends:
        for hi in ends:
            if lo <= hi:
                yield f'window {lo} {hi}', assemble([1, 0], [record(1, [255], [0, 0], TRUE)], lo=lo, hi=hi)
    yield 'window -5 -2, every place', changed(B, 44, *book_cases.i32(-5), *book_cases.i32(-2))


def shapes():
    """Relations, places, arguments, clauses."""
    yield 'no clauses', assemble([0], [])
    yield 'no clauses, places', assemble([2, 0, 1], [], query=1)
    yield 'no clauses, 16 relations', assemble([8] * 15 + [0], [])
    yield 'head and body one', assemble([0], [record(0, [0], [0], TRUE)])
    yield 'head and body one, with places', assemble([2, 0], [record(2, [0, 0, 1], [0, 0, 1], TRUE)])
    yield 'head and body one, turned', assemble([2, 0], [record(2, [0, 0, 1], [0, 1, 0], TRUE)])
    yield 'head and body of one relation', assemble([1, 0], [record(2, [0, 0], [0, 1], TRUE)])
    yield 'body after head', assemble([1, 1, 0], [record(2, [1, 0], [0, 1], TRUE)])
    yield 'body before head', assemble([1, 1, 0], [record(2, [0, 0], [1, 1], TRUE)])
    yield 'no body', assemble([1, 1, 0], [record(2, [255], [1, 1], TRUE)])
    yield 'the query as body', assemble([1, 0], [record(1, [1], [0, 0], TRUE)])
    yield 'the query as body and head', assemble([1, 0], [record(0, [1], [1], TRUE)])
    yield 'repeated variables', assemble([3, 2, 0], [record(2, [0, 1, 0, 1], [1, 1, 1], TRUE)])
    yield 'one variable in all places', assemble([8, 0], [record(1, [0] + [0] * 8, [0] + [0] * 8, TRUE)])
    yield 'unused variables', assemble([1, 0], [record(5, [255], [0, 4], TRUE)])
    yield 'variables only in the constraint', assemble([1, 0], [record(3, [0, 0], [1], le([1, 2, 3], 4))])
    for a in range(9):
        arguments = list(range(a))
        yield f'arity {a}', assemble([a, 0], [record(8, [0, *arguments], [0, *reversed(arguments)], TRUE)])
        yield f'arity {a} framed', assemble([a, 0], [record(0, [255], [1], TRUE)])
    for v in [0, 1, 2, 9, 10, 11, 15, 16]:
        yield f'{v} variables', single(v, TRUE)
        if v > 0:
            yield f'{v} variables, the last as argument', assemble([1, 0], [record(v, [0, v - 1], [0, v - 1], TRUE)])
    for q in range(16):
        # Each relation as the query, as the head and as the body; names of one and of two digits.
        arities = [(r * 3 + q) % 9 for r in range(16)]
        arities[q] = 0
        other = (q + 7) % 16
        one = record(16, [255], [other, *range(arities[other])], TRUE)
        two = record(16, [other, *range(15, 15 - arities[other], -1)], [q], TRUE)
        yield f'16 relations, query {q}', assemble(arities, [one, two], query=q)
    for q in range(3):
        for body in [255, 0, 1, 2]:
            for head in range(3):
                arities = [1, 1, 1]
                arities[q] = 0
                atoms = [[r, *[0] * arities[r]] if r < 3 else [r] for r in (body, head)]
                yield f'3 relations, query {q}, body {body}, head {head}', assemble(
                    arities, [record(1, *atoms, TRUE)], query=q)
    plain = record(0, [255], [0], TRUE)
    for n in [1, 2, 9, 10, 11, 63, 64]:
        yield f'{n} clauses', assemble([0], [plain] * n)
        yield f'{n} clauses with variables', assemble([2, 0], [record(2, [0, 0, 1], [0, 1, 1], TRUE)] * n)
    whole = [record(16, [r, *range(8)], [(r + 1) % 15, *range(8, 16)], TRUE) for r in range(3)]
    yield '16 relations of arity 8', assemble([8] * 15 + [0], whole, lo=LEAST, hi=MOST)


def of_length(length):
    """A book whose text has that many bytes: the constants get as many digits as it takes."""

    def made(constants):
        records = []
        for k in range(0, len(constants), 30):
            leaves = [le([1, -1], c) for c in constants[k:k + 30]]
            records.append(record(2, [0, 0, 1], [0, 1, 0], balanced(leaves)))
        return assemble([2, 0], records, lo=LEAST, hi=MOST)

    def text_length(constants):
        return len(printer.text(reference.read_book(made(constants))[2]))

    constants = [1]
    while text_length([1] * (len(constants) + 30)) < length:
        constants += [1] * 30
    lacking = length - text_length(constants)
    for i in range(len(constants)):
        more = min(9, lacking)
        constants[i] = 10 ** more
        lacking -= more
    book = made(constants)
    assert text_length(constants) == length
    return book


def lengths():
    """Texts as long as the printing program's buffer, or nearly."""
    for n in [BUFFER - 1, BUFFER, BUFFER + 1, LARGEST_ROOM]:
        yield f'text of {n} bytes', of_length(n)
    yield '60000 bytes', book_cases.padded(60000)
    yield '60001 bytes, else right', book_cases.padded(60001)


def refused():
    """Some of the reader's cases for each of its refusals."""
    by_number = {}
    for name, data in book_cases.cases():
        number, _, book = reference.read_book(data)
        if book is None and len(data) < 1000:
            by_number.setdefault(number, []).append((name, data))
    for number in sorted(by_number):
        found = by_number[number]
        yield from found[::max(1, len(found) // 16)]


def shuffled():
    """Random books."""
    dice = Dice(6)
    sizes = [(2, 1, 2, 4), (3, 3, 4, 8), (16, 2, 16, 3), (4, 20, 3, 3), (2, 2, 1, 64), (3, 3, 2, 5)]
    for i in range(240):
        book = dice.book(*sizes[i % 6])
        if i % 3 == 0:
            book['lo'], book['hi'] = sorted([dice.below(40) - 20, dice.below(40) - 20])
        yield f'random book {i}', reference.write_book(book)


def books():
    """Every book once, in order: (name, bytes)."""
    made = []
    seen = set()
    for part in [named, kinds, digits, windows, shapes, lengths, refused, shuffled]:
        for name, data in part():
            if data not in seen:
                seen.add(data)
                made.append((name, data))
    return made


def rooms(data, number, needed, turn):
    """The rooms that a book is tried with: one, or several at every fifth turn."""
    if number not in (0, 9):
        return [50]
    if number == 9:
        return [BUFFER, LARGEST_ROOM]
    if data == SMALL:
        return [*range(needed + 3), BUFFER]
    if needed > 5000:
        return [BUFFER, needed - 1, needed, min(needed + 40, LARGEST_ROOM)]
    if data == B or turn % 5 == 0:
        return [0, 1, needed // 2, needed - 1, needed, needed + 1, needed + 40]
    return [needed + 40]


def cases(made):
    """Every case, in order: (name, bytes, room)."""
    for turn, (name, data) in enumerate(made):
        number, needed = printer.print_book(data, LARGEST_ROOM)
        for room in dict.fromkeys(rooms(data, number, needed, turn)):
            yield f'{name}, room {room}', data, room
    yield 'empty input, room 0', b'', 0
    yield 'B, byte 58 = 2, room 0', changed(B, 58, 2), 0
    yield f'B, room {BUFFER}', B, BUFFER


# ---------------------------------------------------------------------------
# What is written, and the self-test
# ---------------------------------------------------------------------------

FILLED = bytes(i % 251 for i in range(LARGEST_ROOM))


def output_of(data, room):
    """What is due for a case: its line, and the text if it is short."""
    number, place = printer.print_book(data, room)
    written = printer.text(reference.read_book(data)[2]) if number == 0 else b''
    rest = FILLED[len(written):room]
    line = f'{number} at {place} {len(written)}:{checksum(written)} {len(rest)}:{checksum(rest)}\n'
    return line.encode() + (written if len(written) <= SHOWN else b'')


# Worked out by hand from document 01. The first is its own example, whole.
SMALL_TEXT = """\
(declare-fun l0 () Bool)
(declare-fun l0n () Bool)
(define-fun sl0 () Bool (! l0 :next l0n))
(define-fun init () Bool (! (and true (not l0)) :init true))
(define-fun trans () Bool (! (or false false (and true true l0n)) :trans true))
(define-fun prop () Bool (! (not l0) :invar-property 0))
"""
PART_0_OF_B = ('(and true (<= 0 y0_0) (<= y0_0 3) (= (+ 0 0 (* 1 y0_0)) 0)'
               ' l0n (= p0_0n y0_0) (= l1n l1))')
B_TEXT = """\
(declare-fun l0 () Bool)
(declare-fun l0n () Bool)
(define-fun sl0 () Bool (! l0 :next l0n))
(declare-fun p0_0 () Int)
(declare-fun p0_0n () Int)
(define-fun sp0_0 () Int (! p0_0 :next p0_0n))
(declare-fun l1 () Bool)
(declare-fun l1n () Bool)
(define-fun sl1 () Bool (! l1 :next l1n))
(declare-fun y0_0 () Int)
(declare-fun y1_0 () Int)
(declare-fun y1_1 () Int)
(declare-fun y2_0 () Int)
(define-fun init () Bool (! (and true (not l0) (not l1) (<= 0 p0_0) (<= p0_0 3)) :init true))
(define-fun trans () Bool (! (or false false \
""" + PART_0_OF_B + """ \
(and true (<= 0 y1_0) (<= y1_0 3) (<= 0 y1_1) (<= y1_1 3) (= (+ 0 1 (* 1 y1_0) (* (- 1) y1_1)) 0) \
l0 (= p0_0 y1_0) l0n (= p0_0n y1_1) (= l1n l1)) \
(and true (<= 0 y2_0) (<= y2_0 3) (= (+ 0 (- 3) (* 1 y2_0)) 0) \
l0 (= p0_0 y2_0) l1n (= l0n l0) (= p0_0n p0_0))) :trans true))
(define-fun prop () Bool (! (not l1) :invar-property 0))
"""
# The query in the middle; repeated variables; window -2..5; all of true, not, and, or and the three sums.
MIXED = assemble([2, 0, 1], [
    record(2, [2, 1], [0, 1, 1], AND + NOT + TRUE + OR + le([-7, 0], LEAST) + rem([1, -32768], -6, 9, 8)),
    record(0, [255], [1], eq([], 10)),
], lo=-2, hi=5, query=1)
MIXED_TEXT = """\
(declare-fun l0 () Bool)
(declare-fun l0n () Bool)
(define-fun sl0 () Bool (! l0 :next l0n))
(declare-fun p0_0 () Int)
(declare-fun p0_0n () Int)
(define-fun sp0_0 () Int (! p0_0 :next p0_0n))
(declare-fun p0_1 () Int)
(declare-fun p0_1n () Int)
(define-fun sp0_1 () Int (! p0_1 :next p0_1n))
(declare-fun l1 () Bool)
(declare-fun l1n () Bool)
(define-fun sl1 () Bool (! l1 :next l1n))
(declare-fun l2 () Bool)
(declare-fun l2n () Bool)
(define-fun sl2 () Bool (! l2 :next l2n))
(declare-fun p2_0 () Int)
(declare-fun p2_0n () Int)
(define-fun sp2_0 () Int (! p2_0 :next p2_0n))
(declare-fun y0_0 () Int)
(declare-fun y0_1 () Int)
(define-fun init () Bool (! (and true (not l0) (not l1) (not l2) (<= (- 2) p0_0) (<= p0_0 5) \
(<= (- 2) p0_1) (<= p0_1 5) (<= (- 2) p2_0) (<= p2_0 5)) :init true))
(define-fun trans () Bool (! (or false false \
(and true (<= (- 2) y0_0) (<= y0_0 5) (<= (- 2) y0_1) (<= y0_1 5) \
(and (not true) (or (<= (+ 0 (- 2147483648) (* (- 7) y0_0) (* 0 y0_1)) 0) \
(and (<= 0 (+ 0 (- 6) (* 1 y0_0) (* (- 32768) y0_1))) \
(= (mod (+ 0 (- 6) (* 1 y0_0) (* (- 32768) y0_1)) 9) 8)))) \
l2 (= p2_0 y0_1) l0n (= p0_0n y0_1) (= p0_1n y0_1) (= l1n l1) (= l2n l2) (= p2_0n p2_0)) \
(and true (= (+ 0 10) 0) l1n (= l0n l0) (= p0_0n p0_0) (= p0_1n p0_1) (= l2n l2) (= p2_0n p2_0))) :trans true))
(define-fun prop () Bool (! (not l1) :invar-property 0))
"""
EMPTY = assemble([0], [], lo=-1, hi=-1)
EMPTY_TEXT = """\
(declare-fun l0 () Bool)
(declare-fun l0n () Bool)
(define-fun sl0 () Bool (! l0 :next l0n))
(define-fun init () Bool (! (and true (not l0)) :init true))
(define-fun trans () Bool (! (or false false) :trans true))
(define-fun prop () Bool (! (not l0) :invar-property 0))
"""
BY_HAND = [('the printed book', SMALL, SMALL_TEXT), ('B', B, B_TEXT), ('mixed', MIXED, MIXED_TEXT),
           ('no clauses', EMPTY, EMPTY_TEXT)]


def parsed(text):
    """The S-expressions of a text, read without the printer: an atom is a string, a form a list."""
    stack = [[]]
    for word in text.replace('(', ' ( ').replace(')', ' ) ').split():
        if word == '(':
            stack.append([])
        elif word == ')':
            closed = stack.pop()
            stack[-1].append(closed)
        else:
            stack[-1].append(word)
    assert len(stack) == 1
    return stack[0]


def rendered(expression):
    if isinstance(expression, str):
        return expression
    return '(' + ' '.join(map(rendered, expression)) + ')'


def lines_due(book):
    """How many lines the text of a book has."""
    states = len(book['arities']) + sum(book['arities'])
    return 3 * states + sum(clause['variables'] for clause in book['clauses']) + 3


def self_test(made, listed):
    """The results of all tests, as (name, passed)."""
    for name, data, text in BY_HAND:
        book = reference.read_book(data)[2]
        yield f'by hand: {name}', printer.text(book).decode() == text
        yield f'by hand: {name}, its room', printer.print_book(data, len(text)) == (0, len(text))
        yield f'by hand: {name}, a room too short', printer.print_book(data, len(text) - 1) == (9, len(text))
    yield 'by hand: part 0 of B', printer.part(reference.read_book(B)[2], 0) == PART_0_OF_B
    for n, shown in [(0, '0'), (7, '7'), (10, '10'), (-5, '(- 5)'), (MOST, '2147483647'), (LEAST, '(- 2147483648)')]:
        yield f'by hand: {shown}', printer.number(n) == shown
    accepted = 0
    for name, data in made:
        _, _, book = reference.read_book(data)
        if book is None:
            continue
        accepted += 1
        text = printer.text(book).decode()
        read = parsed(text)
        yield f'one expression a line: {name}', ''.join(rendered(e) + '\n' for e in read) == text
        yield f'lines: {name}', len(read) == lines_due(book)
    yield '300 accepted books or more', accepted >= 300
    numbers = [printer.print_book(data, room)[0] for _, data, room in listed]
    for n in range(10):
        yield f'ten cases or more give {n}', numbers.count(n) >= (10 if n != 1 else 5)
    for n in [BUFFER - 1, BUFFER, BUFFER + 1]:
        for room in [n - 1, n]:
            found = (0 if room >= n else 9, n) in [
                printer.print_book(data, room) for name, data in made if name == f'text of {n} bytes']
            yield f'text of {n} bytes in a room of {room}', found


def main(words):
    made = books()
    listed = list(cases(made))
    outputs = [output_of(data, room) for _, data, room in listed]
    if words == ['--list']:
        for (name, data, _), output in zip(listed, outputs):
            print(f'{name} ({len(data)} bytes): {output.split(bytes([10]))[0].decode()}')
        return 0
    results = list(self_test(made, listed))
    files = {
        'text_cases/stdin': b''.join(
            room.to_bytes(4, 'little') + len(data).to_bytes(4, 'little') + data for _, data, room in listed),
        'text_cases/stdout': b''.join(outputs),
        'vmt/stdin': B,
        'vmt/stdout': B_TEXT.encode(),
    }
    results += stored.kept(files, words)
    print(f'{len(made)} books, {len(listed)} cases, {len(files["text_cases/stdin"])} bytes in, {len(files["text_cases/stdout"])} out')
    for n in range(10):
        print(f'  {sum(output.startswith(b"%d at " % n) for output in outputs)} give {n}')
    return stored.told(results)


if __name__ == '__main__':
    stored.run(main, __doc__)
