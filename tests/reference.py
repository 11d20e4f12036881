"""A second implementation of the clause book, for comparison.

It is written from document 01 alone ("The clause book", "Numbers a caller gets
back") and shares nothing with the proved code. It favours plainness over speed.

A book in Python is plain data:

    {'lo': int, 'hi': int, 'arities': [int], 'query': int, 'clauses': [clause]}

a clause is

    {'variables': int, 'body': atom or None, 'head': atom, 'constraint': node}

an atom is (relation, [variable, ..]), and a node is one of

    ('true',)
    ('le', coefficients, constant)          sum <= 0
    ('eq', coefficients, constant)          sum = 0
    ('not', node)
    ('and', node, node)
    ('or', node, node)
    ('rem', coefficients, constant, d, r)   sum >= 0 and sum mod d = r
"""

SHORTEST, LONGEST = 16, 60000   # bytes of a book
TRAILER = 16                    # bytes of the trailer
MOST_CLAUSES = 64
MOST_RELATIONS = 16
MOST_ARITY = 8
MOST_VARIABLES = 16
MOST_NODES = 64
MOST_DEPTH = 16
NO_BODY = 255

KINDS = ['true', 'le', 'eq', 'not', 'and', 'or', 'rem']     # a kind's number is its index
CHILDREN = {'not': 1, 'and': 2, 'or': 2}


class Refused(Exception):
    """A refusal: its number and its place."""

    def __init__(self, number, place):
        super().__init__(number, place)
        self.number = number
        self.place = place


def number_at(data, at, size, signed=False):
    """The little-endian number in the `size` bytes at `at`."""
    return int.from_bytes(data[at:at + size], 'little', signed=signed)


class Reader:
    """Reads bytes from the front and refuses, with `short`, to read past `end`."""

    def __init__(self, data, at, end, short):
        self.data = data
        self.at = at
        self.end = end
        self.short = short      # the number of the refusal, whose place is `end`

    def number(self, size, signed=False):
        """The next number. It is tested whole, before anyone judges it."""
        if self.at + size > self.end:
            raise Refused(self.short, self.end)
        value = number_at(self.data, self.at, size, signed)
        self.at += size
        return value

    def byte(self):
        return self.number(1)


def read_trailer(data):
    """The trailer's fields. Any rule broken is 2 at the trailer's first byte."""
    at = len(data) - TRAILER
    t = {
        'lo': number_at(data, at, 4, signed=True),
        'hi': number_at(data, at + 4, 4, signed=True),
        'start': number_at(data, at + 8, 2),
        'clauses': number_at(data, at + 10, 2),
        'relations': data[at + 12],
        'query': data[at + 13],
    }
    rules = [
        t['lo'] <= t['hi'],
        t['start'] >= t['relations'],
        t['clauses'] <= MOST_CLAUSES,
        1 <= t['relations'] <= MOST_RELATIONS,
        t['query'] < t['relations'],
        data[at + 14] == 1,
        data[at + 15] == 0,
        t['start'] + 2 * t['clauses'] + TRAILER == len(data),
    ]
    if not all(rules):
        raise Refused(2, at)
    return t


def read_arities(data, relations, query):
    """One byte for each relation. They stand before the index: the trailer says so."""
    for r in range(relations):
        if data[r] > MOST_ARITY or (r == query and data[r] != 0):
            raise Refused(3, r)
    return list(data[:relations])


def read_arguments(reader, count, variables):
    arguments = []
    for _ in range(count):
        place = reader.at
        argument = reader.byte()
        if argument >= variables:
            raise Refused(6, place)
        arguments.append(argument)
    return arguments


def read_atom(reader, arities, variables, may_lack):
    """A relation and its arguments, or None for 255 where that is allowed."""
    place = reader.at
    relation = reader.byte()
    if may_lack and relation == NO_BODY:
        return None
    if relation >= len(arities):
        raise Refused(5, place)
    return (relation, read_arguments(reader, arities[relation], variables))


def read_constraint(reader, variables, fault):
    """A constraint, prefix first. `fault` is the number for a bad kind, d or r."""
    nodes = 0

    def read_node(depth):
        nonlocal nodes
        place = reader.at
        kind = reader.byte()
        nodes += 1
        if kind >= len(KINDS) or nodes > MOST_NODES or depth > MOST_DEPTH:
            raise Refused(fault, place)
        name = KINDS[kind]
        if name == 'true':
            return (name,)
        if name in CHILDREN:
            return (name, *[read_node(depth + 1) for _ in range(CHILDREN[name])])
        coefficients = [reader.number(2, signed=True) for _ in range(variables)]
        constant = reader.number(4, signed=True)
        if name != 'rem':
            return (name, coefficients, constant)
        place = reader.at
        d = reader.number(2)
        if d == 0:
            raise Refused(fault, place)
        place = reader.at
        r = reader.number(2)
        if r >= d:
            raise Refused(fault, place)
        return (name, coefficients, constant, d, r)

    return read_node(1)


def read_clause(reader, arities):
    """A clause record, and where its constraint starts and ends."""
    place = reader.at
    variables = reader.byte()
    if variables > MOST_VARIABLES:
        raise Refused(6, place)
    body = read_atom(reader, arities, variables, may_lack=True)
    head = read_atom(reader, arities, variables, may_lack=False)
    start = reader.at
    constraint = read_constraint(reader, variables, 7)
    clause = {'variables': variables, 'body': body, 'head': head, 'constraint': constraint}
    return clause, (start, reader.at)


def read_whole(data):
    """The book and the part of each clause's constraint, or Refused."""
    if not SHORTEST <= len(data) <= LONGEST:
        raise Refused(1, 0)
    trailer = read_trailer(data)
    index = trailer['start']
    arities = read_arities(data, trailer['relations'], trailer['query'])
    reader = Reader(data, len(arities), index, 8)
    clauses = []
    parts = []
    for k in range(trailer['clauses']):
        entry = index + 2 * k
        if number_at(data, entry, 2) != reader.at:
            raise Refused(4, entry)
        clause, part = read_clause(reader, arities)
        clauses.append(clause)
        parts.append(part)
    if reader.at != index:
        raise Refused(4, reader.at)
    book = {
        'lo': trailer['lo'],
        'hi': trailer['hi'],
        'arities': arities,
        'query': trailer['query'],
        'clauses': clauses,
    }
    return book, parts


def read_book(data):
    """(0, 0, book) for an accepted book, else (number, place, None)."""
    try:
        book, _ = read_whole(data)
    except Refused as refused:
        return (refused.number, refused.place, None)
    return (0, 0, book)


def constraint_parts(data):
    """(start, end) of each clause's constraint in the book; none for a refused book."""
    try:
        _, parts = read_whole(data)
    except Refused:
        return []
    return parts


def constraint_part(data, k):
    """(start, end) of clause k's constraint; (0, 0) for a refused book or an absent clause."""
    parts = constraint_parts(data)
    return parts[k] if k < len(parts) else (0, 0)


def write_node(node):
    name = node[0]
    data = bytes([KINDS.index(name)])
    if name in CHILDREN:
        return data + b''.join(write_node(child) for child in node[1:])
    if name == 'true':
        return data
    data += b''.join(c.to_bytes(2, 'little', signed=True) for c in node[1])
    data += node[2].to_bytes(4, 'little', signed=True)
    if name == 'rem':
        data += node[3].to_bytes(2, 'little') + node[4].to_bytes(2, 'little')
    return data


def write_atom(atom):
    return bytes([NO_BODY]) if atom is None else bytes([atom[0], *atom[1]])


def write_clause(clause):
    return (bytes([clause['variables']]) + write_atom(clause['body'])
            + write_atom(clause['head']) + write_node(clause['constraint']))


def write_book(book):
    """The bytes of a book. It judges nothing: a book past the limits is written all the same."""
    data = bytes(book['arities'])
    index = b''
    for clause in book['clauses']:
        index += len(data).to_bytes(2, 'little')
        data += write_clause(clause)
    trailer = book['lo'].to_bytes(4, 'little', signed=True)
    trailer += book['hi'].to_bytes(4, 'little', signed=True)
    trailer += len(data).to_bytes(2, 'little')
    trailer += len(book['clauses']).to_bytes(2, 'little')
    trailer += bytes([len(book['arities']), book['query'], 1, 0])
    return data + index + trailer
