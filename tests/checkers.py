"""A second implementation of the two checks of lists and of the two conversions, for comparison.

It is written from document 01 alone ("Instances, derivations, traces", "Numbers a caller gets
back") and shares nothing with the proved code. It favours plainness over speed. Books are read
by tests/reference.py, and a book is the plain data that is told there.

A goal is a relation's number and a list of values, a fact is (relation, [value, ..]), and a
state is [flags, rows]: a flag for each relation, and for each a row of its places. Places of
refusals are positions in the list; a step's is the number where it begins.
"""
import reference
from reference import Refused

MOST_NUMBERS = 1000000      # of a list


# ---------------------------------------------------------------------------
# What a constraint and an atom say at given values
# ---------------------------------------------------------------------------

def total(coefficients, constant, values):
    return constant + sum(c * v for c, v in zip(coefficients, values))


def holds(node, values):
    """Whether the constraint is true of the values."""
    name = node[0]
    if name == 'true':
        return True
    if name == 'not':
        return not holds(node[1], values)
    if name == 'and':
        return holds(node[1], values) and holds(node[2], values)
    if name == 'or':
        return holds(node[1], values) or holds(node[2], values)
    s = total(node[1], node[2], values)
    if name == 'le':
        return s <= 0
    if name == 'eq':
        return s == 0
    assert name == 'rem'
    return s >= 0 and s % node[3] == node[4]


def fact_of(atom, values):
    relation, arguments = atom
    return (relation, [values[a] for a in arguments])


# ---------------------------------------------------------------------------
# The parts of a list
# ---------------------------------------------------------------------------

def read_question(data, numbers, relation, values):
    """The book, once book, goal and length of the list are right."""
    book, _ = reference.read_whole(data)
    if not 0 <= relation < len(book['arities']) or len(values) != book['arities'][relation]:
        raise Refused(10, 0)
    if not 1 <= len(numbers) <= MOST_NUMBERS:
        raise Refused(11, 0)
    return book


def inside(book, value):
    return book['lo'] <= value <= book['hi']


def read_instance(book, numbers, at, behind):
    """Clause and values of the step at `at`, which has `behind` numbers more after its values."""
    k = numbers[at]
    if not 0 <= k < len(book['clauses']):
        raise Refused(12, at)
    clause = book['clauses'][k]
    first, end = at + 1, at + 1 + clause['variables']
    if end + behind > len(numbers):
        raise Refused(13, at)
    values = numbers[first:end]
    for i, value in enumerate(values):
        if not inside(book, value):
            raise Refused(14, first + i)
    if not holds(clause['constraint'], values):
        raise Refused(15, at)
    return clause, values


def state_size(book):
    return len(book['arities']) + sum(book['arities'])


def state_numbers(state):
    """A state as a list: all flags, then all places in relation order."""
    flags, rows = state
    numbers = list(flags)
    for row in rows:
        numbers += row
    return numbers


def fresh_state(book, place):
    """No flag set, and all places the same."""
    return [[0] * len(book['arities']), [[place] * a for a in book['arities']]]


def read_first_state(book, numbers):
    if state_size(book) > len(numbers):
        raise Refused(13, 0)
    flags = numbers[:len(book['arities'])]
    for i, flag in enumerate(flags):
        if flag != 0:
            raise Refused(18, i)
    at = len(flags)
    rows = []
    for arity in book['arities']:
        row = numbers[at:at + arity]
        for i, place in enumerate(row):
            if not inside(book, place):
                raise Refused(14, at + i)
        rows.append(row)
        at += arity
    return [flags, rows]


def in_state(state, fact):
    """Whether the state has the fact: its flag is 1, and its places are the values."""
    flags, rows = state
    relation, values = fact
    return flags[relation] == 1 and rows[relation] == values


def put(state, fact):
    """The state afterwards: flag and places of the fact, and all else as before."""
    flags, rows = state
    relation, values = fact
    flags = flags[:relation] + [1] + flags[relation + 1:]
    rows = rows[:relation] + [values] + rows[relation + 1:]
    return [flags, rows]


# ---------------------------------------------------------------------------
# The two lists, walked. A step is (clause number, clause, values).
# ---------------------------------------------------------------------------

def walk_derivation(book, numbers, goal):
    """The steps of a derivation of the goal, or Refused."""
    steps = []
    last = None
    at = 0
    while at < len(numbers):
        clause, values = read_instance(book, numbers, at, 0)
        body = None if clause['body'] is None else fact_of(clause['body'], values)
        # At step one there is no fact before it, and no body may be asked; later one must be.
        if body != last:
            raise Refused(16, at)
        last = fact_of(clause['head'], values)
        steps.append((numbers[at], clause, values))
        at += 1 + clause['variables']
    if last != goal:
        raise Refused(17, len(numbers))
    return steps


def walk_trace(book, numbers, goal):
    """The steps of a trace that reaches the goal, or Refused."""
    steps = []
    state = read_first_state(book, numbers)
    size = state_size(book)
    at = size
    while at < len(numbers):
        clause, values = read_instance(book, numbers, at, size)
        if clause['body'] is not None and not in_state(state, fact_of(clause['body'], values)):
            raise Refused(16, at)
        state = put(state, fact_of(clause['head'], values))
        steps.append((numbers[at], clause, values))
        at += 1 + clause['variables']
        for due in state_numbers(state):
            if numbers[at] != due:
                raise Refused(19, at)
            at += 1
    if not in_state(state, goal):
        raise Refused(17, len(numbers))
    return steps


def derivation_numbers(steps):
    numbers = []
    for k, _, values in steps:
        numbers += [k, *values]
    return numbers


def trace_length(book, steps):
    size = state_size(book)
    return size + sum(1 + len(values) + size for _, _, values in steps)


def trace_numbers(book, steps):
    """The trace of these steps from the first state whose places are all lo."""
    state = fresh_state(book, book['lo'])
    numbers = state_numbers(state)
    for k, clause, values in steps:
        state = put(state, fact_of(clause['head'], values))
        numbers += [k, *values]
        numbers += state_numbers(state)
    return numbers


def last_writers(steps, relation):
    """The last step that wrote the relation, the last earlier one that wrote its body's, and so on; in order."""
    chain = []
    wanted = relation
    for step in reversed(steps):
        clause = step[1]
        if clause['head'][0] != wanted:
            continue
        chain.append(step)
        if clause['body'] is None:
            break
        wanted = clause['body'][0]
    chain.reverse()
    return chain


# ---------------------------------------------------------------------------
# The calls
# ---------------------------------------------------------------------------

def check_derivation(data, numbers, relation, values):
    """(0, 0) where the list is a derivation of the goal, else number and place of the refusal."""
    try:
        book = read_question(data, numbers, relation, values)
        walk_derivation(book, numbers, (relation, values))
    except Refused as refused:
        return (refused.number, refused.place)
    return (0, 0)


def check_trace(data, numbers, relation, values):
    """(0, 0) where the list is a trace that reaches the goal, else number and place of the refusal."""
    try:
        book = read_question(data, numbers, relation, values)
        walk_trace(book, numbers, (relation, values))
    except Refused as refused:
        return (refused.number, refused.place)
    return (0, 0)


def trace_due(data, numbers, relation, values):
    """(0, 0, the derivation's trace), or number and place of the refusal and None. No room is asked here."""
    try:
        book = read_question(data, numbers, relation, values)
        steps = walk_derivation(book, numbers, (relation, values))
        length = trace_length(book, steps)
        if length > MOST_NUMBERS:
            raise Refused(20, length)
    except Refused as refused:
        return (refused.number, refused.place, None)
    return (0, 0, trace_numbers(book, steps))


def derivation_due(data, numbers, relation, values):
    """(0, 0, the derivation in the trace), or number and place of the refusal and None. No room is asked here."""
    try:
        book = read_question(data, numbers, relation, values)
        steps = walk_trace(book, numbers, (relation, values))
    except Refused as refused:
        return (refused.number, refused.place, None)
    return (0, 0, derivation_numbers(last_writers(steps, relation)))


def written(due, room):
    """(0, length written, the room then), or number, place and the room as it was."""
    number, place, numbers = due
    if number != 0:
        return (number, place, room)
    if len(numbers) > len(room):
        return (9, len(numbers), room)
    return (0, len(numbers), numbers + room[len(numbers):])


def to_trace(data, numbers, relation, values, room):
    return written(trace_due(data, numbers, relation, values), room)


def to_derivation(data, numbers, relation, values, room):
    return written(derivation_due(data, numbers, relation, values), room)
