"""A second implementation of the model check, for comparison.

It is written from document 01 alone ("Models", "Numbers a caller gets back") and shares nothing
with the proved code. A book is the plain data of tests/reference.py.
"""
import itertools

import reference

MOST_ASSIGNMENTS = 1000000
SLOTS = 16      # of values in a reply


def holds(node, values):
    """Whether a constraint is true of these values of its variables."""
    kind = node[0]
    if kind == 'true':
        return True
    if kind == 'not':
        return not holds(node[1], values)
    if kind == 'and':
        return holds(node[1], values) and holds(node[2], values)
    if kind == 'or':
        return holds(node[1], values) or holds(node[2], values)
    total = node[2] + sum(c * v for c, v in zip(node[1], values, strict=True))
    if kind == 'le':
        return total <= 0
    if kind == 'eq':
        return total == 0
    return total >= 0 and total % node[3] == node[4]


def expression(node, names):
    """The same as Python's source, for these names of the variables: a million of them take a while."""
    kind = node[0]
    if kind == 'true':
        return 'True'
    if kind == 'not':
        return f'(not {expression(node[1], names)})'
    if kind in ('and', 'or'):
        return f'({expression(node[1], names)} {kind} {expression(node[2], names)})'
    total = ' + '.join([f'({node[2]})', *[f'({c}) * {name}' for c, name in zip(node[1], names, strict=True) if c != 0]])
    if kind == 'le':
        return f'({total} <= 0)'
    if kind == 'eq':
        return f'({total} == 0)'
    return f'({total} >= 0 and ({total}) % {node[3]} == {node[4]})'


def facts(clause, values):
    """Body and head of a clause at these values of its variables: (relation, values), or None for no body."""
    body, head = clause['body'], clause['head']
    return (None if body is None else (body[0], [values[a] for a in body[1]]),
            (head[0], [values[a] for a in head[1]]))


def breaks(clause, model, values):
    """Whether the assignment is an instance whose body is in the model and whose head is not."""
    if not holds(clause['constraint'], values):
        return False
    body, head = facts(clause, values)
    if body is not None and not holds(model[body[0]], body[1]):
        return False
    return not holds(model[head[0]], head[1])


def broken(clause, model):
    """`breaks` as a function of the values alone."""
    names = [f'v[{i}]' for i in range(clause['variables'])]
    body, head = clause['body'], clause['head']
    tests = [expression(clause['constraint'], names)]
    if body is not None:
        tests.append(expression(model[body[0]], [names[a] for a in body[1]]))
    tests.append('not ' + expression(model[head[0]], [names[a] for a in head[1]]))
    return eval('lambda v: ' + ' and '.join(tests))


def read_model(book, data):
    """The constraints, and where the query's starts; or Refused."""
    reader = reference.Reader(data, 0, len(data), 22)
    model = []
    start = 0
    for r, arity in enumerate(book['arities']):
        if r == book['query']:
            start = reader.at
        model.append(reference.read_constraint(reader, arity, 21))
    if reader.at != len(data):
        raise reference.Refused(22, reader.at)
    return model, start


def assignments(book):
    """How many assignments all clauses together have."""
    width = book['hi'] - book['lo'] + 1
    return sum(width ** clause['variables'] for clause in book['clauses'])


def reply(number, place, count=0, clause=0, values=()):
    return (number, place, count, clause, [*values, *[0] * (SLOTS - len(values))])


def check_model(data, model_data):
    """(number, place, count, clause, values) for a book and a model, both as bytes."""
    number, place, book = reference.read_book(data)
    if book is None:
        return reply(number, place)
    try:
        model, start = read_model(book, model_data)
    except reference.Refused as refused:
        return reply(refused.number, refused.place)
    if holds(model[book['query']], []):
        return reply(23, start)
    if assignments(book) > MOST_ASSIGNMENTS:
        return reply(24, 0)
    window = range(book['lo'], book['hi'] + 1)
    count = 0
    for k, clause in enumerate(book['clauses']):
        test = broken(clause, model)
        for values in itertools.product(window, repeat=clause['variables']):
            count += 1
            if test(values):
                return reply(25, count, count, k, values)
    return reply(0, 0, count)
