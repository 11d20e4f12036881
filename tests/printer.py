"""A second implementation of the printed text, for comparison.

It is written from document 01 alone ("Printed text", "Numbers a caller gets back") and shares
nothing with the proved code. A book is the plain data of tests/reference.py. Brackets and spaces
are said once, in `form`; what stands inside them is a string already.
"""
import reference

SHORT_ROOM = 9      # the refusal where the room is shorter than the text


def form(*items):
    """An S-expression of these items: one space separates them."""
    return '(' + ' '.join(items) + ')'


def number(n):
    """Decimal, most significant digit first; below zero as (- 5)."""
    return form('-', str(-n)) if n < 0 else str(n)


# Names. A next name is the name with an n behind it.

def flag(r):
    return f'l{r}'


def place(r, i):
    return f'p{r}_{i}'


def variable(k, i):
    return f'y{k}_{i}'


def window(book, name):
    """The two window limits of a place or a variable."""
    return [form('<=', number(book['lo']), name), form('<=', name, number(book['hi']))]


def total(k, coefficients, constant):
    """The sum over clause k's variables, zero coefficients included."""
    products = [form('*', number(c), variable(k, i)) for i, c in enumerate(coefficients)]
    return form('+', '0', number(constant), *products)


def constraint(k, node):
    kind = node[0]
    if kind == 'true':
        return 'true'
    if kind in ('not', 'and', 'or'):
        return form(kind, *[constraint(k, child) for child in node[1:]])
    s = total(k, node[1], node[2])
    if kind == 'le':
        return form('<=', s, '0')
    if kind == 'eq':
        return form('=', s, '0')
    return form('and', form('<=', '0', s), form('=', form('mod', s, number(node[3])), number(node[4])))


def part(book, k):
    """The part of clause k in trans."""
    clause = book['clauses'][k]
    items = ['and', 'true']
    for i in range(clause['variables']):
        items += window(book, variable(k, i))
    items.append(constraint(k, clause['constraint']))
    if clause['body'] is not None:
        relation, arguments = clause['body']
        items.append(flag(relation))
        items += [form('=', place(relation, i), variable(k, a)) for i, a in enumerate(arguments)]
    head, arguments = clause['head']
    items.append(flag(head) + 'n')
    items += [form('=', place(head, i) + 'n', variable(k, a)) for i, a in enumerate(arguments)]
    for r, arity in enumerate(book['arities']):
        if r != head:
            for name in [flag(r), *[place(r, i) for i in range(arity)]]:
                items.append(form('=', name + 'n', name))
    return form(*items)


def declare(name, sort):
    return form('declare-fun', name, '()', sort)


def define(name, sort, value, attribute, mark):
    return form('define-fun', name, '()', sort, form('!', value, attribute, mark))


def state_variable(name, sort):
    """The three lines of a flag or a place."""
    return [declare(name, sort), declare(name + 'n', sort), define('s' + name, sort, name, ':next', name + 'n')]


def init(book):
    items = ['and', 'true', *[form('not', flag(r)) for r in range(len(book['arities']))]]
    for r, arity in enumerate(book['arities']):
        for i in range(arity):
            items += window(book, place(r, i))
    return form(*items)


def trans(book):
    return form('or', 'false', 'false', *[part(book, k) for k in range(len(book['clauses']))])


def text(book):
    """The whole text of a book, as bytes."""
    lines = []
    for r, arity in enumerate(book['arities']):
        lines += state_variable(flag(r), 'Bool')
        for i in range(arity):
            lines += state_variable(place(r, i), 'Int')
    for k, clause in enumerate(book['clauses']):
        lines += [declare(variable(k, i), 'Int') for i in range(clause['variables'])]
    lines.append(define('init', 'Bool', init(book), ':init', 'true'))
    lines.append(define('trans', 'Bool', trans(book), ':trans', 'true'))
    lines.append(define('prop', 'Bool', form('not', flag(book['query'])), ':invar-property', '0'))
    return ''.join(line + '\n' for line in lines).encode()


def print_book(data, room_size):
    """(number, place): 0 at the length written, or the refusal; then nothing is written."""
    refused, at, book = reference.read_book(data)
    if book is None:
        return (refused, at)
    needed = len(text(book))
    return (SHORT_ROOM, needed) if needed > room_size else (0, needed)
