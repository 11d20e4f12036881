"""Outside readers of the printed text: z3 and cvc5, the Debian packages `z3` and `cvc5`.

  apt-get install z3 cvc5
  python3 tests/outside.py

Both read the text of every accepted book of tests/text_cases.py without an error: each line as it
is, behind a line that sets the logic. On small windows both are asked which states `init` and
`prop` allow and which pairs of states `trans` allows, and their answers are held against an
enumeration from document 01's section "Instances, derivations, traces": each state by itself, each
pair that is a step by itself, and all other pairs from a state in the window together (for some
books these too by themselves).
"""
import itertools
import shutil
import subprocess
import sys
import tempfile
import time

sys.dont_write_bytecode = True
import model_cases
import models
import printer
import reference
import text_cases
from book_cases import AND, B, LEAST, MOST, NOT, OR, SMALL, TRUE
from book_cases import assemble, changed, eq, i32, le, record, rem

TOOLS = {'z3': ['z3', '-smt2'], 'cvc5': ['cvc5', '--lang=smt2', '--incremental']}
SECONDS = 300       # for one run of a tool
LOGIC = '(set-logic QF_LIA)\n'


# ---------------------------------------------------------------------------
# States and steps. A state is its flags and its places, a tuple for each relation.
# ---------------------------------------------------------------------------

def states(book, values):
    """Every state whose places have one of these values."""
    for flags in itertools.product([0, 1], repeat=len(book['arities'])):
        rows = [list(itertools.product(values, repeat=arity)) for arity in book['arities']]
        for places in itertools.product(*rows):
            yield flags, places


def window(book):
    return range(book['lo'], book['hi'] + 1)


def is_initial(book, state):
    flags, places = state
    return not any(flags) and all(v in window(book) for row in places for v in row)


def replaced(row, r, value):
    return row[:r] + (value,) + row[r + 1:]


def instances(book):
    """Body and head of every instance, each (relation, values); None for no body."""
    found = []
    for clause in book['clauses']:
        for values in itertools.product(window(book), repeat=clause['variables']):
            if models.holds(clause['constraint'], values):
                found.append(models.facts(clause, values))
    return found


def next_states(book, found, state):
    """The states that a step from this one leads to."""
    flags, places = state
    reached = set()
    for body, (head, values) in found:
        if body is None or (flags[body[0]] == 1 and list(places[body[0]]) == body[1]):
            reached.add((replaced(flags, head, 1), replaced(places, head, tuple(values))))
    return reached


# ---------------------------------------------------------------------------
# Questions
# ---------------------------------------------------------------------------

def described(state, suffix=''):
    """A formula that is true of this state alone."""
    flags, places = state
    items = ['and', 'true']
    for r, row in enumerate(places):
        items.append(printer.flag(r) + suffix if flags[r] else printer.form('not', printer.flag(r) + suffix))
        items += [printer.form('=', printer.place(r, i) + suffix, printer.number(v)) for i, v in enumerate(row)]
    return printer.form(*items)


def some(formulas):
    return printer.form('or', 'false', 'false', *formulas)


class Script:
    """A script for the tools: text after text, each with its questions and the answers due."""

    def __init__(self):
        self.lines = []
        self.due = []       # (name, answer)

    def text(self, book):
        self.lines += ['(reset)\n', LOGIC, printer.text(book).decode()]

    def ask(self, name, answer, *formulas):
        asserted = ''.join(f'(assert {formula})\n' for formula in formulas)
        self.lines.append(f'(push 1)\n{asserted}(check-sat)\n(pop 1)\n')
        self.due.append((name, answer))

    def run(self, tool):
        """The answers, and what the tool wrote beside them."""
        with tempfile.NamedTemporaryFile('w', suffix='.smt2') as file:
            file.write(''.join(self.lines[1:]) + '(exit)\n')
            file.flush()
            ended = subprocess.run(TOOLS[tool] + [file.name], capture_output=True, text=True, timeout=SECONDS)
        answers = ended.stdout.split('\n')
        complaints = [line for line in ended.stderr.split('\n') if line and 'attribute' not in line.lower()]
        if ended.returncode != 0:
            complaints.append(f'ended with {ended.returncode}')
        return answers[:-1], complaints


def read_alone(script, name, book):
    """The text is read, its three definitions are Bool, and an initial state has the property."""
    script.text(book)
    script.ask(f'read: {name}', 'sat', 'init', 'prop')
    script.lines.append('(push 1)\n(assert trans)\n(pop 1)\n')


def compare(script, name, book, each_pair):
    """The questions on a small book."""
    script.text(book)
    around = range(book['lo'] - 1, book['hi'] + 2)
    inside = list(states(book, window(book)))
    for state in states(book, around):
        script.ask(f'init: {name}', 'sat' if is_initial(book, state) else 'unsat', 'init', described(state))
    initial = [described(state) for state in inside if is_initial(book, state)]
    script.ask(f'init, no others: {name}', 'unsat', 'init', printer.form('not', some(initial)))
    for state in inside:
        script.ask(f'prop: {name}', 'unsat' if state[0][book['query']] else 'sat', 'prop', described(state))

    found = instances(book)
    pairs = []
    for state in inside:
        reached = next_states(book, found, state)
        for after in sorted(reached):
            script.ask(f'step: {name}', 'sat', 'trans', described(state), described(after, 'n'))
            pairs.append(printer.form('and', described(state), described(after, 'n')))
        if each_pair:
            for after in states(book, around):
                if after not in reached:
                    script.ask(f'no step: {name}', 'unsat', 'trans', described(state), described(after, 'n'))
    limits = [limit for r, arity in enumerate(book['arities']) for i in range(arity)
              for limit in printer.window(book, printer.place(r, i))]
    script.ask(f'no other steps: {name}', 'unsat', 'trans', *limits, printer.form('not', some(pairs)))


# ---------------------------------------------------------------------------
# Small books
# ---------------------------------------------------------------------------

def small_books():
    """(name, bytes, whether each pair is asked for by itself)."""
    yield 'the printed book', SMALL, True
    yield 'B', B, True
    yield 'B with hi = 2', changed(B, 48, 2), True
    yield 'B from -2 to 1', changed(B, 44, *i32(-2), *i32(1)), True
    yield 'no clauses', assemble([1, 0], [], hi=1), True
    yield 'head and body one', assemble([1, 0], [record(1, [0, 0], [0, 0], TRUE)], hi=1), True
    yield 'repeated variables', assemble([2, 1, 0], [record(1, [0, 0, 0], [1, 0], TRUE)], hi=1), False
    yield 'a variable twice in the head', assemble([2, 1, 0], [record(2, [1, 0], [0, 1, 1], TRUE)], hi=1), False
    yield 'no variables', assemble([1, 0], [record(0, [255], [1], TRUE)], hi=1), True
    yield 'never true', assemble([1, 0], [record(1, [255], [0, 0], NOT + TRUE)], hi=1), True
    yield 'the query as body', assemble([1, 0], [record(1, [1], [0, 0], TRUE)], hi=1), True
    yield 'three relations framed', assemble([1, 0, 1], [record(0, [255], [1], TRUE)], hi=1, query=1), False
    for lo in [LEAST, -3, -1, 0, 2, MOST - 2]:
        # The sum is on both sides of zero; every kind of node.
        c = 32767 if lo in (LEAST, MOST - 2) else 1
        nodes = {
            'le': le([1, -1], 1), 'eq': eq([2, -1], lo if lo > LEAST else 0), 'not le': NOT + le([c, 1 - c], 0),
            'rem': rem([1, 1], 0, 3, 2), 'rem below zero': rem([-1, 2], 1, 2, 1), 'rem large': rem([c, -c], 5, 65535, 5),
            'not rem': NOT + rem([-1, 0], 0, 2, 0), 'and': AND + le([1, 0], 0) + le([0, 1], 0),
            'or': OR + eq([1, 0], 1) + rem([0, -1], 7, 4, 3),
        }
        for name, node in nodes.items():
            book = assemble([1, 0], [record(2, [0, 0], [0, 1], node), record(1, [0, 0], [1], eq([1], 1))], lo=lo, hi=lo + 2)
            yield f'{name} from {lo}', book, lo in (-1, 0) and name in ('rem', 'not rem', 'or')
    dice = model_cases.Small(8)
    for i in range(60):
        book = dice.small_book()
        while len(list(states(book, window(book)))) > 60:
            book = dice.small_book()
        yield f'random book {i}', reference.write_book(book), False


# ---------------------------------------------------------------------------

def results(tool, script):
    """(name, passed) for every question, and one for what the tool wrote beside its answers."""
    answers, complaints = script.run(tool)
    for i, (name, due) in enumerate(script.due):
        yield f'{tool}: {name}', i < len(answers) and answers[i] == due
    extra = answers[len(script.due):] + complaints
    yield f'{tool}: nothing but answers: {extra[:3]}', not extra


def main():
    missing = [tool for tool in TOOLS if shutil.which(tool) is None]
    if missing:
        print(f'failed: not installed: {" ".join(missing)} (apt-get install {" ".join(missing)})')
        print(f'0 passed, {len(missing)} failed')
        return 1
    reading, asking = Script(), Script()
    count = 0
    for name, data in text_cases.books():
        book = reference.read_book(data)[2]
        if book is not None:
            read_alone(reading, name, book)
            count += 1
    small = 0
    for name, data, each_pair in small_books():
        compare(asking, name, reference.read_book(data)[2], each_pair)
        small += 1
    passed = failed = 0
    for tool in TOOLS:
        for what, script in [('texts read', reading), ('questions', asking)]:
            start = time.monotonic()
            for name, good in results(tool, script):
                if good:
                    passed += 1
                else:
                    failed += 1
                    if failed <= 20:
                        print('failed:', name)
            print(f'{tool}: {len(script.due)} {what} in {time.monotonic() - start:.1f} s')
    print(f'{count} texts, {small} books compared')
    print(f'{passed} passed, {failed} failed')
    return 1 if failed else 0


if __name__ == '__main__':
    if sys.argv[1:] not in ([], ['--check']):
        sys.exit(__doc__)
    sys.exit(main())
