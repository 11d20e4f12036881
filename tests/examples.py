"""The examples: that their files fit together, what the independent implementation says of them, and that z3 finds in the text that the
command prints what their pages say.

    python3 tests/examples.py          from the project's root, with the command built; ends in 'N passed, M failed'
"""
import re
import subprocess
import sys
from pathlib import Path

sys.dont_write_bytecode = True
import checkers
import models
import stored

ROOT = Path(__file__).resolve().parent.parent
EXAMPLES = ROOT / 'examples'
QUERY = {'remap/late': 2, 'remap/fixed': 2, 'counter': 1}   # the query relation, which has no places
STEPS = 7                                                   # the text is unrolled so far


# ---------------------------------------------------------------------------
# The files
# ---------------------------------------------------------------------------

def plain(name):
    """A file's text without its comments."""
    return re.sub(r'#.*', '', (EXAMPLES / name).read_text(encoding='utf-8'))


def data(name):
    return bytes.fromhex(re.sub(r'[\s|]', '', plain(name)))


def numbers(name):
    return [int(word) for word in plain(name).replace(',', ' ').split()]


def array(name):
    """The numbers of an array of the C example."""
    code = re.sub(r'/\*.*?\*/', '', (EXAMPLES / 'c/remap.c').read_text(encoding='utf-8'), flags=re.S)
    values = {'STRAY': QUERY['remap/late']}
    return [int(values.get(word, word)) for word in re.search(rf'\b{name}\[\] = {{(.*?)}};', code, re.S)[1].replace(',', ' ').split()]


def fitting():
    """What the files have in common."""
    late, fixed = data('remap/late.hex'), data('remap/fixed.hex')
    yield 'counter.hex is counter.book', data('counter.hex') == (EXAMPLES / 'counter.book').read_bytes()
    yield 'the repair is one byte', [a == b for a, b in zip(late, fixed)].count(False) == 1 and len(late) == len(fixed)
    yield 'the C example has the late book', bytes(array('late')) == late
    yield 'the C example has its derivation', array('astray') == numbers('remap/late.derivation')
    yield 'the C example has the model', bytes(array('equal')) == data('remap/fixed.model')


def judged():
    """What the implementation in Python says of them."""
    for name in ('remap/late', 'counter'):
        book, derivation, trace, goal = data(f'{name}.hex'), numbers(f'{name}.derivation'), numbers(f'{name}.trace'), (QUERY[name], [])
        yield f'{name}: derivation', checkers.check_derivation(book, derivation, *goal) == (0, 0)
        yield f'{name}: trace', checkers.check_trace(book, trace, *goal) == (0, 0)
        yield f'{name}: to trace', checkers.trace_due(book, derivation, *goal)[2] == trace
        yield f'{name}: to derivation', checkers.derivation_due(book, trace, *goal)[2] == derivation
    fixed = data('remap/fixed.hex')
    yield 'fixed: the model', models.check_model(fixed, data('remap/fixed.model'))[:3] == (0, 0, 116)
    yield 'fixed: the weak model', models.check_model(fixed, data('remap/fixed.weak.model'))[:4] == (25, 86, 86, 3)
    yield 'late: the model', models.check_model(data('remap/late.hex'), data('remap/fixed.model'))[:4] == (25, 6, 6, 1)
    yield 'counter: the model', models.check_model(data('counter.hex'), data('counter.model'))[:4] == (25, 24, 24, 2)


# ---------------------------------------------------------------------------
# The text, unrolled for z3
# ---------------------------------------------------------------------------

def read(text):
    """S-expressions as nested lists of words."""
    stack = [[]]
    for word in re.findall(r'[()]|[^\s()]+', text):
        if word == '(':
            stack.append([])
        elif word == ')':
            stack[-2].append(stack.pop())
        else:
            stack[-1].append(word)
    return stack[0]


def shown(term, names):
    if isinstance(term, str):
        return names.get(term, term)
    return '(' + ' '.join(shown(part, names) for part in term) + ')'


def unrolled(text, steps):
    """Whether the query can be met after so many steps, as a question to a solver."""
    items = read(text)
    sorts = {item[1]: item[3] for item in items if item[0] == 'declare-fun'}
    marked = {item[1]: item[4] for item in items if item[0] == 'define-fun'}        # each (! term :mark value)
    next_of = {mark[1]: mark[3] for mark in marked.values() if mark[2] == ':next'}
    inputs = sorts.keys() - next_of.keys() - set(next_of.values())
    script = ['(set-logic QF_LIA)']
    names = []
    for step in range(steps + 1):
        now = {name: f'{name}@{step}' for name in [*next_of, *inputs]}
        script += [f'(declare-fun {now[name]} () {sorts[name]})' for name in now]
        names.append({**now, **{after: f'{name}@{step + 1}' for name, after in next_of.items()}})
    claims = [shown(marked['init'][1], names[0]), *(shown(marked['trans'][1], names[k]) for k in range(steps))]
    claims.append(f"(not {shown(marked['prop'][1], names[steps])})")
    return '\n'.join([*script, *(f'(assert {claim})' for claim in claims), '(check-sat)', ''])


def met(text, steps):
    run = subprocess.run(['z3', '-smt2', '-in'], input=unrolled(text, steps).encode(), stdout=subprocess.PIPE, timeout=300)
    return run.stdout.decode().strip()


def reached():
    """From how many steps on z3 finds the query: after four in the late book, five in the counter, never in the fixed one."""
    for name, first in [('remap/late', 4), ('counter', 5), ('remap/fixed', STEPS + 1)]:
        run = subprocess.run([ROOT / 'ruahmitz', 'print', EXAMPLES / f'{name}.hex'], stdout=subprocess.PIPE, check=True)
        for steps in range(STEPS + 1):
            yield f'{name}: {steps} steps', met(run.stdout.decode(), steps) == ('sat' if steps >= first else 'unsat')


if __name__ == '__main__':
    sys.exit(stored.told([*fitting(), *judged(), *reached()]))
