"""Runs the printing program on every book of tests/text_cases.py, and on inputs that are too long.

  tools/build vmt && python3 tests/vmt_cases.py

What the program must write is worked out by tests/printer.py alone: the text, or one line
'refused N at P'. The program is target/bin/vmt, which `tools/build vmt` leaves there.
"""
import pathlib
import subprocess
import sys

sys.dont_write_bytecode = True
import printer
import reference
import text_cases

PROGRAM = pathlib.Path(__file__).resolve().parent.parent / 'target' / 'bin' / 'vmt'


def written(data):
    """What the program must write for an input."""
    number, place = printer.print_book(data, text_cases.BUFFER)
    if number == 0:
        return printer.text(reference.read_book(data)[2])
    return f'refused {number} at {place}\n'.encode()


def inputs():
    yield from text_cases.books()
    for n in [15, 16, 59999, 60000, 60001, 60002, 65535, 65536, 65537, 1000000]:
        yield f'{n} zeros', bytes(n)
    for n in [60000, 65536]:
        # The first or the last bytes are a book; the whole is none.
        yield f'B, then {n} zeros', text_cases.B + bytes(n)
        yield f'{n} zeros, then B', bytes(n) + text_cases.B


def main():
    if not PROGRAM.exists():
        print(f'failed: there is no {PROGRAM}: run tools/build vmt')
        print('0 passed, 1 failed')
        return 1
    passed = failed = 0
    for name, data in inputs():
        ended = subprocess.run([PROGRAM], input=data, stdout=subprocess.PIPE, timeout=60)
        if ended.returncode == 0 and ended.stdout == written(data):
            passed += 1
        else:
            failed += 1
            print(f'failed: {name}: {ended.stdout[:80]}')
    print(f'{passed} passed, {failed} failed')
    return 1 if failed else 0


if __name__ == '__main__':
    if sys.argv[1:] not in ([], ['--check']):
        sys.exit(__doc__)
    sys.exit(main())
