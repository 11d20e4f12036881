"""What the case scripts share: the stored files of a program are written or compared, and the results told."""
import sys
from pathlib import Path

CRATES = Path(__file__).resolve().parent.parent / 'crates'


def kept(files, words):
    """Writes files, by their names under crates/; with --check compares them instead, and gives a result for each."""
    for name, wanted in files.items():
        path = CRATES / name
        if words == ['--check']:
            yield f'crates/{name} is what is made', path.exists() and path.read_bytes() == wanted
        else:
            path.parent.mkdir(parents=True, exist_ok=True)
            path.write_bytes(wanted)


def told(results):
    """Prints what failed and 'N passed, M failed'; gives the exit status."""
    for name, passed in results:
        if not passed:
            print('failed:', name)
    failed = sum(not passed for _, passed in results)
    print(f'{len(results) - failed} passed, {failed} failed')
    return 1 if failed else 0


def run(main, doc):
    """Runs a script's main on its arguments: none, --check or --list."""
    if sys.argv[1:] not in ([], ['--check'], ['--list']):
        sys.exit(doc)
    sys.exit(main(sys.argv[1:]))
