#!/usr/bin/env python3
"""Brings the definitions and lemmas of the crates to the spelling of Rattle's library.

Run once, at the top, right after the kit's own port.py. That script turns the spelling of the library's names and of some of the repository's own; this one
turns what it leaves: each definition, lemma, field and constructor of specs/ and proofs/ whose name has a capital inside (`placeWindow`) becomes snake case
(`place_window`), in every .antt file, in the clauses of the .rt files and in the must-fail edits. Functions of src/, exported names, strings, inputs and
outputs are not touched: none of them has a capital inside.

`--list` prints the names and what they become, and those that fall together with another name; nothing is written then.
"""
import collections
import pathlib
import re
import sys

# A name of antt ends at a space, a bracket or one of these signs.
TOKEN = re.compile(r"[^\s(){}\[\].,;:=`\"«»⌜⌝⟦⟧λ→@]+")
DECLARED = re.compile(r"\s*(?:(?:unfoldable|abbrev|pub|data|record|private|postulate)\s+)*([^\s:(){}=]+)\s*[:({]")
INSIDE = re.compile(r"(?<=[a-z0-9])(?=[A-Z])")

# Lemmas of one file whose name a definition that they speak of takes over; they are renamed first.
LOCAL = {
    "crates/book/specs/Numbers.antt": {"step_then": "step_then-holds"},
    "crates/encode/specs/Small.antt": {"body_bytes": "body_bytes-small"},
    "crates/forth/proofs/Laws.antt": {"low_rows": "rows_of-low_rows"},
}


# A word that is no name of its own is joined by an underscore.
PLAIN = {"none-such": "none_such"}

# Names that a `ghost use` line of a .rt file gives to a definition of another crate.
GIVEN = {"stateSize": "state_size", "bodyMet": "body_met", "checkList": "check_list", "afterStep": "after_step"}

# Labels that port.py gave to clauses and that say less than these words, or another thing: of every crate, and of some.
LABELS = {"book_value": "accepted", "le_len": "long_enough"}
LABELS_IN = {
    "state": {"h_in_bounds": "fits", "flags_in_bounds": "fits"},
    "forth": {"h_in_bounds": "fits", "flags_in_bounds": "fits", "list_in_bounds": "fits", "n_in_bounds": "fits"},
    "trace": {"size_in_bounds": "fits"},
    "model": {"h_bound": "few"},
}


def snake(name):
    """`placeWindow` is `place_window`; `eqVals-exact` is `eq_vals-exact`."""
    return INSIDE.sub("_", name).lower() if name[0].islower() else name


def logic_files():
    for path in sorted(pathlib.Path("crates").glob("*/specs/**/*.antt")):
        yield path
    for path in sorted(pathlib.Path("crates").glob("*/proofs/**/*.antt")):
        yield path


def declared_names():
    """Every name that some line of specs/ or proofs/ declares, with the files that do."""
    names = collections.defaultdict(set)
    for path in logic_files():
        for line in path.read_text().splitlines():
            found = DECLARED.match(line)
            if found and not line.strip().startswith("--"):
                names[found.group(1)].add(path)
    return names


def renamings(names):
    table = {**PLAIN, **GIVEN}
    for name in names:
        if name[0].islower() and INSIDE.search(name):
            table[name] = snake(name)
    return table


def collisions(table, names):
    """Pairs of an old name and the new one, where a file that has the old one has the new one too."""
    found = []
    olds = set(table)
    for path in all_files():
        tokens = set(TOKEN.findall(path.read_text()))
        for name in sorted(olds & tokens):
            if table[name] in tokens or any(o != name and table[o] == table[name] for o in olds & tokens):
                found.append((name, table[name], path))
    return found


def all_files():
    yield from logic_files()
    for pattern in ("*/src/**/*.rt", "*/must-fail/*.edit"):
        yield from sorted(pathlib.Path("crates").glob(pattern))


def respell(text, table):
    return TOKEN.sub(lambda found: table.get(found.group(0), found.group(0)), text)


def main():
    names = declared_names()
    table = renamings(names)
    if "--list" in sys.argv:
        for name in sorted(table):
            print(name, table[name])
        for name, new, path in collisions(table, names):
            print("falls together:", name, new, path)
        return
    changed = 0
    for path in all_files():
        old = path.read_text()
        new = respell(respell(old, LOCAL.get(str(path), {})), {**table, **LABELS, **LABELS_IN.get(path.parts[1], {})})
        if new != old:
            path.write_text(new)
            changed += 1
    print(f"{len(table)} names, {changed} files")


if __name__ == "__main__":
    main()
