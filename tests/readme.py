"""Runs every command that the project's pages show, and compares what it prints.

A page's commands stand in blocks that open with ```console: a line `$ COMMAND`, then the lines that it prints, errors among them. A line `...`
stands for any number of lines. `$ bash .ci/run` is passed over: it is the gate, which runs this.

    python3 tests/readme.py            from the project's root; ends in 'N passed, M failed'
"""
import re
import subprocess
import sys
from pathlib import Path

sys.dont_write_bytecode = True
import stored

ROOT = Path(__file__).resolve().parent.parent
PAGES = ["README.md", "examples/README.md"]
GATE = "bash .ci/run"


def shown(page):
    """The commands of a page, each with the lines that it is to print."""
    commands = []
    inside = False
    for line in (ROOT / page).read_text(encoding="utf-8").split("\n"):
        if line.startswith("```"):
            inside = line == "```console"
        elif inside and line.startswith("$ "):
            commands.append((line[2:], []))
        elif inside and commands:
            commands[-1][1].append(line)
    return commands


def pattern(lines):
    """What the output must be, as a regular expression."""
    return "".join(r"(?:.*\n)*?" if line == "..." else re.escape(line) + r"\n" for line in lines)


def judged(page, command, lines):
    run = subprocess.run(["bash", "-c", command], cwd=ROOT, stdout=subprocess.PIPE, stderr=subprocess.STDOUT, timeout=900)
    got = run.stdout.decode("utf-8", "replace")
    if re.fullmatch(pattern(lines), got):
        return True
    print(f"{page}: $ {command}\n  shown:\n" + "\n".join(lines) + f"\n  printed (exit {run.returncode}):\n{got[:3000]}")
    return False


def results():
    for page in PAGES:
        commands = [(c, lines) for c, lines in shown(page) if c != GATE]
        if not commands:
            yield f'{page}: no command in it', False
        for command, lines in commands:
            yield f'{page}: $ {command}', judged(page, command, lines)


if __name__ == "__main__":
    sys.exit(stored.told(list(results())))
