#!/usr/bin/env python3
"""Writes docs/STEPS.md, the step tables, from the heads of the files that have them. With --check it writes nothing, and
ends with status 1 where the page is another. Run it at the top of the repository."""
import pathlib
import sys

STEPS = pathlib.Path("docs/STEPS.md")
HEAD = """# The step tables

What a thread does at each place of each call, and where it goes from there, for each sort of lock. Real threads and
the simulated world take these steps. `python3 tools/steps.py` writes this page from the heads of the files.
A failed exchange goes on with the value that it saw. [DEFINITIONS.md](DEFINITIONS.md) has the words of the locks.
"""


def steps():
    """Returns the page of step tables: the head of each file of a crate of steps that has a table."""
    lines = HEAD.rstrip("\n").split("\n")
    for path in sorted(pathlib.Path("crates").glob("steps_*/src/*.rt")):
        head = [line[3:].strip() for line in path.read_text().split("\n") if line.startswith("//!")]
        if any(line.startswith("|---") for line in head):
            lines += ["", f"## {path.parent.parent.name}: {path.stem}", ""] + head
    return "\n".join(lines) + "\n"


def main():
    text = steps()
    if sys.argv[1:] != ["--check"]:
        STEPS.write_text(text)
    elif STEPS.read_text() != text:
        print(f"{STEPS} is not what its sources say: run python3 tools/steps.py")
        return 1
    return 0


if __name__ == "__main__":
    sys.exit(main())
