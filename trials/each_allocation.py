#!/usr/bin/env python3
"""Refuses each allocation of `lotsim replay` in turn, and checks what the replay answers.

Each run has to end with the whole answer and status 0, or with `line K no memory` behind the answers to the lines
before line K, and status 3. A run takes some ten seconds, since each builds the program, without its proofs.

python3 trials/each_allocation.py [SCHEDULE], else crates/lotsim/stdin. The schedule has to be one without an error.
"""

import os
import re
import subprocess
import sys

CRATE = os.path.join(os.path.dirname(os.path.abspath(__file__)), "..", "crates", "lotsim")
NO_MEMORY = re.compile(r"line (\d+) no memory")
# A refusal that does no harm looks like one behind the last allocation, so a few more are tried.
BEYOND = 4


def replayed(schedule, refused):
    """What is printed, and the status, where this allocation is refused, or none."""
    flags = ["--fail-alloc", str(refused)] if refused else []
    done = subprocess.run(
        ["rt", "try", *flags, "--", "replay"], cwd=CRATE, input=schedule, capture_output=True, text=True
    )
    return done.stdout, done.returncode


def lines_told(lines):
    """How many lines answer these lines of a schedule."""
    locks = sum(line.startswith("lock ") for line in lines)
    told = 0
    for line in lines:
        if line == "show":
            told += locks
        elif not line.startswith(("threads ", "lock ")):
            told += 1
    return told


def is_right(schedule, whole, printed, status):
    if status == 0:
        return printed == whole
    *before, last = printed.splitlines() or [""]
    number = NO_MEMORY.fullmatch(last)
    if status != 3 or not number:
        return False
    answered = schedule.splitlines()[: max(int(number[1]) - 1, 0)]
    return before == whole.splitlines()[: lines_told(answered)]


def main():
    path = sys.argv[1] if len(sys.argv) > 1 else os.path.join(CRATE, "stdin")
    with open(path) as file:
        schedule = file.read()
    whole, status = replayed(schedule, 0)
    if status != 0:
        sys.exit(f"status {status} where nothing is refused")
    print("refused | status | last line | right", flush=True)
    wrong = untouched = refused = 0
    while untouched < BEYOND:
        refused += 1
        printed, status = replayed(schedule, refused)
        right = is_right(schedule, whole, printed, status)
        untouched = untouched + 1 if status == 0 else 0
        wrong += not right
        last = (printed.splitlines() or [""])[-1]
        print(f"{refused:7} | {status:6} | {last} | {'yes' if right else 'NO'}", flush=True)
    sys.exit(1 if wrong else 0)


if __name__ == "__main__":
    main()
