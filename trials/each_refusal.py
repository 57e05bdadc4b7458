#!/usr/bin/env python3
"""Refuses each request for memory in turn, of `lotbench`, of `lotexplore` and of the tests that expect refusals.

`lotbench lot 2` makes a lot for two threads, and `lotbench mutex 1 1` a lot with locks of every sort. Such a run has to end
with its text and status 0, with the message for no memory and status 3, or, where its arguments had no room, with status 4.
`lotexplore` searches its stored program. It has to find what it finds otherwise, to say that memory was refused, with
status 3, for the schedule alone with status 1, or for the arguments with status 2, or to end with status 4.
The tests are the modules `refusals` of `test_drain` and `test_mutexes`: whatever is refused, they see the fault, find
nothing lost, and pass.

The programs that `rt ci` has built are run, with a small library before the C library's: it needs cc.

python3 trials/each_refusal.py
"""

import os
import re
import subprocess
import sys
import tempfile

HERE = os.path.dirname(os.path.abspath(__file__))
CRATES = os.path.join(HERE, "..", "crates")
LOTBENCH = os.path.join(CRATES, "lotbench", "out", "lotbench")
LOTEXPLORE = os.path.join(CRATES, "lotexplore", "out", "lotexplore")
NO_ROOM = re.compile(
    r"no memory\n|nothing found in \d+ states, complete to depth \d+, grain (?:call|turns); memory was refused\n", re.ASCII
)
NO_SCHEDULE = re.compile(r"wrong after \d+ turns; no memory for the schedule\n", re.ASCII)
NO_ARGUMENTS = "error: out of memory\n"
NO_WAITS = "no memory to tell what the threads wait for\n"
RUNS = [["lot", "2"], ["mutex", "1", "1"]]
MESSAGE = "lotbench: no memory, or no thread could be started\n"
TESTS = ["test_drain", "test_mutexes"]
MODULE = "tests::refusals::"
# A run without a refusal takes some milliseconds.
SECONDS = 60


def run(command, library="", refused=0, told="", text=None):
    """The text, the message and the status of a run in which this request is refused, or none."""
    extra = {"LD_PRELOAD": library, "REFUSED": str(refused), "REFUSED_TOLD": told}
    env = {**os.environ, **extra}
    done = subprocess.run(command, env=env, input=text, capture_output=True, text=True, timeout=SECONDS)
    return done.stdout, done.stderr, done.returncode


def without_times(printed):
    words = printed.split()
    return words[:3] + words[4:]


def is_run_right(whole, printed, message, status):
    if status == 0:
        return without_times(printed) == without_times(whole)
    return not printed and (message, status) in [(MESSAGE, 3), ("", 4)]


def is_search_right(whole, printed, message, status):
    untold = re.sub(r"^thread .*\n", "", whole, flags=re.MULTILINE).replace("\n", "\n" + NO_WAITS, 1)
    if status == 1 and printed in (whole, untold):
        return True
    if status == 2:
        return not printed and message == NO_ARGUMENTS
    # A device of text that has no room ends a run, with what was printed before.
    if status == 4:
        return whole.startswith(printed) or bool(NO_ROOM.match(printed) or NO_SCHEDULE.match(printed))
    wanted = {1: NO_SCHEDULE, 3: NO_ROOM}.get(status)
    return bool(wanted and wanted.fullmatch(printed))


def is_test_right(whole, printed, message, status):
    return status == 0 and printed == whole


def refuse_each(library, name, command, is_right, text=None):
    """Refuses one request after another, up to the last, and returns how many runs were wrong."""
    whole, message, status = run(command, text=text)
    if status != (0 if text is None else 1):
        sys.exit(f"{name}: status {status} where nothing is refused: {message}")
    refused, wrong, ended = 0, 0, {}
    with tempfile.TemporaryDirectory() as folder:
        while True:
            told = os.path.join(folder, str(refused + 1))
            found = run(command, library, refused + 1, told, text)
            if not os.path.exists(told):
                break
            refused += 1
            ended[found[-1]] = ended.get(found[-1], 0) + 1
            if not is_right(whole, *found):
                wrong += 1
                print(f"{name}, request {refused}: {found}")
    statuses = ", ".join(f"{ended[status]} with status {status}" for status in sorted(ended))
    print(f"{name}: {refused} requests, {statuses}; {wrong} wrong", flush=True)
    return wrong


def commands():
    """What is run, by name, and how its end is judged."""
    for words in RUNS:
        yield " ".join(["lotbench", *words]), [LOTBENCH, *words], is_run_right
    with open(os.path.join(CRATES, "lotexplore", "stdin")) as file:
        yield "lotexplore", [LOTEXPLORE], is_search_right, file.read()
    for crate in TESTS:
        program = os.path.join(CRATES, crate, "out", f"{crate}_tests")
        listed, _, _ = run([program, "--list"])
        for line in listed.splitlines():
            test = line.removesuffix(": test")
            if test != line and test.startswith(MODULE):
                yield f"{crate} {test}", [program, test], is_test_right


def main():
    with tempfile.TemporaryDirectory() as folder:
        library = os.path.join(folder, "refuse.so")
        source = os.path.join(HERE, "refuse.c")
        subprocess.run(["cc", "-O2", "-shared", "-fPIC", "-o", library, source], check=True)
        return 1 if sum(refuse_each(library, *command) for command in commands()) else 0


if __name__ == "__main__":
    sys.exit(main())
