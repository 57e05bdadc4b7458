#!/usr/bin/env python3
"""Times `lotsim replay` on random schedules of a million lines, in which every thread takes locks and releases them.

Build the proved program first: `rt run -- replay < stdin` in crates/lotsim. Then: python3 bench/replay.py [PROGRAM..]
Several programs are run in turn, so that what else the machine does slows all of them. Each kind of queues is a program:
in a clone `core_base::ListQueues` takes the place of `core_queues::BucketQueues` in crates/lotsim/src/main.rt, and
`core_base` that of `core_queues` in the line of `lotsim` in crates.txt; it is built there likewise.
With `--keep FOLDER` the schedules are written into that folder too.
"""

import argparse
import os
import random
import subprocess
import sys
import tempfile
import time

PROGRAM = os.path.join(os.path.dirname(__file__), "..", "crates", "lotsim", "out", "lotsim")
LINES = 1_000_000
# Turns of a thread, over and over: it waits for a right with a deadline, gives up where it still sleeps, and releases.
GETS = {
    "mutex": [("lock_timed", "unlock")],
    "rwlock": [
        ("read_timed", "unlock_shared"), ("read_timed", "unlock_shared"), ("read_timed", "unlock_shared"),
        ("write_timed", "unlock_exclusive"), ("upgradable_timed", "unlock_upgradable"), ("write_timed", "downgrade"),
    ],
}


def turns(kind, thread, locks, rng):
    """The lines of one thread, without end. A spin stands in place of a step about once in twenty."""
    while True:
        lock = f"m{rng.randrange(locks)}"
        enter, release = rng.choice(GETS[kind])
        calls = [(f"begin {enter} {lock}", 4), ("late", 3), (f"begin {release} {lock}", 2)]
        if release == "downgrade":
            calls.append((f"begin unlock_shared {lock}", 2))
        for call, steps in calls:
            yield f"{thread} {call}"
            for _ in range(steps):
                yield f"{thread} spin" if rng.random() < 0.05 else f"{thread} go"


def schedule(kind, threads, locks, lines, shows, seed):
    """Threads in turn by chance, with a `show` about once in `shows` lines."""
    rng = random.Random(seed)
    out = [f"threads {threads}"] + [f"lock m{lock} {kind}" for lock in range(locks)]
    each = [turns(kind, thread, locks, rng) for thread in range(threads)]
    while len(out) < lines:
        out.append("show" if rng.random() < 1 / shows else next(rng.choice(each)))
    return "\n".join(out) + "\n"


def time_of(program, path):
    with open(path) as stdin:
        start = time.perf_counter()
        status = subprocess.run([program, "replay"], stdin=stdin, stdout=subprocess.DEVNULL).returncode
        taken = time.perf_counter() - start
    if status != 0:
        sys.exit(f"{program}: status {status}")
    return taken


def measure(programs, keep, name, kind, threads, locks, shows):
    text = schedule(kind, threads, locks, LINES, shows, 1)
    if keep:
        with open(os.path.join(keep, f"{kind}-{threads}-{shows}.schedule"), "w") as kept:
            kept.write(text)
    with tempfile.NamedTemporaryFile("w", suffix=".schedule") as file:
        file.write(text)
        file.flush()
        best = [float("inf")] * len(programs)
        for _ in range(12):
            for number, program in enumerate(programs):
                best[number] = min(best[number], time_of(program, file.name))
    print(f"{name}: {', '.join(f'{LINES / taken / 1e6:.1f}' for taken in best)} million lines a second", flush=True)


def main():
    parser = argparse.ArgumentParser()
    parser.add_argument("programs", nargs="*", default=[PROGRAM], metavar="PROGRAM")
    parser.add_argument("--keep", metavar="FOLDER")
    given = parser.parse_args()
    for kind in GETS:
        for threads, locks, shows, often in [
            (8, 4, 1_000, "a show in 1,000 lines"),
            (1024, 256, LINES * 100, "no show"),
            (1024, 256, 10_000, "a show in 10,000 lines"),
            (1024, 256, 1_000, "a show in 1,000 lines"),
        ]:
            name = f"{kind}: {threads:,} threads, {locks} locks, {often}"
            measure(given.programs, given.keep, name, kind, threads, locks, shows)


if __name__ == "__main__":
    main()
