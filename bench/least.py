#!/usr/bin/env python3
"""Times the least that a lock over the kit's table can take, by `lotbench least`, beside ours and the Rust crate's, run by run in turn.

It needs what bench/locks.py needs.

python3 bench/least.py [--n N] [--runs N], else 10 million operations, nine times. It prints the medians of nanoseconds for an
operation of one thread, the best in brackets, and the instructions.
"""

import argparse
import statistics
import subprocess

from locks import COLLECTED, OURS, THEIRS, build

# Each loop, and the modes of `lotbench` that it is held against.
LOOPS = {
    "look": ["once", "std_once", "notify"],
    "hold": ["raw_mutex"],
    "hold_told": ["raw_mutex", "mutex", "raw_write"],
}
# Ours has another name where the Rust program has two.
OUR_NAME = {"std_once": "once"}


def commands(loop, mode, operations):
    ours = [OURS, OUR_NAME.get(mode, mode), "1", str(operations)]
    return [[OURS, "least", loop, str(operations)], ours, [THEIRS, mode, "1", str(operations)]]


def nanos(command, operations):
    told = subprocess.run(command, capture_output=True, text=True, check=True).stdout.split()
    return int(told[3]) / operations


def instructions(command):
    counting = ["valgrind", "--tool=callgrind", "--callgrind-out-file=/dev/null", *command]
    told = subprocess.run(counting, capture_output=True, text=True, check=True).stderr
    return int(COLLECTED.search(told)[1])


def cell(times):
    return f"{statistics.median(times):.2f} ({min(times):.2f})"


def row(loop, mode, operations, runs):
    """The least, ours and theirs, run in turn, and what each takes in instructions."""
    times = [[], [], []]
    for _ in range(runs):
        for told, command in zip(times, commands(loop, mode, operations)):
            told.append(nanos(command, operations))
    few, many = commands(loop, mode, 256_000), commands(loop, mode, 512_000)
    counts = [(instructions(more) - instructions(less)) / 256_000 for less, more in zip(few, many)]
    least, _, theirs = (statistics.median(told) for told in times)
    cells = [cell(told) for told in times] + [f"{least / theirs:.2f}"] + [f"{count:.1f}" for count in counts]
    return f"| `{loop}` | `{mode}` | " + " | ".join(cells) + " |"


def main():
    parser = argparse.ArgumentParser(description=__doc__, formatter_class=argparse.RawDescriptionHelpFormatter)
    parser.add_argument("--n", type=int, default=10_000_000)
    parser.add_argument("--runs", type=int, default=9)
    parser.add_argument("--built", action="store_true")
    asked = parser.parse_args()
    if not asked.built:
        build()
    print("| loop | beside | least, ns | ours, ns | Rust, ns | least by Rust | least, instructions | ours | Rust |")
    print("|---|---|---|---|---|---|---|---|---|")
    for loop, modes in LOOPS.items():
        for mode in modes:
            print(row(loop, mode, asked.n, asked.runs), flush=True)


if __name__ == "__main__":
    main()
