#!/usr/bin/env python3
"""Times modes of `lotbench` whose threads may fall into a convoy beside the Rust crate's, and compares like with like.

Threads that meet at each release hand the lock over, and sleep. Others happen never to meet. A run is told by how often
its threads slept: a convoy where they did for half of the operations or more, and a free run where they did for fewer
than one in twenty. Runs between the two are counted as mixed, and compared with nothing.

It needs what bench/locks.py needs.

python3 bench/convoys.py [MODE ..] [--n N] [--runs N] [--threads N ..] [--busy N] [--built], else fair, many_fair and
downgrade with 4 and 8 threads, 20,000 operations, thirty times by turns. It prints the medians of nanoseconds for an
operation, how many runs were of each sort, and the ratio of the medians where each side has three such runs.
"""

import argparse
import os
import statistics
import subprocess

from locks import OURS, THEIRS, build, busy_beside

MODES = ["fair", "many_fair", "downgrade"]
CONVOY, FREE = 0.5, 0.05
SORTS = ["convoy", "free", "mixed"]
# Fewer runs of a side have no median to speak of.
FEW = 3


def run(program, mode, threads, operations):
    """Nanoseconds for an operation, and how often threads slept for one."""
    command = [program, mode, str(threads), str(operations)]
    with subprocess.Popen(command, stdout=subprocess.PIPE, text=True) as child:
        told = child.stdout.read().split()
        _, status, usage = os.wait4(child.pid, 0)
        child.returncode = os.waitstatus_to_exitcode(status)
    if child.returncode or int(told[4]) != operations:
        raise SystemExit(f"{mode} with {threads} threads did not answer {operations}")
    return int(told[3]) / operations, usage.ru_nvcsw / operations


def sort_of(sleeps):
    if sleeps >= CONVOY:
        return "convoy"
    return "free" if sleeps < FREE else "mixed"


def sorted_runs(runs):
    """The times of the runs, by their sort."""
    times = {sort: [] for sort in SORTS}
    for nanos, sleeps in runs:
        times[sort_of(sleeps)].append(nanos)
    return times


def cell(times):
    return f"{statistics.median(times):.0f} ({len(times)})" if times else "- (0)"


def ratio(ours, theirs):
    if min(len(ours), len(theirs)) < FEW:
        return "-"
    return f"{statistics.median(ours) / statistics.median(theirs):.2f}"


def row(mode, threads, operations, runs):
    """Both programs' runs by turns, parted by sort."""
    sides = [[], []]
    for _ in range(runs):
        for told, program in zip(sides, [OURS, THEIRS]):
            told.append(run(program, mode, threads, operations))
    ours, theirs = (sorted_runs(told) for told in sides)
    cells = [f"`{mode}`", str(threads)]
    for sort in ["convoy", "free"]:
        cells += [cell(ours[sort]), cell(theirs[sort]), ratio(ours[sort], theirs[sort])]
    cells.append(f"{len(ours['mixed'])}, {len(theirs['mixed'])}")
    return f"| {' | '.join(cells)} |"


def main():
    parser = argparse.ArgumentParser(description=__doc__, formatter_class=argparse.RawDescriptionHelpFormatter)
    parser.add_argument("modes", nargs="*", metavar="MODE", help=", ".join(MODES))
    parser.add_argument("--n", type=int, default=20_000)
    parser.add_argument("--runs", type=int, default=30)
    parser.add_argument("--threads", type=int, nargs="+", default=[4, 8])
    parser.add_argument("--busy", type=int, default=0)
    parser.add_argument("--built", action="store_true")
    asked = parser.parse_args()
    if not asked.built:
        build()
    print("| mode | threads | convoy: ours, ns (runs) | Rust, ns (runs) | ratio "
          "| free: ours, ns (runs) | Rust, ns (runs) | ratio | mixed: ours, Rust |")
    print("|---|---|---|---|---|---|---|---|---|")
    with busy_beside(asked.busy):
        for mode in asked.modes or MODES:
            for threads in asked.threads:
                print(row(mode, threads, asked.n, asked.runs), flush=True)


if __name__ == "__main__":
    main()
