#!/usr/bin/env python3
"""Times calls with a deadline by `timedbench` beside the same program over the Rust crate, run by run in turn.

python3 bench/timed.py [--samples N] [--runs N] [--sleepers N ..] [--busy N] [--built], else 500 samples, five runs, with no other
sleepers and with 64. It needs what `bench/locks.py` needs. Each row has the medians over the runs of a run's median, 99th of 100 samples
and greatest, in microseconds, ours/Rust's. With --busy N, N processes keep a processor busy meanwhile. With --built both programs
are taken as they lie in their folders.
"""

import argparse
import os
import statistics
import subprocess

import locks

CRATE = os.path.join(locks.HERE, "..", "crates", "timedbench")
OURS = os.path.join(CRATE, "out", "timedbench")
THEIRS = os.path.join(locks.RUST, "out", "release", "timedbench")
MODES = ["time_out", "notify", "notify_timed", "hand_over", "hand_over_timed"]


def run(program, mode, sleepers, samples):
    """The median, the 99th of 100 samples and the greatest of one run, in microseconds."""
    words = [program, mode, str(sleepers), str(samples)]
    told = subprocess.run(words, check=True, capture_output=True, text=True).stdout.split()
    return [int(word) / 1000 for word in told[3:]]


def main():
    parser = argparse.ArgumentParser(description=__doc__, formatter_class=argparse.RawDescriptionHelpFormatter)
    parser.add_argument("--samples", type=int, default=500)
    parser.add_argument("--runs", type=int, default=5)
    parser.add_argument("--sleepers", type=int, nargs="*", default=[0, 64])
    parser.add_argument("--busy", type=int, default=0)
    parser.add_argument("--built", action="store_true")
    parser.add_argument("--ours", default=OURS)
    args = parser.parse_args()
    if not args.built:
        subprocess.run(["rt", "run"], cwd=CRATE, check=True, stdout=subprocess.DEVNULL, stderr=subprocess.DEVNULL)
        locks.build_theirs()
    print("| call | sleepers | median | p99 | greatest |")
    print("|---|---|---|---|---|")
    with locks.busy_beside(args.busy):
        for mode in MODES:
            for sleepers in args.sleepers:
                ours, theirs = [], []
                for _ in range(args.runs):
                    ours.append(run(args.ours, mode, sleepers, args.samples))
                    theirs.append(run(THEIRS, mode, sleepers, args.samples))
                cells = [f"{statistics.median(a):.1f}/{statistics.median(b):.1f}"
                         for a, b in zip(zip(*ours), zip(*theirs))]
                print(f"| {mode} | {sleepers} | " + " | ".join(cells) + " |", flush=True)


if __name__ == "__main__":
    main()
