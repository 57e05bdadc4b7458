#!/usr/bin/env python3
"""Times `lotbench` beside the same program over the Rust crate `parking_lot`, run by run in turn.

It needs cargo, the package librust-parking-lot-dev of Debian, and for the count of instructions valgrind.

python3 bench/locks.py [MODE ..] [--n N] [--runs N] [--sittings N] [--busy N] [--built], else every mode with 10
million operations, nine times, in one sitting. Both programs have each loop at two places in their code, and a side's
figures are those of the place where its median is less. It prints a table: the median of nanoseconds for an operation,
the best in brackets, and what the busiest thread of ours did for one of the idlest, as the median and the greatest of
the runs. With several sittings, each of so many runs, the ratio is the median of theirs, the least and the greatest in brackets,
and so is how much longer ours took. With --busy N, N processes run beside both programs that do nothing but keep a
processor busy; then one thread alone is left out, and no instructions are counted. With --built it takes both programs
as they lie in their folders.
"""

import argparse
import contextlib
import os
import re
import statistics
import subprocess
import sys

HERE = os.path.dirname(os.path.abspath(__file__))
CRATE = os.path.join(HERE, "..", "crates", "lotbench")
OURS = os.path.join(CRATE, "out", "lotbench")
RUST = os.path.join(HERE, "rust")
THEIRS = os.path.join(RUST, "out", "release", "lotbench")
# Where Debian's packages lay the sources of Rust crates.
REGISTRY = "/usr/share/cargo/registry"
MUTEXES = ["raw_mutex", "raw_mutex_try", "mutex", "mutex_try", "fair", "many", "many_fair", "remutex", "remutex2"]
RWLOCKS = ["raw_read", "raw_write", "read", "write", "rw_mix", "read_recursive", "upgradable", "upgrade", "downgrade"]
CONDVARS = ["notify", "notify_all", "pingpong", "many_turns", "queue"]
SEMAPHORES = ["semaphore", "semaphore2"]
MODES = MUTEXES + RWLOCKS + ["once"] + SEMAPHORES + CONDVARS
# Ours beside a mode of the other program that has another name.
BESIDE = {"once": ["once", "std_once"]}
THREADS = [1, 2, 4, 8]
# Where threads wait for one another: for how many, and one operation for so many of another mode.
TOGETHER = {"notify_all": [2, 4, 8], "pingpong": [2], "many_turns": [2, 4, 8], "queue": [2, 4, 8]}
FEWER = 100
# The loops at the first place in the code, and at the second: the words that ask for them.
PLACES = [[], ["second"]]
# A process that keeps a processor busy, until its parent ends.
LOOP = "import os\nparent = os.getppid()\nwhile os.getppid() == parent:\n    for _ in range(1000000):\n        pass"
COLLECTED = re.compile(r"Collected\s*:\s*(\d+)")


def build():
    """Both programs; ours with its proofs, over what earlier checks kept."""
    subprocess.run(["rt", "run"], cwd=CRATE, check=True, stdout=subprocess.DEVNULL, stderr=subprocess.DEVNULL)
    build_theirs()


def build_theirs():
    """The programs over the Rust crate."""
    source = ['source.crates-io.replace-with="debian"', f'source.debian.directory="{REGISTRY}"']
    flags = [word for setting in source for word in ("--config", setting)]
    cargo = ["cargo", "build", "--quiet", "--release", "--offline", "--target-dir", "out"]
    subprocess.run([*cargo, *flags], cwd=RUST, check=True)


@contextlib.contextmanager
def busy_beside(count):
    """So many busy processes, for as long as the block lasts."""
    loops = [subprocess.Popen([sys.executable, "-c", LOOP]) for _ in range(count)]
    try:
        yield
    finally:
        for loop in loops:
            loop.kill()
            loop.wait()


def run(program, mode, threads, operations, place):
    """Nanoseconds for an operation, and how much more the busiest thread did than the idlest."""
    words = [program, mode, str(threads), str(operations), *place]
    done = subprocess.run(words, capture_output=True, text=True, check=True)
    words = done.stdout.split()
    nanos, answer, low, high = (int(word) for word in words[3:])
    if answer != operations:
        sys.exit(f"{mode} with {threads} threads answered {answer}")
    return nanos / operations, high / max(low, 1)


def median_time(runs):
    return statistics.median(nanos for nanos, _ in runs)


def sitting(mode, other, threads, operations, runs):
    """The runs of ours and of the other program, in turn, each at its better place: a run's nanoseconds and spread."""
    sides = [(OURS, mode), (THEIRS, other)]
    places = PLACES if mode not in TOGETHER else PLACES[:1]
    found = [[[] for _ in places] for _ in sides]
    for _ in range(runs):
        for number, place in enumerate(places):
            for side, (program, name) in enumerate(sides):
                found[side][number].append(run(program, name, threads, operations, place))
    return [min(by_place, key=median_time) for by_place in found]


def of_several(values):
    """One value as it is; of several the median, with the least and the greatest."""
    if len(values) == 1:
        return f"{values[0]:.2f}"
    return f"{statistics.median(values):.2f} ({min(values):.2f} to {max(values):.2f})"


def row(mode, other, threads, operations, runs, sittings):
    sat = [sitting(mode, other, threads, operations, runs) for _ in range(sittings)]
    medians = [(median_time(ours), median_time(theirs)) for ours, theirs in sat]
    all_ours, all_theirs = ([one for runs in side for one in runs] for side in zip(*sat))
    spreads = [spread for _, spread in all_ours]
    spread = f"{statistics.median(spreads):.2f}, {max(spreads):.2f}" if threads > 1 else ""
    columns = [
        f"`{other}`",
        threads,
        f"{median_time(all_ours):.1f} ({min(all_ours)[0]:.1f})",
        f"{median_time(all_theirs):.1f} ({min(all_theirs)[0]:.1f})",
        of_several([ours / theirs for ours, theirs in medians]),
        of_several([ours - theirs for ours, theirs in medians]),
        spread,
    ]
    return f"| {' | '.join(str(column) for column in columns)} |"


def instructions(program, mode, operations):
    counting = ["valgrind", "--tool=callgrind", "--callgrind-out-file=/dev/null", program, mode, "1", str(operations)]
    told = subprocess.run(counting, capture_output=True, text=True, check=True).stderr
    return int(COLLECTED.search(told)[1])


def for_one(program, mode):
    """Instructions for an operation of one thread, the loop's own among them."""
    few, many = 256_000, 512_000
    return (instructions(program, mode, many) - instructions(program, mode, few)) / (many - few)


def print_times(asked, modes):
    print("| mode | threads | ours, ns | Rust, ns | ratio | ns more | ours, busiest by idlest |")
    print("|---|---|---|---|---|---|---|")
    for mode in modes:
        for other in BESIDE.get(mode, [mode]):
            operations = asked.n // FEWER if mode in TOGETHER else asked.n
            for threads in TOGETHER.get(mode, THREADS):
                if threads > 1 or not asked.busy:
                    print(row(mode, other, threads, operations, asked.runs, asked.sittings), flush=True)


def print_instructions(modes):
    print()
    print("| mode | ours, instructions | Rust, instructions |")
    print("|---|---|---|")
    for mode in (mode for mode in modes if mode not in TOGETHER):
        for other in BESIDE.get(mode, [mode]):
            print(f"| `{other}` | {for_one(OURS, mode):.1f} | {for_one(THEIRS, other):.1f} |", flush=True)


def main():
    parser = argparse.ArgumentParser(description=__doc__, formatter_class=argparse.RawDescriptionHelpFormatter)
    parser.add_argument("modes", nargs="*", metavar="MODE", help=", ".join(MODES))
    parser.add_argument("--n", type=int, default=10_000_000)
    parser.add_argument("--runs", type=int, default=9)
    parser.add_argument("--sittings", type=int, default=1)
    parser.add_argument("--busy", type=int, default=0)
    parser.add_argument("--built", action="store_true")
    asked = parser.parse_args()
    modes = asked.modes or MODES
    if not asked.built:
        build()
    with busy_beside(asked.busy):
        print_times(asked, modes)
    if not asked.busy:
        print_instructions(modes)


if __name__ == "__main__":
    main()
