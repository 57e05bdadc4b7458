#!/usr/bin/env python3
"""Measures the heap of a lot of one word, by the number of its seats.

Each run of `lotbench lot SEATS` makes one lot and ends; valgrind's massif tells the most bytes that the program had at a
time. A program that makes no lot takes no heap worth a line.

python3 bench/memory.py [SEATS ..]
"""

import os
import re
import subprocess
import sys
import tempfile

PROGRAM = os.path.join(os.path.dirname(os.path.abspath(__file__)), "..", "crates", "lotbench", "out", "lotbench")
SEATS = [1, 8, 64, 256, 1024]
BYTES = re.compile(r"^mem_heap_B=(\d+)$", re.MULTILINE)


def heap_of(words):
    """The most bytes that a run of the program had allocated at a time."""
    with tempfile.NamedTemporaryFile() as told:
        profiling = ["valgrind", "--tool=massif", f"--massif-out-file={told.name}", PROGRAM, *words]
        subprocess.run(profiling, capture_output=True, check=True)
        return max(int(one) for one in BYTES.findall(told.read().decode()))


def main():
    seats = [int(word) for word in sys.argv[1:]] or SEATS
    print("| seats | bytes | KiB |")
    print("|---|---|---|")
    for count in seats:
        taken = heap_of(["lot", str(count)])
        print(f"| {count} | {taken} | {taken / 1024:.1f} |", flush=True)


if __name__ == "__main__":
    main()
