#!/usr/bin/env python3
"""Lets standard input, and then standard output, fail at each byte in turn, of `lotsim`, `lotdraw` and `lotexplore`.

Each run reads the crate's stored input. Where a read or a write fails, the run has to end with status 4, and what was
printed has to be the first part of what is printed otherwise. A read that fails after the last byte is a failure, too.

The programs that `rt ci` has built are run, with a small library before the C library's: it needs cc.

python3 trials/each_byte.py
"""

import os
import subprocess
import sys
import tempfile

HERE = os.path.dirname(os.path.abspath(__file__))
CRATES = os.path.join(HERE, "..", "crates")
# Each program, and its arguments.
PROGRAMS = {"lotsim": ["replay"], "lotdraw": [], "lotexplore": []}
FAILED = 4
SECONDS = 60


def run(command, text, library="", **fails):
    """What is printed, and the status, where a device fails after so many bytes, or none does."""
    env = {**os.environ, "LD_PRELOAD": library, **{name: str(bytes_) for name, bytes_ in fails.items()}}
    done = subprocess.run(command, env=env, input=text, capture_output=True, timeout=SECONDS)
    return done.stdout, done.returncode


def fail_each(library, name, command, text):
    """Lets each byte fail, and returns how many runs were wrong."""
    whole, _ = run(command, text)
    wrong = 0
    for device, size in [("READ_FAILS", len(text) + 1), ("WRITE_FAILS", len(whole))]:
        for at in range(size):
            printed, status = run(command, text, library, **{device: at})
            if status != FAILED or not whole.startswith(printed):
                wrong += 1
                print(f"{name}, {device} at byte {at}: status {status}, {printed[-80:]}")
    print(f"{name}: {len(text) + 1} bytes read, {len(whole)} written; {wrong} wrong", flush=True)
    return wrong


def main():
    wrong = 0
    with tempfile.TemporaryDirectory() as folder:
        library = os.path.join(folder, "fail_io.so")
        source = os.path.join(HERE, "fail_io.c")
        subprocess.run(["cc", "-O2", "-shared", "-fPIC", "-o", library, source, "-ldl"], check=True)
        for name, words in PROGRAMS.items():
            crate = os.path.join(CRATES, name)
            with open(os.path.join(crate, "stdin"), "rb") as file:
                text = file.read()
            wrong += fail_each(library, name, [os.path.join(crate, "out", name), *words], text)
    return 1 if wrong else 0


if __name__ == "__main__":
    sys.exit(main())
