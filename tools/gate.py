#!/usr/bin/env python3
"""Runs the gate, or another command, and tells how many seconds of a processor each crate took: its proof, that of its tests, the second
proof that its must-fail edits begin with, and each edit.

python3 tools/gate.py [--edits] [COMMAND ..], else `rt ci`. It looks at the prover's processes twice a second, below the command alone, so what
lives shorter than that is missed. What an earlier run has passed on this machine is not done again: `rt ci --anew` does all.
"""

import argparse
import collections
import os
import subprocess
import sys
import time

TICKS = os.sysconf("SC_CLK_TCK")
# Seconds between two looks.
PAUSE = 0.5
KINDS = ["proof", "tests", "second proof", "edits"]


def read(path):
    with open(path, "rb") as file:
        return file.read()


def parent_and_seconds(pid):
    """Of a process: its parent, when it began, and what it has taken."""
    fields = read(f"/proc/{pid}/stat").decode(errors="replace").rpartition(")")[2].split()
    return int(fields[1]), fields[19], (int(fields[11]) + int(fields[12])) / TICKS


def edit_of(words, crate):
    """The edit that a check tries, by its place in the seed that it is begun with; a crate with one edit has no seed."""
    folder = os.path.join("crates", crate, "must-fail")
    names = sorted(name for name in os.listdir(folder) if name.endswith(".edit")) if os.path.isdir(folder) else []
    if "--incremental" not in words:
        return names[0] if names else "?"
    room = os.path.basename(words[words.index("--incremental") + 1])
    return names[int(room)] if room.isdigit() and int(room) < len(names) else None


def task_of(pid):
    """The crate that a process of the prover works on, and what for: none of another process."""
    words = read(f"/proc/{pid}/cmdline").decode(errors="replace").split("\0")
    if os.path.basename(words[0]) != "rattle" or "--crate-name" not in words:
        return None
    crate = words[words.index("--crate-name") + 1]
    if "rt-edit-" not in os.readlink(f"/proc/{pid}/cwd"):
        return crate, "tests" if "--test" in words else "proof", ""
    edit = edit_of(words, crate)
    return (crate, "edits", edit) if edit else (crate, "second proof", "")


def look(known, top):
    """Notes what each process of the prover below the command has taken so far."""
    parents, found = {}, []
    for name in os.listdir("/proc"):
        if name.isdigit():
            try:
                parents[int(name)], began, seconds = parent_and_seconds(name)
                found.append((int(name), began, seconds))
            except OSError:
                continue
    for pid, began, seconds in found:
        above = pid
        while above not in (0, top):
            above = parents.get(above, 0)
        if above != top:
            continue
        try:
            task = known[pid, began][0] if (pid, began) in known else task_of(pid)
        except OSError:
            continue
        if task:
            known[pid, began] = task, seconds


def tell(known, with_edits, wall):
    sums, edits = collections.defaultdict(lambda: dict.fromkeys(KINDS, 0.0)), collections.Counter()
    for (crate, kind, edit), seconds in known.values():
        sums[crate][kind] += seconds
        if edit:
            edits[crate, edit] += seconds
    print("| crate | " + " | ".join(KINDS) + " | all |")
    print("|---" * (len(KINDS) + 2) + "|")
    rows = sorted(sums.items(), key=lambda row: -sum(row[1].values()))
    for crate, taken in rows:
        print(f"| {crate} | " + " | ".join(f"{taken[kind]:.0f}" for kind in KINDS) + f" | {sum(taken.values()):.0f} |")
    totals = [sum(taken[kind] for _, taken in rows) / 60 for kind in KINDS]
    print("| minutes | " + " | ".join(f"{total:.1f}" for total in totals) + f" | {sum(totals):.1f} |")
    for (crate, edit), seconds in edits.most_common() if with_edits else ():
        print(f"{seconds:6.1f} {crate}/{edit}")
    print(f"{wall / 60:.1f} minutes by the clock")


def main():
    parser = argparse.ArgumentParser(description=__doc__, formatter_class=argparse.RawDescriptionHelpFormatter)
    parser.add_argument("--edits", action="store_true", help="tells each edit too")
    parser.add_argument("command", nargs=argparse.REMAINDER)
    asked = parser.parse_args()
    began, known = time.time(), {}
    running = subprocess.Popen(asked.command or ["rt", "ci"])
    while running.poll() is None:
        look(known, running.pid)
        time.sleep(PAUSE)
    tell(known, asked.edits, time.time() - began)
    return running.returncode


if __name__ == "__main__":
    sys.exit(main())
