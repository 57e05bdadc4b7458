#!/usr/bin/env python3
"""Tells where the time of a crate's check goes: seconds by function, and by the kind of module that the prover makes of it.

python3 tools/check.py CRATE [--tests] [--most N], in a checkout whose libraries are built (`rt check` in the crate's folder does that). It checks the
crate from nothing with one job, into a folder of its own, and goes by the times at which the modules were kept. Of a function it tells what all its
modules took, `Lts` (the borrow checker's, which grows with statements and locals), `Tie` (what traits say of known types, which grows with the
different methods called) and `Proof` (the search of goals that have no answer).
"""

import argparse
import collections
import os
import subprocess
import sys
import tempfile

TOP = os.path.join(os.path.dirname(os.path.abspath(__file__)), "..")


def kit():
    return os.path.dirname(subprocess.run(["rt", "doc"], capture_output=True, text=True, check=True).stdout.strip())


def dependencies():
    """What each crate stands on, by crates.txt."""
    with open(os.path.join(TOP, "crates.txt"), encoding="utf-8") as file:
        lines = [line.partition("#")[0].strip() for line in file]
    return {line.partition(":")[0].split()[0]: line.partition(":")[2].split() for line in lines if line}


def below(crate, stands_on, found):
    for name in stands_on.get(crate, ()):
        if name in stands_on and name not in found:
            found.add(name)
            below(name, stands_on, found)
    return found


def built(name):
    return os.path.abspath(os.path.join(TOP, "crates", name, "out", "rlib"))


def command(crate, tests, into):
    home, stands_on = kit(), dependencies()
    libraries = os.path.join(home, "rlibs")
    source = "src/main.rt" if os.path.isfile(os.path.join(TOP, "crates", crate, "src", "main.rt")) else "src/lib.rt"
    words = [os.path.join(home, "bin", "rattle"), "check", "--crate-name", crate, source, "-L", f"dependency={libraries}"]
    for name in ["std", *stands_on[crate]]:
        folder = built(name) if name in stands_on else libraries
        words += ["--extern", f"{name}={folder}/{name}.rlib"]
    for name in sorted(below(crate, stands_on, set())):
        words += ["-L", f"dependency={built(name)}"]
    words += ["--antt-project", f"{home}/rattle/logic/antt-project.json", "--logic-built", f"{home}/logic_built"]
    return words + ["--jobs", "1", "--incremental", into] + ["--test"] * tests


def modules(folder):
    """Each module that was kept, with the seconds since the one before."""
    files = [os.path.join(at, name) for at, _, names in os.walk(folder) for name in names if name.endswith(".oantt")]
    timed = sorted((os.stat(file).st_mtime, os.path.basename(file)) for file in files)
    for (before, _), (now, name) in zip(timed, timed[1:]):
        yield name.replace(".decls", "").replace(".oantt", "").split("."), now - before


def tell(folder, most):
    whole, kinds, parts = collections.Counter(), collections.Counter(), collections.Counter()
    for path, seconds in modules(folder):
        function, kind = ".".join(path[:-1]) or path[0], path[-1]
        whole[function] += seconds
        kinds[kind] += seconds
        parts[function, kind] += seconds
    print("seconds    Lts    Tie  Proof  function")
    for function, seconds in whole.most_common(most):
        print(f"{seconds:7.2f} {parts[function, 'Lts']:6.2f} {parts[function, 'Tie']:6.2f} {parts[function, 'Proof']:6.2f}  {function}")
    print("all", f"{sum(whole.values()):.1f};", ", ".join(f"{kind} {seconds:.1f}" for kind, seconds in kinds.most_common(10)))


def main():
    parser = argparse.ArgumentParser(description=__doc__, formatter_class=argparse.RawDescriptionHelpFormatter)
    parser.add_argument("crate")
    parser.add_argument("--tests", action="store_true", help="with the crate's tests")
    parser.add_argument("--most", type=int, default=30, help="so many functions (30)")
    asked = parser.parse_args()
    with tempfile.TemporaryDirectory() as into:
        checked = subprocess.run(command(asked.crate, asked.tests, into), cwd=os.path.join(TOP, "crates", asked.crate), capture_output=True, text=True)
        print((checked.stderr + checked.stdout).rstrip().rpartition("\n")[2])
        tell(into, asked.most)
    return checked.returncode


if __name__ == "__main__":
    sys.exit(main())
