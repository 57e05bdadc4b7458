#!/usr/bin/env python3
"""Times searches of `lotexplore`: states, seconds of the processors and of the clock, and the most memory that a run took.

In each program all threads lock and unlock one mutex so often, or two mutexes in one order. `rt run` has built the program
before. It searches by single steps, and by whole turns, which leave states out and miss nothing. In the same run other tools
search models of the same steps of one mutex, where they and `gcc` are installed: SPIN `mutex.pml`, and rumur `mutex.m`. The
script fails where one counts other states, but for turns and for SPIN's partial order reduction, which are there to leave
states out.

python3 bench/explore.py [RUNS], else three runs a program
"""

import os
import re
import shutil
import subprocess
import sys
import tempfile
import time
from typing import NamedTuple

HERE = os.path.dirname(os.path.abspath(__file__))
PROGRAM = os.path.join(HERE, "..", "crates", "lotexplore", "out", "lotexplore")
SPIN_MODEL = os.path.join(HERE, "mutex.pml")
RUMUR_MODEL = os.path.join(HERE, "mutex.m")
OURS = re.compile(r"nothing found: (\d+) states")
OF_SPIN = re.compile(r"(\d+) states, stored")
OF_RUMUR = re.compile(r"(\d+) states, \d+ rules fired in")
# Processors that the searches in several threads take.
JOBS = 4
# Threads, locks, and how often each thread takes them.
PROGRAMS = [(2, 1, 3), (3, 1, 2), (3, 1, 3), (3, 2, 1), (3, 2, 2), (4, 1, 2)]
# So many states are kept at most.
MOST = "3000000"


def text_of(threads, locks, times):
    names = [chr(ord("a") + lock) for lock in range(locks)]
    lines = [f"threads {threads}", *(f"lock {name} mutex" for name in names)]
    lines += ["thread " + " ".join(str(thread) for thread in range(threads)), f"repeat {times}"]
    lines += [f"lock {name}" for name in names] + [f"unlock {name}" for name in reversed(names)]
    return "\n".join([*lines, "end", ""])


class Search(NamedTuple):
    states: int
    seconds: float
    clock: float
    kilobytes: int


class Tool(NamedTuple):
    name: str
    command: list
    told: re.Pattern
    text: str = ""
    counts_all: bool = True


def timed(tool):
    """What a search has counted, and what it took."""
    with tempfile.TemporaryFile("w+") as given, tempfile.TemporaryFile("w+") as printed:
        given.write(tool.text)
        given.seek(0)
        began = time.monotonic()
        child = subprocess.Popen(tool.command, stdin=given, stdout=printed, stderr=subprocess.STDOUT, cwd=tempfile.gettempdir())
        _, status, usage = os.wait4(child.pid, 0)
        clock = time.monotonic() - began
        printed.seek(0)
        answer = printed.read()
    found = tool.told.search(answer)
    if not found:
        sys.exit(f"{tool.name}, status {status}: {answer}")
    return Search(int(found[1]), usage.ru_utime + usage.ru_stime, clock, usage.ru_maxrss)


def run(command, folder):
    subprocess.run(command, cwd=folder, check=True, stdout=subprocess.DEVNULL, stderr=subprocess.DEVNULL)


def spin_checker(folder, threads, times, name, *flags):
    """SPIN's program for so many threads that take a mutex so often."""
    run(["spin", "-o1", "-o2", "-o3", f"-DN={threads}", f"-DR={times}", "-a", SPIN_MODEL], folder)
    made = os.path.join(folder, f"{name}_{threads}_{times}")
    run(["gcc", "-O2", "-w", "-DSAFETY", *flags, "-o", made, "pan.c"], folder)
    return made


def rumur_checker(folder, threads, times, jobs):
    """Rumur's program for so many threads that take a mutex so often. It searches in as many threads as it was made for."""
    with open(RUMUR_MODEL, encoding="utf-8") as model:
        text = re.sub(r"\bR: \d+;", f"R: {times};", re.sub(r"\bN: \d+;", f"N: {threads};", model.read()))
    with open(os.path.join(folder, "mutex.m"), "w", encoding="utf-8") as model:
        model.write(text)
    run(["rumur", "--threads", str(jobs), "--deadlock-detection", "off", "--output", "mutex.c", "mutex.m"], folder)
    made = os.path.join(folder, f"rumur_{threads}_{times}_{jobs}")
    run(["gcc", "-std=c11", "-O3", "-march=native", "-mcx16", "-w", "-o", made, "mutex.c", "-lpthread", "-latomic"], folder)
    return made


def spin_tools(folder, threads, times, width):
    """SPIN without and with its partial order reduction, and in several processes."""
    # SPIN clears its table first, so that is no larger than the states need.
    sizes = ["-m1000000", f"-w{width}"]
    return [
        Tool("SPIN", [spin_checker(folder, threads, times, "full", "-DNOREDUCE"), *sizes], OF_SPIN),
        Tool("SPIN, reduced", [spin_checker(folder, threads, times, "reduced"), *sizes], OF_SPIN, "", False),
        Tool(
            f"SPIN, {JOBS} processes",
            [spin_checker(folder, threads, times, "cores", "-DNOREDUCE", f"-DNCORE={JOBS}", "-DMEMLIM=6000"), *sizes],
            OF_SPIN,
        ),
    ]


def rumur_tools(folder, threads, times):
    return [Tool(f"rumur, {jobs} threads", [rumur_checker(folder, threads, times, jobs)], OF_RUMUR) for jobs in (1, JOBS)]


def row(tool, program, found):
    states = found[0].states
    seconds = min(search.seconds for search in found)
    clock = min(search.clock for search in found)
    words = " | ".join(str(word) for word in program)
    memory = max(search.kilobytes for search in found) * 1024
    print(
        f"{tool.name} | {words} | {states} | {seconds:.2f} | {clock:.2f} | {states / clock:.0f} | {memory / states:.0f}",
        flush=True,
    )


def tools_for(folder, program, installed):
    threads, locks, times = program
    text = text_of(threads, locks, times)
    searches = {
        (grain, jobs): [PROGRAM, "--grain", grain, "--states", MOST, "--jobs", str(jobs)]
        for grain in ("step", "turns")
        for jobs in (1, JOBS)
    }
    tools = [
        Tool(f"lotexplore, {grain}, {jobs} threads", command, OURS, text, grain == "step")
        for (grain, jobs), command in searches.items()
    ]
    ours = tools[0]
    if locks == 1 and "spin" in installed:
        tools += spin_tools(folder, threads, times, timed(ours).states.bit_length() + 1)
    if locks == 1 and "rumur" in installed:
        tools += rumur_tools(folder, threads, times)
    return tools


def main():
    runs = int(sys.argv[1]) if len(sys.argv) > 1 else 3
    installed = [name for name in ("spin", "rumur") if shutil.which(name) and shutil.which("gcc")]
    for name in ("spin", "rumur"):
        if name not in installed:
            print(f"{name} or gcc is not installed: its rows are left out")
    print("program | threads | locks | times | states | processor s | clock s | states a second | bytes a state")
    with tempfile.TemporaryDirectory() as folder:
        for program in PROGRAMS:
            tools = tools_for(folder, program, installed)
            rounds = [[timed(tool) for tool in tools] for _ in range(runs)]
            for tool, *found in zip(tools, *rounds):
                row(tool, program, found)
                if tool.counts_all and found[0].states != rounds[0][0].states:
                    sys.exit("they count different states")


main()
