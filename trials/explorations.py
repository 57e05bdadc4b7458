#!/usr/bin/env python3
"""Tries `lotexplore` on random programs, and says where what it prints is not what docs/EXPLORE.md says.

Each check has a number of programs of its own: a look for loops is told as whole only where it is, goes by single steps
whatever the grain, and stays within `--depth`; `--from` reads each schedule that is printed; `--shrink` leaves a program
that is read back and goes wrong in the same way by its own shortest schedule; no thread is named twice as a holder, no
warning is told twice, and no error shows a control character or a long word; tests of answers that no call gives are
refused; lines that no schedule reaches are told. `rt run` has built the program before.

python3 trials/explorations.py [PROGRAMS [SEED [LOTEXPLORE]]], else 200 programs a check from seed 0
"""

import json
import os
import random
import re
import subprocess
import sys
import tempfile

HERE = os.path.dirname(os.path.abspath(__file__))
PROGRAM = os.path.join(HERE, "..", "crates", "lotexplore", "out", "lotexplore")
MOST_STATES = "20000"
GRAINS = ["call", "turns", "step"]

# How each right of a kind of lock is acquired, and released.
RIGHTS = {
    "mutex": [("lock", "unlock"), ("lock", "unlock_fair"), ("try_lock", "unlock"), ("lock_timed", "unlock")],
    "fair": [("lock", "unlock"), ("try_lock", "unlock"), ("lock_timed", "unlock")],
    "rwlock": [
        ("read", "unlock_shared"),
        ("write", "unlock_exclusive"),
        ("upgradable", "unlock_upgradable"),
        ("write", "unlock_exclusive_fair"),
        ("upgradable", "unlock_upgradable_fair"),
        ("try_write", "unlock_exclusive"),
        ("read_timed", "unlock_shared"),
    ],
    "recursive": [("read", "unlock_shared"), ("write", "unlock_exclusive"), ("try_read", "unlock_shared")],
    "semaphore": [("acquire", "release"), ("try_acquire", "release")],
}
NUMBERED = {"semaphore": " 1"}


def run(arguments, text, folder):
    path = os.path.join(folder, "program.lot")
    with open(path, "w", encoding="utf-8") as file:
        file.write(text)
    if "--states" not in arguments:
        arguments = ["--states", MOST_STATES, *arguments]
    command = [PROGRAM, "--jobs", "1", *arguments, path]
    return subprocess.run(command, capture_output=True, text=True, check=False, timeout=300)


class Writer:
    """Writes a random program."""

    def __init__(self, draw, loops=False, spins=False):
        self.draw = draw
        self.threads = draw.choice([2, 2, 3])
        kinds = [draw.choice(list(RIGHTS)) for _ in range(draw.choice([1, 1, 2]))]
        self.locks = list(zip("ab", kinds))
        self.has_condvar = draw.random() < 0.4
        self.lines = [f"threads {self.threads}"]
        self.lines += [f"lock {name} {kind}{NUMBERED.get(kind, '')}" for name, kind in self.locks]
        if self.has_condvar:
            self.lines += ["lock m mutex", "lock c condvar"]
        self.lines += ["var x 0", "var y 0"]
        first = 0
        while first < self.threads:
            last = min(self.threads, first + draw.choice([1, 1, 2]))
            self.lines.append("thread " + " ".join(str(thread) for thread in range(first, last)))
            if spins:
                self.lines += ["  while x = 0", "  end"] if first == 0 else ["  set x 1"]
            self.block(1, 3, loops and first > 0 and draw.random() < 0.7)
            first = last

    def text(self):
        return "\n".join(self.lines) + "\n"

    def block(self, depth, most, endless=False):
        indent = "  " * depth
        if endless:
            self.lines.append(indent + "loop")
            self.block(depth + 1, 2)
            self.lines.append(indent + "end")
            return
        for _ in range(self.draw.randint(1, most)):
            self.statement(depth)

    def statement(self, depth):
        indent, draw = "  " * depth, self.draw
        sort = draw.choice(["right"] * 6 + ["variable"] * 2 + ["condvar"] * 2 + ["nested"])
        if sort == "condvar" and self.has_condvar:
            self.lines.append(
                indent + draw.choice(["notify_one c", "notify_all c"])
                if draw.random() < 0.5
                else f"{indent}lock m\n{indent}{draw.choice(['wait', 'wait_timed'])} c m\n{indent}unlock m"
            )
        elif sort == "variable":
            self.lines.append(indent + draw.choice(["set x 1", "set y x", "add x 1", "add y 1"]))
        elif sort == "nested" and depth < 3:
            self.lines.append(indent + draw.choice(["if x = 0", "if y = x", "repeat 2", "while x > 2"]))
            self.block(depth + 1, 2)
            self.lines.append(indent + "end")
        else:
            self.right(depth)

    def right(self, depth):
        indent, draw = "  " * depth, self.draw
        name, kind = draw.choice(self.locks)
        acquire, release = draw.choice(RIGHTS[kind])
        self.lines.append(f"{indent}{acquire} {name}")
        if acquire.startswith("try_") or acquire.endswith("_timed"):
            self.lines.append(f"{indent}if yes")
            if draw.random() < 0.3 and depth < 3:
                self.block(depth + 1, 1)
            self.lines += [f"{indent}  {release} {name}", f"{indent}end"]
            return
        if draw.random() < 0.5 and depth < 3:
            self.block(depth, 1)
        if draw.random() < 0.9:
            self.lines.append(f"{indent}{release} {name}")
        # Several lines of one statement stand in one entry.
        self.lines = "\n".join(self.lines).split("\n")


def written(draw, **options):
    writer = Writer(draw, **options)
    return writer.text(), writer


class Wrong(Exception):
    """What is printed is not what the page says."""


def expect(holds, what):
    if not holds:
        raise Wrong(what)


def ends_line(draw, text, writer):
    return f"{text}ends {draw.randrange(writer.threads)}\n"


def check_statuses(draw, folder):
    """The status is 0 only where each look is whole, and `complete` says so."""
    text, writer = written(draw, loops=True)
    text = ends_line(draw, text, writer)
    limits = draw.choice([[], ["--states", str(draw.randint(5, 400))], ["--depth", str(draw.randint(1, 40))]])
    for grain in GRAINS:
        done = run(["--json", "--grain", grain, *limits], text, folder)
        told = json.loads(done.stdout)
        if told["verdict"] != "nothing":
            expect(done.returncode == 1, "what is found has status 1")
            continue
        whole = all(look["complete"] for look in told["looks"])
        expect(len(told["looks"]) == 1, "a look is told")
        expect(all((look["why"] is None) == look["complete"] for look in told["looks"]), "why a look is cut")
        expect(told["complete"] == (done.returncode == 0), "`complete` is the status")
        expect(whole or done.returncode == 3, "a look that is cut has status 3")
    return text


def check_grains(draw, folder):
    """A loop that single steps find is found whatever the grain."""
    text, writer = written(draw, loops=True)
    text = ends_line(draw, text, writer)
    told = {}
    for grain in GRAINS:
        done = run(["--grain", grain], text, folder)
        first = done.stdout.splitlines()[0]
        told[grain] = first.split(" after ")[0] if " after " in first else first.split(":")[0].split(" in ")[0]
        if first.startswith("endless"):
            expect(first.endswith("grain step"), "a loop is told by single steps")
            told[grain] = first
    loops = {line for line in told.values() if line.startswith("endless")}
    nothing = [grain for grain, line in told.items() if line == "nothing found"]
    expect(not (loops and nothing), f"all grains find a loop: {told}")
    expect(len(loops) < 2, f"one loop for all grains: {told}")
    return text


def check_depths(draw, folder):
    """A look goes no deeper than `--depth`."""
    text, writer = written(draw, loops=True)
    text = ends_line(draw, text, writer)
    before = 0
    for depth in (1, 2, 4):
        done = run(["--json", "--grain", "step", "--depth", str(depth)], text, folder)
        told = json.loads(done.stdout)
        if told["verdict"] == "nothing":
            states = told["looks"][0]["states"]
            expect(states <= told["states"], "a look sees no more than the search")
            expect(states >= before, "a deeper look sees more")
            before = states
        elif told["verdict"] == "endless":
            expect(told["turns"] <= depth + 1, "a loop begins within the depth")
    return text


def check_from(draw, folder):
    """Each schedule that is printed is read."""
    text, writer = written(draw, spins=draw.random() < 0.5)
    if draw.random() < 0.3:
        text = ends_line(draw, text, writer)
    schedule = os.path.join(folder, "schedule")
    for grain in GRAINS:
        done = run(["--grain", grain, "--schedule", schedule], text, folder)
        if done.returncode != 1:
            continue
        first = done.stdout.splitlines()[0]
        grain = re.search(r"grain (\w+)", first).group(1)
        again = run(["--grain", grain, "--from", schedule], text, folder)
        expect(again.returncode != 2, f"--from reads it, grain {grain}: {again.stdout}")
        if first.startswith("deadlock"):
            expect(again.returncode == 1, f"it goes wrong again, grain {grain}")
    return text


def program_left(out):
    lines = out.splitlines()
    heads = [at for at, line in enumerate(lines) if line.startswith("left out: ")]
    if not heads:
        return None, lines
    first = heads[0] + 1
    last = first
    while last < len(lines) and lines[last].startswith("    "):
        last += 1
    return "\n".join(line[4:] for line in lines[first:last]) + "\n", lines[:heads[0]] + lines[last:]


def check_shrink(draw, folder):
    """What `--shrink` leaves goes wrong in the same way, by its own shortest schedule."""
    text, _ = written(draw)
    grain = draw.choice(GRAINS)
    whole = run(["--grain", grain], text, folder)
    done = run(["--grain", grain, "--shrink"], text, folder)
    expect(done.returncode == whole.returncode, "the status is that of the search")
    if done.returncode != 1:
        return text
    left, told = program_left(done.stdout)
    expect(told[0].split(" ")[0] == whole.stdout.split(" ")[0], "it goes wrong in the same way")
    if left is None:
        return text
    again = run(["--grain", grain], left, folder)
    expect(again.stdout.splitlines() == told, f"the program that is left tells the same:\n{again.stdout}\n{done.stdout}")
    expect_acts(text, left)
    return text


def sections(text):
    """The lines of each thread."""
    found, runners = {}, []
    for line in text.splitlines():
        words = line.split()
        if words[:1] == ["thread"]:
            runners = words[1:]
            for thread in runners:
                found[thread] = []
        else:
            for thread in runners:
                found[thread].append(line.strip())
    return found


def expect_acts(text, left):
    """Each thread that is left sets, adds and notifies as before, and has no release without its acquire."""
    before, after = sections(text), sections(left)
    for thread, lines in after.items():
        if not lines:
            continue
        acts = [line for line in before[thread] if line.split()[0] in ("set", "add", "notify_one", "notify_all")]
        kept = [line for line in lines if line.split()[0] in ("set", "add", "notify_one", "notify_all")]
        expect(acts == kept, f"thread {thread} changes what it changed: {acts}, {kept}")


def check_holders(draw, folder):
    """No holder is named twice, and no waiter where others hold its lock."""
    text, _ = written(draw)
    done = run(["--json"], text, folder)
    for thread in json.loads(done.stdout)["threads"]:
        holders = thread["holders"]
        expect(len(set(holders)) == len(holders), f"holders {holders}")
        expect(thread["thread"] not in holders or len(holders) == 1, f"the waiter among {holders}")
        expect(not set(thread["has"]) & set(thread["pending"]), "a right to come is no right")
    return text


def check_warnings(draw, folder):
    """No warning is told twice."""
    text, _ = written(draw, loops=True)
    depth = draw.randint(1, 4)
    nested = "\n".join(["loop"] * depth + [f"add {draw.choice('xy')} 1"] + ["end"] * depth)
    text = re.sub(r"(?m)^(thread .*)$", rf"\1\n{nested}", text, count=1)
    done = run(["--depth", "1"], text, folder)
    lines = done.stderr.splitlines()
    expect(lines, "a warning of a number that grows")
    expect(len(set(lines)) == len(lines), f"warnings: {lines}")
    return text


def check_errors(draw, folder):
    """An error shows the first 40 bytes of a word, and no control character."""
    text, _ = written(draw)
    lines = text.split("\n")
    at = draw.randrange(len(lines) - 1)
    letters = draw.choice(["q" * draw.randint(41, 3000), "q\x01\x7f\x00", "é" * 50, "q\x1b[31m"])
    words = lines[at].split(" ")
    words[draw.randrange(len(words))] = letters
    lines[at] = " ".join(words)
    text = "\n".join(lines)
    done = run([], text, folder)
    if done.returncode == 2:
        expect(not any(ord(letter) < 32 for letter in done.stdout.rstrip("\n")), f"control: {done.stdout!r}")
        word = re.search(r"`(.*?)`", done.stdout)
        expect(word is None or len(word.group(1).encode()) <= 44 * 2, f"a long word: {done.stdout!r}")
    schedule = os.path.join(folder, "schedule")
    with open(schedule, "w", encoding="utf-8") as file:
        file.write("\n".join(draw.choice([[letters], [*lines[:2], letters]])))
    told = run(["--from", schedule], written(draw)[0], folder).stdout
    expect(not any(ord(letter) < 32 for letter in told.rstrip("\n").replace("\n", "")), f"control: {told!r}")
    return text


def check_answers(draw, folder):
    """An answer that the last call cannot give is refused, with those that it can."""
    name, can = draw.choice(
        [
            ("lock a", ["ok"]),
            ("try_lock a", ["yes", "no"]),
            ("lock_timed a", ["yes", "no"]),
            ("read b", ["ok", "readers full"]),
            ("try_write b", ["yes", "no"]),
            ("try_read b", ["yes", "no", "readers full"]),
            ("acquire s", ["ok"]),
            ("notify_one c", ["yes", "no"]),
            ("wait_timed o", ["yes", "no", "poisoned"]),
        ]
    )
    answer = draw.choice(["ok", "yes", "no", "notified", "timed out", "readers full", "two mutexes", "poisoned", "failed"])
    head = "threads 1\nlock a mutex\nlock b rwlock\nlock s semaphore 1\nlock c condvar\nlock o once\nthread 0\n"
    before = draw.choice(["", "set x 1\n", "repeat 2\nset x 1\nend\n"])
    text = head.replace("thread 0\n", f"var x 0\nthread 0\n{name}\n{before}if {answer}\nset x 2\nend\n")
    done = run([], text, folder)
    if answer in can:
        expect(done.returncode != 2, f"{name} answers {answer}")
    else:
        expect(done.returncode == 2, f"{name} does not answer {answer}")
        expect(all(word in done.stdout for word in can), f"the answers are named: {done.stdout}")
    first = head.replace("thread 0\n", f"thread 0\nif {answer}\nend\n{name}\n")
    expect(run([], first, folder).returncode == 2, "no call comes before")
    return text


def check_coverage(draw, folder):
    """A line that no schedule reaches is told, and only such a one."""
    text, _ = written(draw)
    done = run(["--json"], text, folder)
    told = json.loads(done.stdout)
    if told["verdict"] != "nothing" or not told["complete"]:
        return text
    lines = text.split("\n")
    for number, line in enumerate(lines, 1):
        if line.startswith("  ") and line.strip() not in ("end", "else"):
            # An assertion before the line is false in some schedule, where the line is reached.
            probe = lines[: number - 1] + ["assert zz = 1"] + lines[number - 1 :]
            probe.insert(1, "var zz 0")
            if draw.random() < 0.2:
                done = run([], "\n".join(probe), folder)
                reached = done.stdout.startswith("assert")
                expect(reached == (number not in told["unreached"]), f"line {number} is reached: {reached}")
    return text


CHECKS = [
    check_statuses,
    check_grains,
    check_depths,
    check_from,
    check_shrink,
    check_holders,
    check_warnings,
    check_errors,
    check_answers,
    check_coverage,
]


def main():
    global PROGRAM
    programs = int(sys.argv[1]) if len(sys.argv) > 1 else 200
    seed = int(sys.argv[2]) if len(sys.argv) > 2 else 0
    PROGRAM = os.path.abspath(sys.argv[3] if len(sys.argv) > 3 else PROGRAM)
    failed = 0
    with tempfile.TemporaryDirectory() as folder:
        for check in CHECKS:
            wrong = 0
            for number in range(seed, seed + programs):
                draw = random.Random(f"{check.__name__} {number}")
                try:
                    check(draw, folder)
                except Wrong as what:
                    wrong += 1
                    if wrong <= 3:
                        with open(os.path.join(folder, "program.lot"), encoding="utf-8") as file:
                            print(f"{check.__name__}, seed {number}: {what}\n{file.read()}")
            print(f"{check.__name__}: {programs} programs, {wrong} wrong", flush=True)
            failed += wrong
    sys.exit(failed != 0)


if __name__ == "__main__":
    main()
