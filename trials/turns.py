#!/usr/bin/env python3
"""Compares searches of random programs by whole turns with searches by single steps: whether anything is found, and where
nothing is, what the variables have in any state, and at the end, each and two together. `rt run` has built the program before.

python3 trials/turns.py [PROGRAMS] [SEED], else 1000 programs from seed 1 on. The status is 1 where two searches differ.
"""
import pathlib
import random
import re
import subprocess
import sys

PROGRAM = pathlib.Path(__file__).resolve().parent.parent / "crates/lotexplore/out/lotexplore"
KINDS = ["mutex", "mutex", "fair", "rwlock", "rwlock", "rwlock 3", "recursive", "semaphore 1", "semaphore 2", "once",
         "condvar", "condvar"]
MOST = 300_000
NOTHING = re.compile(r"nothing found: (\d+) states")
RELEASES = {"read": "shared", "write": "exclusive", "upgradable": "upgradable"}


class Maker:
    """Makes programs of two or three threads and of one or two locks."""

    def __init__(self, seed):
        self.random = random.Random(seed)
        self.locks = []

    def note(self, thread):
        """Returns lines that change a variable, or none."""
        return self.random.choice([[], [f"set v{thread} {self.random.randint(1, 3)}"], ["add w 1"]])

    def body(self, name, thread, deep):
        """Returns the lines of a thread that owns a lock: perhaps a call of another."""
        others = [(kind, other) for kind, other in self.locks if other != name and kind != "condvar"]
        lines = self.note(thread)
        if deep and others and self.random.random() < 0.35:
            lines += self.section(*self.random.choice(others), thread, False)
        return lines

    def asked(self, call, name, lines, otherwise=()):
        """Returns a call with the lines that follow where it answers yes, and those where it does not."""
        tail = ["else", *otherwise] if otherwise else []
        return [f"{call} {name}", "if yes", *lines, *tail, "end"]

    def mutex(self, name, thread, deep):
        if self.random.random() < 0.02:
            return [f"unlock {name}"]
        call = self.random.choice(["lock", "lock", "lock", "try_lock", "lock_timed"])
        release = f"{self.random.choice(['unlock', 'unlock', 'unlock_fair'])} {name}"
        body = self.body(name, thread, deep)
        if call == "lock":
            return [f"lock {name}", *body, *self.random.choice([[], [], [f"bump {name}"]]), release]
        return self.asked(call, name, [*body, release], self.random.choice([[], ["add w 2"]]))

    def rwlock(self, name, thread, deep):
        access = self.random.choice(["read", "read", "write", "write", "upgradable"])
        end = [f"unlock_{RELEASES[access]}{self.random.choice(['', '', '_fair'])} {name}"]
        change = self.random.random()
        if access == "upgradable" and change < 0.3:
            end = [f"upgrade {name}", f"unlock_exclusive {name}"]
        elif access == "upgradable" and change < 0.6:
            call = self.random.choice(["upgrade_timed", "try_upgrade"])
            end = self.asked(call, name, [f"unlock_exclusive {name}"], end)
        elif access == "write" and change < 0.3:
            end = [f"downgrade {name}", f"unlock_shared {name}"]
        elif change > 0.85:
            end = [f"bump_{RELEASES[access]} {name}", *end]
        body = self.body(name, thread, deep)
        how = self.random.choice(["", "", "", "try", "timed"])
        if not how:
            return [f"{access} {name}", *body, *end]
        call = f"try_{access}" if how == "try" else f"{access}_timed"
        return self.asked(call, name, [*body, *end])

    def semaphore(self, name, thread, deep):
        call = self.random.choice(["acquire", "acquire", "try_acquire", "acquire_timed"])
        body = [*self.body(name, thread, deep), f"release {name}"]
        return [f"acquire {name}", *body] if call == "acquire" else self.asked(call, name, body)

    def once(self, name, thread):
        call = self.random.choice(["call_once", "call_once", "call_once_force", "wait", "wait_timed"])
        if call.startswith("wait"):
            return [f"{call} {name}"]
        return [f"{call} {name}", *self.note(thread), self.random.choice(["ok", "ok", "err"])]

    def condvar(self, name, thread):
        mutex = next(other for kind, other in self.locks if kind == "mutex")
        way = self.random.random()
        notify = self.random.choice(["notify_one", "notify_all"])
        if way < 0.5:
            return [f"lock {mutex}", f"{self.random.choice(['wait', 'wait_timed'])} {name} {mutex}", f"unlock {mutex}"]
        if way < 0.8:
            return [f"lock {mutex}", *self.note(thread), f"{notify} {name}", f"unlock {mutex}"]
        return [f"{notify} {name}"]

    def section(self, kind, name, thread, deep):
        """Returns the lines of a call, and of those that give back what it has got."""
        sort = kind.split()[0]
        if sort == "once":
            return self.once(name, thread)
        if sort == "condvar":
            return self.condvar(name, thread)
        ways = {"mutex": self.mutex, "fair": self.mutex, "semaphore": self.semaphore}
        return ways.get(sort, self.rwlock)(name, thread, deep)

    def chosen(self, thread):
        """Returns the lines of a section, or of a choice between one and something else."""
        lines = self.section(*self.random.choice(self.locks), thread, True)
        if self.random.random() > 0.25:
            return lines
        other = self.random.choice([[], self.note(thread), self.section(*self.random.choice(self.locks), thread, False)])
        return ["either", *lines, "or", *other, "end"]

    def program(self):
        """Returns the text of a program."""
        self.locks = [(self.random.choice(KINDS), name) for name in self.random.choice(["a", "a", "ab"])]
        if any(kind == "condvar" for kind, _ in self.locks):
            self.locks = [next(lock for lock in self.locks if lock[0] == "condvar"), ("mutex", "m")]
        threads = self.random.choice([2, 2, 2, 3])
        lines = [f"threads {threads}", *(f"lock {name} {kind}" for kind, name in self.locks)]
        lines += [*(f"var v{thread} 0" for thread in range(threads)), "var w 0"]
        for thread in range(threads):
            lines.append(f"thread {thread}")
            for _ in range(self.random.choice([1, 1, 2]) if threads == 2 else 1):
                lines += self.chosen(thread)
        number = self.random.randint(0, 3)
        lines += self.random.choice([[], [f"always w /= {number + 1}"], [f"finally w /= {number}"], ["finally v0 = v1"],
                                     [f"always w < {number} or v0 = v1 and v0 < 3"]])
        return "\n".join([*lines, ""])


def found(text, grain):
    """Returns the first line that a search prints."""
    command = [str(PROGRAM), "--grain", grain, "--states", str(MOST), "--jobs", "1"]
    ran = subprocess.run(command, input=text, capture_output=True, text=True, check=False)
    return (ran.stdout.splitlines() or [ran.stderr])[0]


def claims(text):
    """Returns lines which say that a variable never has a number, and that two together don't end with two numbers."""
    names = re.findall(r"^var (\w+)", text, re.MULTILINE)
    numbers = range(4)
    alone = [f"{when} {name} /= {number}" for when in ("always", "finally") for name in names for number in numbers]
    pairs = [(one, other) for at, one in enumerate(names) for other in names[at + 1 :]]
    return alone + [f"finally {one} /= {a} or {other} /= {b}" for one, other in pairs for a in numbers for b in numbers]


def broken(text, grain, lines):
    """Returns which of some lines a search finds broken that goes on after each of them."""
    whole = text + "".join(f"{line}\n" for line in lines)
    command = [str(PROGRAM), "--grain", grain, "--states", str(MOST), "--jobs", "1", "--all"]
    ran = subprocess.run(command, input=whole, capture_output=True, text=True, check=False)
    numbers = [int(number) for number in re.findall(r"^without line (\d+):", ran.stdout, re.MULTILINE)]
    every = whole.splitlines()
    return {every[number - 1] for number in numbers}


def main():
    programs = int(sys.argv[1]) if len(sys.argv) > 1 else 1000
    first = int(sys.argv[2]) if len(sys.argv) > 2 else 1
    states, differ, values, told = {"step": 0, "turns": 0}, 0, 0, {}
    for seed in range(first, first + programs):
        text = Maker(seed).program()
        lines = {grain: found(text, grain) for grain in states}
        words = {grain: re.split(r" after|:| in ", line)[0] for grain, line in lines.items()}
        told[words["step"]] = told.get(words["step"], 0) + 1
        both = [NOTHING.match(line) for line in lines.values()]
        if all(both):
            for grain, line in lines.items():
                states[grain] += int(NOTHING.match(line).group(1))
            sets = {grain: broken(text, grain, claims(text)) for grain in states}
            values += len(sets["step"])
            if sets["step"] != sets["turns"]:
                differ += 1
                print(f"seed {seed} differs: {sets['step'] ^ sets['turns']}\n{text}")
        elif (NOTHING.match(lines["step"]) is None) != (NOTHING.match(lines["turns"]) is None):
            differ += 1
            print(f"seed {seed} differs: {lines}\n{text}")
    print(f"{programs} programs, {differ} differ; {states['step']} states by step, {states['turns']} by turns; {told}")
    print(f"{values} values of variables, the same by both")
    sys.exit(1 if differ else 0)


main()
