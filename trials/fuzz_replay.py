#!/usr/bin/env python3
"""Random and mutated inputs for `lotsim replay`, beside `trials/second_reading.py`, which answers them too. Texts and statuses have to agree.

An input is a random schedule of that script, mutated in none to six places: a line is dropped, doubled, swapped, cut or replaced, or bytes are
changed, added or joined. This script has a grammar of its own, and so tells where the first malformed line is.

It needs Python 3.8 and the proved program. Build that first: `rt run -- replay < stdin` in crates/lotsim. Then:
python3 trials/fuzz_replay.py crates/lotsim/out/lotsim SECONDS [FIRST_SEED]
Where an answer differs, the input is written to the folder of temporary files, and the status is 1. With `-` in place of the program the
inputs are answered here alone, which tries this script.
"""
import collections, os, random, re, subprocess, sys, tempfile, time

sys.path.insert(0, os.path.dirname(os.path.abspath(__file__)))
import second_reading as reading

KINDS = {"mutex", "fair", "rwlock", "recursive", "condvar", "once", "semaphore"}
TURNS = {"go", "spin", "late", "ok", "err", "solo"}
CALLS = set(reading.MUTEX) | set(reading.RWLOCK) | set(reading.FAIR) | set(reading.ONCE) | set(reading.CONDVAR) | set(reading.SEMAPHORE)
NUMBER = re.compile("(0|[1-9][0-9]{0,18})$")
NAME = re.compile("[a-z][a-z0-9]{0,15}$")
MOST_READERS, MOST_PERMITS = 2**60 - 2, 2**62

def is_lock_line(words, threads, kinds):
    if len(words) not in (3, 4) or not NAME.match(words[1]) or words[1] in kinds or words[2] not in KINDS or len(kinds) >= 256: return False
    if len(words) == 4 and not NUMBER.match(words[3]): return False
    if words[2] == "semaphore": return len(words) == 4 and 1 <= int(words[3]) <= MOST_PERMITS
    if words[2] in ("rwlock", "recursive"): return len(words) == 3 or threads <= int(words[3]) <= MOST_READERS
    return len(words) == 3

def is_turn_line(words, kinds):
    """Whether a line that begins with a thread's number has a meaning."""
    if len(words) == 2: return words[1] in TURNS
    if len(words) not in (4, 5) or words[1] not in ("begin", "do") or words[2] not in CALLS or words[3] not in kinds: return False
    if words[2] in ("wait", "wait_timed"):
        on_condvar = kinds[words[3]] == "condvar"
        return on_condvar == (len(words) == 5) and (len(words) == 4 or words[4] in kinds)
    return len(words) == 4

def first_malformed(data):
    """The number of the first malformed line, and the lines before it."""
    lines = data.split(b"\n")
    if lines[-1] == b"": lines.pop()
    threads, kinds, may_declare, good = None, {}, True, []
    for number, line in enumerate(lines, 1):
        if len(line) > 128 or any(byte > 126 or byte < 32 for byte in line): return number, good
        text = line.decode("ascii")
        words = text.split(" ")
        if "" in words: return number, good
        if threads is None:
            if len(words) != 2 or words[0] != "threads" or not NUMBER.match(words[1]) or not 1 <= int(words[1]) <= 1024: return number, good
            threads = int(words[1])
        elif words[0] == "lock":
            if not may_declare or not is_lock_line(words, threads, kinds): return number, good
            kinds[words[1]] = words[2]
        elif words == ["show"] or (NUMBER.match(words[0]) and is_turn_line(words, kinds)): may_declare = False
        else: return number, good
        good.append(text)
    return None, good

def expected(data):
    """The text and the status of an input without a `drain`."""
    number, good = first_malformed(data)
    out = reading.answered("\n".join(good)) if good else []
    if number is not None: out = out + [f"line {number} malformed"]
    return "".join(line + "\n" for line in out).encode("ascii"), 0 if number is None else 2

PARTS = [b"show", b"0 go", b"1 late", b"2 spin", b"0 ok", b"1 err", b"0 solo", b"", b" ", b"\r", b"\xff", b"lock z mutex", b"lock l0 rwlock 1", b"threads 2",
         b"18446744073709551616 go", b"9999999999999999999 go", b"00 go", b"lock s semaphore 0", b"lock s semaphore 4611686018427387905", b"a" * 128, b"a" * 129,
         b"0 do wait l0 l1", b"0 do wait l0", b"1 begin call_once l0", b"0 do lock_timed l0", b"1 do write_timed l0", b"2 begin acquire l0", b"1 do notify_all l0"]

def mutated(rng, data):
    lines = data.split(b"\n")
    for _ in range(rng.choice([0, 1, 1, 2, 3, 6])):
        at, way = rng.randrange(len(lines)), rng.randrange(9)
        line = lines[at]
        if way == 0 and len(lines) > 1: del lines[at]
        elif way == 1: lines.insert(at, line)
        elif way == 2: lines[at], lines[-1] = lines[-1], line
        elif way == 3: lines.insert(at, rng.choice(PARTS))
        elif way == 4: lines[at] = line[:rng.randrange(len(line) + 1)]
        elif way == 5 and line: lines[at] = line.replace(line[:1], bytes([rng.randrange(256)]), 1)
        elif way == 6: lines[at] = line + rng.choice([b"\r", b" ", b"0", b" 0", b"\0", b"\xc3\xa9"])
        elif way == 7: lines[at] = line.replace(b" ", b"  ", 1)
        else: lines[at] = line.replace(b"0", b"1")
    return b"\n".join(lines)

def schedule(rng):
    seed, lines = rng.randrange(2**32), rng.choice([3, 20, 60, 200])
    text, _ = reading.run_condvars(seed, lines) if rng.random() < 0.3 else reading.run(seed, lines, True, True, True)
    return ("\n".join(text) + "\n").encode("ascii")

def main():
    if len(sys.argv) < 3: sys.exit(__doc__)
    program, seconds, seed = sys.argv[1], float(sys.argv[2]), int(sys.argv[3]) if len(sys.argv) > 3 else 0
    end, counts = time.monotonic() + seconds, collections.Counter()
    while time.monotonic() < end:
        rng = random.Random(seed)
        data = mutated(rng, schedule(rng))
        wanted = expected(data)
        if program != "-":
            ended = subprocess.run([program, "replay"], input=data, capture_output=True)
            if (ended.stdout, ended.returncode) != wanted:
                path = os.path.join(tempfile.gettempdir(), f"fuzz_{seed}")
                with open(path, "wb") as file: file.write(data)
                print(f"seed {seed}: {path}: status {ended.returncode}, here {wanted[1]}")
                for k, (a, b) in enumerate(zip(ended.stdout.split(b"\n"), wanted[0].split(b"\n"))):
                    if a != b:
                        print(f"answer {k}: lotsim {a!r}, here {b!r}")
                        break
                return 1
        counts["whole" if wanted[1] == 0 else "malformed"] += 1
        counts["answers"] += wanted[0].count(b"\n")
        seed += 1
    print("agree" if program != "-" else "answered", dict(counts))
    return 0

if __name__ == "__main__":
    sys.exit(main())
