#!/usr/bin/env python3
"""A second reading of the step tables, beside the program: random schedules of mutexes, reader-writer locks, semaphores, `Once` and condition
variables, answered here and by `lotsim replay`, have to agree.

Build the proved program first: `rt run -- replay < stdin` in crates/lotsim. Then:
python3 trials/second_reading.py crates/lotsim/out/lotsim SCHEDULES LINES [FIRST_SEED] [--fair] [--once] [--semaphore] [--condvar]
With --fair, fair releases and bumps of reader-writer locks are among the calls; with --once, each `Once` is among the locks, and with
--semaphore semaphores are; with --condvar the locks are mutexes and condition variables. To answer one schedule here: python3 trials/second_reading.py - < SCHEDULE
"""
import os, random, subprocess, sys, tempfile

P, WP, U, W = 1, 2, 4, 8
DONE, POISONED, RUNNING, MARKED = 1, 2, 4, 8
TOKEN = {"s": 16, "u": 20}
DEFAULT = 2**60 - 2

class Lock:
    def __init__(self, number, name, kind, limit):
        self.number, self.name, self.kind, self.limit = number, name, kind, limit
        self.word = 2 * limit if kind == "semaphore" else 0
        self.main, self.second = [], []          # (thread, want)
        self.inside = {"main": None, "second": None}
        self.exclusive = self.pending = self.upgradable = self.runner = None
        self.shared = {}
    def queue(self, line): return self.main if line == "main" else self.second
    def readers(self): return sum(self.shared.values())

class Thread:
    def __init__(self, number):
        self.number = number
        self.clear()
    def clear(self):
        self.call = None        # (name, lock)
        self.step = None        # what the next go does
        self.enters = []        # each (lock, line)
        self.spin = None
        self.asleep = False
        self.note = None
        self.timed = False
        self.late = None
        self.owes = []          # each lock
        self.retries = None
        self.hand = []
        self.woken = None       # what a go does with a note
        self.close = None       # what its closure's answer does
        self.told = None        # what its closure was told

class World:
    def __init__(self, threads, locks):
        self.threads = [Thread(t) for t in range(threads)]
        self.locks = [Lock(n, *lock) for n, lock in enumerate(locks)]

    # ---------------------------------------------------------------- turns
    def outcome(self, t):
        if t.ended is not None: return "end " + t.ended
        if t.close is not None: return "closure " + t.told
        if t.asleep and t.note is None: return "sleep"
        return "step"

    def can_go(self, t):
        if t.call is None or t.close is not None: return False
        if t.asleep and t.note is None: return False
        if not t.asleep and any(lock.inside[line] is not None for lock, line in t.enters): return False
        return True

    def go(self, number):
        if number >= len(self.threads): return "not now"
        t = self.threads[number]
        if not self.can_go(t): return "not now"
        t.ended = None
        if t.asleep:
            note, t.note, t.asleep = t.note, None, False
            woken = t.woken
            woken(note)
        else:
            step = t.step
            t.step, t.enters, t.spin = None, [], None
            step()
        return self.outcome(t)

    def spin(self, number):
        if number >= len(self.threads): return "not now"
        t = self.threads[number]
        if t.call is None or t.asleep or t.close is not None or t.spin is None: return "not now"
        t.ended = None
        spin = t.spin
        t.step, t.enters, t.spin = None, [], None
        spin()
        return self.outcome(t)

    def closes(self, number, succeeded):
        if number >= len(self.threads): return "not now"
        t = self.threads[number]
        if t.close is None: return "not now"
        t.ended = None
        close, t.close = t.close, None
        close(succeeded)
        return self.outcome(t)

    def is_late(self, t):
        if t.call is None or not t.asleep or t.note is not None or not t.timed: return None
        for lock in self.locks:
            for line in ("main", "second"):
                if any(u == t.number for u, _ in lock.queue(line)):
                    return (lock, line) if lock.inside[line] is None else None
        return None

    def turn_late(self, number):
        if number >= len(self.threads): return "not now"
        t = self.threads[number]
        at = self.is_late(t)
        if at is None: return "not now"
        lock, line = at
        lock.inside[line] = t.number
        t.owes = [lock]
        t.asleep = False
        t.ended = None
        t.late()
        return self.outcome(t)

    def solo(self, number):
        last = "not now"
        for _ in range(64):
            out = self.go(number)
            if out == "not now": return last
            last = out
            if out != "step": return last
        return last

    def begin(self, number, name, lock_number, mutex_number=None):
        if number >= len(self.threads): return "not now"
        t, l = self.threads[number], self.locks[lock_number]
        if t.call is not None: return "not now"
        calls = {"mutex": MUTEX, "fair": MUTEX, "once": ONCE, "condvar": CONDVAR, "semaphore": SEMAPHORE}.get(l.kind, RWLOCK | FAIR)
        if name not in calls: return "not now"
        if l.kind == "condvar":
            m = None if mutex_number is None else self.locks[mutex_number]
            if name in WAITS and (m is None or m.kind != "mutex" or m.exclusive != number): return "not now"
            t.call = (name, l)
            t.ended = None
            WaitCall(self, t, l, m, name).begin() if name in WAITS else NotifyCall(self, t, l, name).begin()
            return "step"
        need = RIGHT.get(name)
        if need == "x" and l.exclusive != number: return "not now"
        if need == "u" and l.upgradable != number: return "not now"
        if need == "s" and l.shared.get(number, 0) == 0: return "not now"
        t.call = (name, l)
        t.ended = None
        Call(self, t, l, name).begin()
        return "step"

    def show(self):
        out = []
        for l in self.locks:
            own = []
            if l.exclusive is not None: own.append(f"{l.exclusive}x")
            if l.pending is not None: own.append(f"{l.pending[0]}p")
            if l.upgradable is not None: own.append(f"{l.upgradable}u")
            if l.runner is not None: own.append(f"{l.runner}r")
            for t in sorted(l.shared): own += [f"{t}s"] * l.shared[t]
            line = f"{l.name} {l.word}"
            if own: line += " own=" + ",".join(own)
            if l.main: line += " queue=" + ",".join(f"{t}{w}" for t, w in l.main)
            if l.second: line += " aside=" + ",".join(f"{t}" for t, _ in l.second)
            owe = [str(t.number) for t in self.threads if l in t.owes]
            if owe: line += " owe=" + ",".join(owe)
            retry = [str(t.number) for t in self.threads if t.retries is l]
            if retry: line += " retry=" + ",".join(retry)
            out.append(line)
        return out

MUTEX = {"lock", "lock_timed", "try_lock", "unlock", "unlock_fair", "bump"}
RWLOCK = {"read", "read_timed", "try_read", "upgradable", "upgradable_timed", "try_upgradable", "write", "write_timed", "try_write",
          "unlock_shared", "unlock_exclusive", "unlock_upgradable", "downgrade", "downgrade_upgradable", "downgrade_to_upgradable",
          "upgrade", "upgrade_timed", "try_upgrade"}
FAIR = {"unlock_shared_fair", "unlock_exclusive_fair", "unlock_upgradable_fair", "bump_shared", "bump_exclusive", "bump_upgradable"}
WAITS = {"wait", "wait_timed"}
CONDVAR = WAITS | {"notify_one", "notify_all"}
ONCE = {"call_once", "call_once_force", "wait", "wait_force", "wait_timed"}
SEMAPHORE = {"acquire", "acquire_timed", "try_acquire", "release"}
RIGHT = {"release": "s", "unlock": "x", "unlock_fair": "x", "bump": "x", "unlock_shared": "s", "unlock_shared_fair": "s", "bump_shared": "s",
         "unlock_exclusive": "x", "unlock_exclusive_fair": "x", "bump_exclusive": "x", "downgrade": "x", "downgrade_to_upgradable": "x",
         "unlock_upgradable": "u", "unlock_upgradable_fair": "u", "bump_upgradable": "u", "downgrade_upgradable": "u",
         "upgrade": "u", "upgrade_timed": "u", "try_upgrade": "u"}

class Call:
    """The steps of one call."""
    def __init__(self, world, t, l, name):
        self.world, self.t, self.l, self.name = world, t, l, name
        self.recursive = l.kind == "recursive"

    # ------------------------------------------------ tools
    def then(self, step, enters=None, spin=None):
        self.t.step, self.t.enters, self.t.spin = step, [enters] if enters else [], spin
    def end(self, answer):
        t = self.t
        hand = t.hand
        assert not hand
        t.clear()
        t.ended = answer
    def exchange(self, a, b):
        if self.l.word == a:
            self.l.word = b
            return True
        return False
    def owned(self):
        if self.t.retries is self.l: self.t.retries = None
    def enter(self, line, then):
        def step():
            assert self.l.inside[line] is None
            self.l.inside[line] = self.t.number
            self.t.owes = [self.l]
            then()
        self.then(step, (self.l, line))
    def leave(self, line, note, then):
        def step():
            self.l.inside[line] = None
            self.t.owes = []
            for u in self.t.hand: self.wake(u, note)
            self.t.hand = []
            then()
        self.then(step)
    def wake(self, u, note):
        thread = self.world.threads[u]
        thread.note = note
        if note == "normal": thread.retries = self.l
    def park(self, line, check, want, woken, gave_up):
        """Enter the section, look, stand behind the last, leave, sleep."""
        l, t = self.l, self.t
        def look():
            if check(l.word):
                l.queue(line).append((t.number, want))
                self.owned()
                self.leave(line, "normal", asleep)
            else:
                self.leave(line, "normal", lambda: woken("normal"))
        def asleep():
            t.asleep, t.note, t.woken, t.late = True, None, wakes, late
        def wakes(note):
            # the go that finds the note does the first step of what follows
            woken(note)
            if note == "normal":
                step = t.step
                t.step, t.enters, t.spin = None, [], None
                step()
        def late():
            # the late step has entered the section
            def remove():
                q = l.queue(line)
                q[:] = [x for x in q if x[0] != t.number]
                last = not q
                if line == "second" or last:
                    def clear():
                        l.word &= ~(2 if line == "second" or l.kind in ("mutex", "fair") else MARKED if l.kind == "once" else P)
                        self.leave(line, "normal", gave_up)
                    self.then(clear)
                else:
                    self.leave(line, "normal", gave_up)
            self.then(remove)
        self.enter(line, lambda: self.then(look))

    # ------------------------------------------------ begin
    def begin(self):
        n = self.name
        self.t.timed = n.endswith("_timed")
        if n in MUTEX: getattr(self, "m_" + n)()
        elif n in SEMAPHORE: getattr(self, "s_" + n)()
        elif n in ONCE:
            self.forced, self.runs = n.endswith("_force"), n.startswith("call")
            self.then(self.o_load)
        elif n.startswith(("read", "upgradable")):
            self.want = "s" if n.startswith("read") else "u"
            self.enter_shared()
        elif n in ("try_read", "try_upgradable"):
            self.want = "s" if n == "try_read" else "u"
            self.then(lambda: self.try_loop(self.l.word))
        elif n in ("write", "write_timed"): self.begin_write()
        elif n == "try_write":
            def step():
                if self.exchange(0, 8):
                    self.l.exclusive = self.t.number
                    self.end("yes")
                else: self.end("no")
            self.then(step)
        else: getattr(self, "r_" + n)()

    # ------------------------------------------------ mutexes
    def m_lock(self):
        def step():
            if self.exchange(0, 1): self.m_own()
            else: self.then(self.m_load)
        self.then(step)
    m_lock_timed = m_lock
    def m_own(self):
        self.owned()
        self.l.exclusive = self.t.number
        self.end("yes" if self.t.timed else "ok")
    def m_load(self): self.m_loop(self.l.word)
    def m_loop(self, s):
        if s & 1 == 0:
            def step():
                if self.exchange(s, s + 1): self.m_own()
                else: self.m_loop(self.l.word)
            self.then(step)
        elif s == 1:
            def step():
                if self.exchange(1, 3): self.m_park()
                else: self.m_loop(self.l.word)
            self.then(step, None, self.m_load)
        else: self.m_park()
    def m_park(self):
        def woken(note):
            if note == "normal": self.then(self.m_load)
            else: self.m_handed()
        self.park("main", lambda w: w == 3, "x", woken, lambda: self.end("no"))
    def m_handed(self):
        self.end("yes" if self.t.timed else "ok")
    def m_try_lock(self):
        def step():
            before, self.l.word = self.l.word, self.l.word | 1
            if before & 1 == 0:
                self.l.exclusive = self.t.number
                self.end("yes")
            else: self.end("no")
        self.then(step)
    def m_unlock(self, after=None):
        if self.l.kind == "fair": return self.m_unlock_fair()
        after = after or (lambda: self.end("ok"))
        def step():
            seen = self.l.word
            self.l.word -= 1
            self.l.exclusive = None
            if seen & 2 == 0: return after()
            self.t.owes = [self.l]
            self.enter("main", lambda: self.then(take))
        def take():
            q = self.l.main
            if q: self.t.hand = [q.pop(0)[0]]
            if not q:
                def clear():
                    self.l.word &= ~2
                    self.leave("main", "normal", after)
                self.then(clear)
            else: self.leave("main", "normal", after)
        self.then(step)
    def m_unlock_fair(self, after=None):
        after = after or (lambda: self.end("ok"))
        def step():
            if self.exchange(1, 0):
                self.l.exclusive = None
                return after()
            self.t.owes = [self.l]
            self.m_hand(after)
        self.then(step)
    def m_hand(self, after):
        def take():
            q = self.l.main
            if q: self.t.hand = [q.pop(0)[0]]
            left = bool(q)
            def store():
                if self.t.hand:
                    self.l.word = 3 if left else 1
                    self.l.exclusive = self.t.hand[0]
                    u = self.world.threads[self.t.hand[0]]
                    if u.retries is self.l: u.retries = None
                else:
                    self.l.word = 0
                    self.l.exclusive = None
                self.leave("main", "hand-off", after)
            self.then(store)
        self.enter("main", lambda: self.then(take))
    def m_bump(self):
        def step():
            if self.l.word & 2 == 0: return self.end("ok")
            self.t.owes = [self.l]
            self.m_hand(self.m_lock)
        self.then(step)

    # ------------------------------------------------ reader-writer locks: entering
    def blocked(self, want, s):
        if want == "s":
            return s & W != 0 and (not self.recursive or s // 16 == 0)
        return s & (W | U) != 0
    def share(self):
        self.owned()
        l, t = self.l, self.t.number
        if self.want == "s": l.shared[t] = l.shared.get(t, 0) + 1
        else: l.upgradable = t
        self.end("yes" if self.t.timed or self.name.startswith("try") else "ok")
    def enter_shared(self): self.then(self.load)
    def load(self): self.loop(self.l.word)
    def mark_or_park(self, s):
        """Blocked by s."""
        if s & P == 0:
            def step():
                if self.exchange(s, s + 1): self.park_main()
                else: self.loop(self.l.word)
            self.then(step, None, self.load if s & (P | WP) == 0 else None)
        else: self.park_main()
    def loop(self, s):
        want = self.want
        if self.blocked(want, s): return self.mark_or_park(s)
        if want == "x":
            def step():
                if self.exchange(s, s + 8):
                    self.owned()
                    self.l.pending = (self.t.number, False)
                    self.readers(0)
                else: self.loop(self.l.word)
            return self.then(step)
        if s // 16 >= self.l.limit: return self.end("readers full")
        def step():
            if self.exchange(s, s + TOKEN[want]): self.share()
            else: self.loop(self.l.word)
        self.then(step)
    def park_main(self):
        want = self.want
        def woken(note):
            if note == "normal": self.then(self.load)
            elif want == "x": 
                self.readers(0)
                step = self.t.step
                self.t.step, self.t.enters, self.t.spin = None, None, None
                step()
            else: self.end("yes" if self.t.timed else "ok")
        self.park("main", lambda w: w & P != 0 and self.blocked(want, w), want, woken, lambda: self.end("no"))
    def try_loop(self, s):
        if self.blocked(self.want, s): return self.end("no")
        if s // 16 >= self.l.limit: return self.end("readers full")
        def step():
            if self.exchange(s, s + TOKEN[self.want]): self.share()
            else: self.try_loop(self.l.word)
        self.then(step)
    def begin_write(self):
        self.want = "x"
        def step():
            if self.exchange(0, 8):
                self.l.exclusive = self.t.number
                self.owned()
                self.end("yes" if self.t.timed else "ok")
            else: self.then(self.load)
        self.then(step)

    # ------------------------------------------------ a pending writer
    def readers(self, prev):
        self.prev = prev
        self.then(lambda: self.count(self.l.word))
    def count(self, s):
        if s // 16 == 0:
            self.owned()
            self.l.pending, self.l.exclusive = None, self.t.number
            return self.end("yes" if self.t.timed else "ok")
        look = lambda: self.count(self.l.word)
        if s & WP == 0:
            def step():
                if self.exchange(s, s + 2): self.park_aside(False)
                else: self.count(self.l.word)
            self.then(step, None, look)
        else: self.park_aside(True)
    def park_aside(self, may_spin):
        def woken(note): self.then(lambda: self.count(self.l.word))
        self.park("second", lambda w: w // 16 > 0 and w & WP != 0, "x", woken, self.roll_back)
        if may_spin: self.t.spin = lambda: self.count(self.l.word)
    def roll_back(self):
        def step():
            seen = self.l.word
            self.l.word += self.prev - 8
            self.l.pending = None
            if self.prev == 20: self.l.upgradable = self.t.number
            if seen & P == 0: return self.end("no")
            self.t.owes = [self.l]
            self.wake_main("u" if self.prev == 20 else None, lambda: self.end("no"))
        self.then(step)

    # ------------------------------------------------ waking
    def picked(self, start):
        q = self.l.main
        more = next((i for i, (_, w) in enumerate(q) if w in "xu"), None)
        keeps = start in ("x", "u")
        stop = len(q)
        if more is not None and q[more][1] == "x" and not self.recursive and not keeps: stop = more + 1
        taken = [i for i in range(stop) if q[i][1] == "s" or (i == more and not keeps)]
        return taken
    def take_picked(self, start):
        q = self.l.main
        taken = self.picked(start)
        who = [q[i] for i in taken]
        self.l.main[:] = [x for i, x in enumerate(q) if i not in taken]
        self.t.hand = [u for u, _ in who]
        return who
    def wake_main(self, start, after):
        def take():
            self.take_picked(start)
            if not self.l.main:
                def clear():
                    self.l.word &= ~P
                    self.leave("main", "normal", after)
                self.then(clear)
            else: self.leave("main", "normal", after)
        self.enter("main", lambda: self.then(take))

    # ------------------------------------------------ leaving and converting
    def r_unlock_shared(self):
        def step():
            seen = self.l.word
            self.l.word -= 16
            l, t = self.l, self.t.number
            l.shared[t] -= 1
            if l.shared[t] == 0: del l.shared[t]
            if seen // 16 == 1 and seen & WP:
                self.t.owes = [l]
                self.enter("second", lambda: self.then(take))
            else: self.released()
        def take():
            if self.l.second: self.t.hand = [self.l.second.pop(0)[0]]
            def clear():
                self.l.word &= ~WP
                self.leave("second", "normal", self.released)
            self.then(clear)
        self.then(step)
    def released(self):
        """A release ends; a bump enters again."""
        if self.name == "bump_shared": self.enter_shared()
        else: self.end("ok")
    r_unlock_shared_fair = r_unlock_shared
    def turn(self, change, own, start):
        def step():
            seen = self.l.word
            self.l.word += change
            own()
            if seen & P == 0: return self.end("ok")
            self.t.owes = [self.l]
            self.wake_main(start, lambda: self.end("ok"))
        self.then(step)
    def r_unlock_exclusive(self):
        def own(): self.l.exclusive = None
        self.turn(-8, own, None)
    def r_unlock_upgradable(self):
        def own(): self.l.upgradable = None
        self.turn(-20, own, None)
    def share_now(self):
        t = self.t.number
        self.l.shared[t] = self.l.shared.get(t, 0) + 1
    def r_downgrade(self):
        def own(): self.l.exclusive = None; self.share_now()
        self.turn(8, own, "s")
    def r_downgrade_upgradable(self):
        def own(): self.l.upgradable = None; self.share_now()
        self.turn(-4, own, "s")
    def r_downgrade_to_upgradable(self):
        def own(): self.l.exclusive = None; self.l.upgradable = self.t.number
        self.turn(12, own, "u")
    def r_upgrade(self):
        def step():
            seen = self.l.word
            self.l.word -= 12
            self.l.upgradable = None
            if seen // 16 == 1:
                self.l.exclusive = self.t.number
                self.end("yes" if self.t.timed else "ok")
            else:
                self.l.pending = (self.t.number, True)
                self.readers(20)
        self.then(step)
    r_upgrade_timed = r_upgrade
    def r_try_upgrade(self):
        def look(s):
            if s // 16 != 1: return self.end("no")
            def step():
                if self.exchange(s, s - 12):
                    self.l.upgradable, self.l.exclusive = None, self.t.number
                    self.end("yes")
                else: look(self.l.word)
            self.then(step)
        self.then(lambda: look(self.l.word))

    # ------------------------------------------------ fair releases and bumps
    def hand(self, who, left):
        """All that were taken own by what they want; a writer beside readers is pending."""
        l = self.l
        for u, want in who:
            thread = self.world.threads[u]
            if thread.retries is l: thread.retries = None
            if want == "s": l.shared[u] = l.shared.get(u, 0) + 1
        for u, want in who:
            if want == "u": l.upgradable = u
            if want == "x":
                if l.readers(): l.pending = (u, False)
                else: l.exclusive = u
    def tokens(self, who): return sum({"s": 16, "u": 20, "x": 8}[want] for _, want in who)
    def hand_exclusive(self, after):
        def take():
            who = self.take_picked(None)
            left = bool(self.l.main)
            def store():
                self.l.word = self.tokens(who) + (P if left and who else 0)
                self.l.exclusive = None
                self.hand(who, left)
                self.leave("main", "hand-off", after)
            self.then(store)
        self.enter("main", lambda: self.then(take))
    def r_unlock_exclusive_fair(self):
        def step():
            if self.exchange(8, 0):
                self.l.exclusive = None
                return self.end("ok")
            self.t.owes = [self.l]
            self.hand_exclusive(lambda: self.end("ok"))
        self.then(step)
    def hand_upgradable(self, after):
        def load(): loop(self.l.word)
        def loop(s):
            if s & P == 0:
                def step():
                    if self.exchange(s, s - 20):
                        self.l.upgradable = None
                        after()
                    else: loop(self.l.word)
                self.then(step)
            else:
                self.t.owes = [self.l]
                self.enter("main", lambda: self.then(take))
        def take():
            who = self.take_picked(None)
            left = bool(self.l.main)
            def decide(s):
                n = (s - 20 + self.tokens(who)) & ~P | (P if left else 0)
                fits = n // 16 <= self.l.limit
                to = n if fits else (s - 20) & ~P | (P if left else 0)
                def step():
                    if not self.exchange(s, to): return decide(self.l.word)
                    self.l.upgradable = None
                    if fits: self.hand(who, left)
                    self.leave("main", "hand-off" if fits else "normal", after)
                self.then(step)
            self.then(lambda: decide(self.l.word))
        self.then(load)
    def r_unlock_upgradable_fair(self): self.hand_upgradable(lambda: self.end("ok"))
    def r_bump_shared(self):
        def step():
            s = self.l.word
            if s & W == 0 or (self.recursive and s // 16 != 1): return self.end("ok")
            self.want = "s"
            self.r_unlock_shared()
        self.then(step)
    def r_bump_exclusive(self):
        def step():
            if self.l.word & P == 0: return self.end("ok")
            self.t.owes = [self.l]
            self.hand_exclusive(self.begin_write)
        self.then(step)
    def r_bump_upgradable(self):
        def step():
            if self.l.word & P == 0: return self.end("ok")
            self.want = "u"
            self.hand_upgradable(self.enter_shared)
        self.then(step)

    # ------------------------------------------------ semaphores
    def s_acquire(self): self.then(self.s_load)
    s_acquire_timed = s_acquire
    def s_own(self, answer):
        self.owned()
        self.l.shared[self.t.number] = self.l.shared.get(self.t.number, 0) + 1
        self.end(answer)
    def s_load(self): self.s_loop(self.l.word)
    def s_loop(self, s):
        if s >= 2:
            def step():
                if self.exchange(s, s - 2): self.s_own("yes" if self.t.timed else "ok")
                else: self.s_loop(self.l.word)
            self.then(step)
        elif s == 0:
            def step():
                if self.exchange(0, 1): self.s_park()
                else: self.s_loop(self.l.word)
            self.then(step, None, self.s_load)
        else: self.s_park()
    def s_park(self):
        self.park("main", lambda w: w == 1, "s", lambda note: self.then(self.s_load), lambda: self.end("no"))
    def s_try_acquire(self): self.then(lambda: self.s_try(self.l.word))
    def s_try(self, s):
        if s < 2: return self.end("no")
        def step():
            if self.exchange(s, s - 2): self.s_own("yes")
            else: self.s_try(self.l.word)
        self.then(step)
    def s_release(self):
        def step():
            seen = self.l.word
            self.l.word += 2
            self.l.shared[self.t.number] -= 1
            if not seen & 1: return self.end("ok")
            self.t.owes = [self.l]
            self.enter("main", lambda: self.then(take))
        def take():
            self.t.hand = [u for u, _ in self.l.main[:1]]
            del self.l.main[:1]
            self.then(clear) if not self.l.main else leave()
        def clear():
            self.l.word &= ~1
            leave()
        def leave(): self.leave("main", "normal", lambda: self.end("ok"))
        self.then(step)

    # ------------------------------------------------ once
    def o_load(self): self.o_loop(self.l.word)
    def o_loop(self, s):
        if s & DONE: return self.end("yes" if self.t.timed else "ok")
        if s & POISONED and not self.forced: return self.end("poisoned")
        if self.runs and not s & RUNNING:
            def step():
                if not self.exchange(s, s & MARKED | RUNNING): return self.o_loop(self.l.word)
                self.owned()
                self.l.runner = self.t.number
                self.t.told = "Poisoned" if s & POISONED else "New"
                self.t.close = self.o_close
            self.then(step)
        elif not s & MARKED:
            def step():
                if self.exchange(s, s + MARKED): self.o_park()
                else: self.o_loop(self.l.word)
            self.then(step, None, self.o_load if s & RUNNING else None)
        else: self.o_park()
    def o_waits(self, w):
        if self.runs: return w == RUNNING + MARKED
        return w & MARKED != 0 and not w & DONE and (self.forced or not w & POISONED)
    def o_park(self):
        self.park("main", self.o_waits, "c" if self.runs else "w", lambda note: self.then(self.o_load), lambda: self.end("no"))
    def o_close(self, succeeded):
        seen, self.l.word, self.l.runner = self.l.word, DONE if succeeded else POISONED, None
        answer = "ok" if succeeded else "failed"
        if not seen & MARKED: return self.end(answer)
        self.t.owes = [self.l]
        def take():
            self.t.hand = [u for u, _ in self.l.main]
            self.l.main.clear()
            self.leave("main", "normal", lambda: self.end(answer))
        self.enter("main", lambda: self.then(take))

# ---------------------------------------------------------------- condition variables

class Relock(Call):
    """A wait's call of its mutex, which ends the wait."""
    def __init__(self, world, t, mutex, told):
        super().__init__(world, t, mutex, "lock")
        self.told = told
    def end(self, answer): super().end(self.told)

class WaitCall(Call):
    def __init__(self, world, t, l, mutex, name):
        super().__init__(world, t, l, name)
        self.m = mutex
        self.limited = name == "wait_timed"
    def begin(self): self.enter("main", lambda: self.then(self.show))
    def show(self):
        mine = self.m.number + 1
        if self.l.word == 0: self.l.word = mine
        if self.l.word == mine: self.then(self.stand)
        else: self.leave("main", "normal", lambda: self.end("two mutexes"))
    def stand(self):
        self.l.main.append((self.t.number, "w"))
        self.leave("main", "normal", lambda: Call(self.world, self.t, self.m, "unlock").m_unlock(self.sleep))
    def sleep(self):
        # a note may have come while it released its mutex
        t = self.t
        t.asleep, t.woken, t.late, t.timed = True, self.wakes, self.is_late, self.limited
    def relock(self, told):
        self.t.timed = False
        Relock(self.world, self.t, self.m, told).m_lock()
    def wakes(self, note):
        told = "notified" if self.limited else "ok"
        if note == "hand-off": return self.end(told)
        self.relock(told)
        step = self.t.step
        self.t.step, self.t.enters, self.t.spin = None, [], None
        step()
    def is_late(self):
        me = self.t.number
        def listed():
            self.l.main[:] = [x for x in self.l.main if x[0] != me]
            out = lambda: self.leave("main", "normal", lambda: self.relock("timed out"))
            def hide():
                self.l.word = 0
                out()
            if self.l.main: out()
            else: self.then(hide)
        def moved():
            self.m.main[:] = [x for x in self.m.main if x[0] != me]
            def out():
                self.m.inside["main"] = None
                self.t.owes = []
                self.relock("notified")
            self.then(out)
        self.then(listed if self.l.inside["main"] == me else moved)

class NotifyCall(Call):
    def begin(self):
        self.all, self.number = self.name == "notify_all", 0
        self.then(self.look)
    def tell(self): self.end(str(self.number) if self.all else "yes" if self.number else "no")
    def look(self):
        self.seen = self.l.word
        if self.seen == 0: return self.tell()
        self.m = self.world.locks[self.seen - 1]
        self.t.step, self.t.enters, self.t.spin = self.come, [(self.l, "main"), (self.m, "main")], None
    def come(self):
        self.l.inside["main"] = self.m.inside["main"] = self.t.number
        self.t.owes = [self.l, self.m]
        self.then(self.again)
    def again(self):
        if self.l.word != self.seen: self.then(self.go_out)
        elif self.all: self.then(self.hide)
        else: self.then(self.mark)
    def hide(self):
        self.l.word = 0
        self.then(self.mark)
    def mark(self): self.marked(self.m.word)
    def marked(self, s):
        if s & 1 == 0: return self.then(lambda: self.move(False))
        def put():
            if self.m.word == s:
                self.m.word = s | 2
                self.then(lambda: self.move(True))
            else: self.marked(self.m.word)
        self.then(put)
    def move(self, locked):
        q = self.l.main
        gone = [u for u, _ in (q[:] if self.all else q[:1])]
        q[:] = q[len(gone):]
        self.number = len(gone)
        taken, moved = ([], gone) if locked else (gone[:1], gone[1:])
        self.t.hand = taken
        self.m.main += [(u, "x") for u in moved]
        def clear():
            self.l.word = 0
            self.then(self.go_out)
        def mark_moved():
            self.m.word |= 2
            self.then(self.go_out)
        if not self.all and not q: self.then(clear)
        elif self.all and not locked and moved: self.then(mark_moved)
        else: self.then(self.go_out)
    def go_out(self):
        self.l.inside["main"] = self.m.inside["main"] = None
        self.t.owes = []
        for u in self.t.hand:
            thread = self.world.threads[u]
            thread.note, thread.retries = "normal", self.m
        self.t.hand = []
        self.tell()

# ---------------------------------------------------------------- one schedule

def answered(text):
    """The answers to the lines of one schedule that has no malformed line."""
    lines = [line.split() for line in text.splitlines()]
    locks = [(words[1], words[2], int(words[3]) if len(words) > 3 else DEFAULT) for words in lines if words and words[0] == "lock"]
    numbers = {name: n for n, (name, _, _) in enumerate(locks)}
    threads = next((int(words[1]) for words in lines if words and words[0] == "threads"), 0)
    w, out = World(threads, locks), []
    for words in lines:
        if not words or words[0] in ("threads", "lock"): continue
        if words[0] == "show":
            out += w.show()
            continue
        t, turn = int(words[0]), words[1]
        if turn in ("begin", "do"):
            told = w.begin(t, words[2], numbers[words[3]], numbers[words[4]] if len(words) > 4 else None)
            if turn == "do" and told == "step": told = w.solo(t)
        else:
            told = {"go": w.go, "spin": w.spin, "late": w.turn_late, "solo": w.solo, "ok": lambda t: w.closes(t, True),
                    "err": lambda t: w.closes(t, False)}[turn](t)
        out.append(f"{t} {told}")
    return out

# ---------------------------------------------------------------- random schedules

def run_condvars(seed, lines):
    """Mutexes and condition variables alone."""
    rng = random.Random(seed)
    threads = rng.randrange(2, 7)
    kinds = ["mutex"] + [rng.choice(["mutex", "condvar", "condvar", "fair"]) for _ in range(rng.randrange(1, 4))] + ["condvar"]
    rng.shuffle(kinds)
    locks = [(f"l{i}", kind, DEFAULT) for i, kind in enumerate(kinds)]
    text = [f"threads {threads}"] + [f"lock {name} {kind}" for name, kind, _ in locks]
    w = World(threads, locks)
    expected = []
    def begins(t):
        mine = [m for m in w.locks if m.kind in ("mutex", "fair") and m.exclusive == t]
        x = rng.random()
        if mine and x < 0.75:
            m = rng.choice(mine)
            if x < 0.40:
                c = rng.choice([l for l in w.locks if l.kind == "condvar"])
                return rng.choice(sorted(WAITS)), c, m
            return rng.choice(["unlock", "unlock", "unlock_fair", "bump"]), m, None
        l = rng.choice(w.locks)
        if l.kind == "condvar":
            if x < 0.95: return rng.choice(["notify_one", "notify_all"]), l, None
            return rng.choice(sorted(WAITS)), l, rng.choice(w.locks)
        if l in mine: return rng.choice(["unlock", "try_lock", "lock_timed"]), l, None
        return rng.choice(["lock", "lock", "lock_timed", "try_lock"]), l, None
    for _ in range(lines):
        # mostly one that isn't asleep
        awake = [u.number for u in w.threads if u.call is None or w.can_go(u)]
        t = rng.choice(awake) if awake and rng.random() < 0.8 else rng.randrange(threads)
        if rng.random() < 0.08:
            text.append("show"); expected += w.show(); continue
        y = rng.random()
        if w.threads[t].call is None or y < 0.02:
            name, l, m = begins(t)
            if m is not None and m.kind == "condvar": continue
            turn = "do" if rng.random() < 0.15 else "begin"
            text.append(f"{t} {turn} {name} {l.name}" + (f" {m.name}" if m else ""))
            out = w.begin(t, name, l.number, m.number if m else None)
            if turn == "do" and out == "step": out = w.solo(t)
        else:
            turn, does = ("late", w.turn_late) if y < 0.09 else ("spin", w.spin) if y < 0.14 else ("solo", w.solo) if y < 0.20 else ("go", w.go)
            text.append(f"{t} {turn}")
            out = does(t)
        expected.append(f"{t} {out}")
    text.append("show"); expected += w.show()
    return text, expected

def run(seed, lines, fair, once, permits):
    rng = random.Random(seed)
    threads = rng.randrange(2, 7)
    kinds = ["mutex", "fair", "rwlock", "recursive", "rwlock", "recursive"] + (["once"] * 3 if once else []) + (["semaphore"] * 4 if permits else [])
    locks = []
    text = [f"threads {threads}"]
    for i in range(rng.randrange(1, 4)):
        kind = rng.choice(kinds)
        name = f"l{i}"
        if kind in ("rwlock", "recursive") and rng.random() < 0.7:
            limit = threads + rng.randrange(0, 3)
            text.append(f"lock {name} {kind} {limit}")
        elif kind == "semaphore":
            limit = rng.randrange(1, 4)
            text.append(f"lock {name} {kind} {limit}")
        else:
            limit = DEFAULT
            text.append(f"lock {name} {kind}")
        locks.append((name, kind, limit))
    w = World(threads, locks)
    expected = []
    calls = {"m": sorted(MUTEX), "o": sorted(ONCE), "s": sorted(SEMAPHORE), "r": sorted(RWLOCK | FAIR if fair else RWLOCK)}
    enters = {"m": ["lock", "lock_timed", "try_lock"], "o": sorted(ONCE), "s": sorted(SEMAPHORE - {"release"}), "r": [c for c in sorted(RWLOCK) if c not in RIGHT]}
    for _ in range(lines):
        t = rng.randrange(threads)
        thread = w.threads[t]
        i = rng.randrange(len(locks))
        l = w.locks[i]
        sort = {"mutex": "m", "fair": "m", "once": "o", "semaphore": "s"}.get(l.kind, "r")
        x = rng.random()
        if x < 0.08:
            text.append("show"); expected += w.show(); continue
        if thread.call is None:
            # a call that it has the right for, mostly
            good = [c for c in calls[sort] if c in RIGHT and ((RIGHT[c] == "x" and l.exclusive == t) or (RIGHT[c] == "u" and l.upgradable == t) or (RIGHT[c] == "s" and l.shared.get(t, 0)))]
            c = rng.choice(good) if good and rng.random() < 0.75 else rng.choice(enters[sort]) if rng.random() < 0.9 else rng.choice(calls[sort])
            # an owner waits for itself seldom
            if c in enters[sort] and good and rng.random() < 0.6 and not c.startswith("try") and not c.endswith("timed"): c = rng.choice(good)
            if rng.random() < 0.15:
                text.append(f"{t} do {c} {l.name}")
                out = w.begin(t, c, i)
                if out == "step": out = w.solo(t)
                expected.append(f"{t} {out}")
            else:
                text.append(f"{t} begin {c} {l.name}")
                expected.append(f"{t} {w.begin(t, c, i)}")
            continue
        if thread.close is not None and rng.random() < 0.5:
            succeeded = rng.random() < 0.4
            text.append(f"{t} {'ok' if succeeded else 'err'}")
            expected.append(f"{t} {w.closes(t, succeeded)}")
            continue
        y = rng.random()
        if y < 0.06:
            text.append(f"{t} late"); expected.append(f"{t} {w.turn_late(t)}")
        elif y < 0.14:
            text.append(f"{t} spin"); expected.append(f"{t} {w.spin(t)}")
        elif y < 0.20:
            text.append(f"{t} solo"); expected.append(f"{t} {w.solo(t)}")
        elif y < 0.22:
            c = rng.choice(calls[sort]); text.append(f"{t} begin {c} {l.name}"); expected.append(f"{t} {w.begin(t, c, i)}")
        else:
            text.append(f"{t} go"); expected.append(f"{t} {w.go(t)}")
    text.append("show"); expected += w.show()
    return text, expected

def main():
    fair, once, condvar, permits = (word in sys.argv for word in ("--fair", "--once", "--condvar", "--semaphore"))
    given = [word for word in sys.argv[1:] if word not in ("--fair", "--once", "--condvar", "--semaphore")]
    if given == ["-"]:
        print("\n".join(answered(sys.stdin.read())))
        return 0
    program, seeds, lines = given[0], int(given[1]), int(given[2])
    first = int(given[3]) if len(given) > 3 else 0
    seen = {}
    for seed in range(first, first + seeds):
        text, expected = run_condvars(seed, lines) if condvar else run(seed, lines, fair, once, permits)
        out = subprocess.run([program, "replay"], input="\n".join(text) + "\n", capture_output=True, text=True).stdout.split("\n")[:-1]
        for e in expected: seen[e.split(" ", 1)[1] if " own" not in e else "show"] = seen.get(e.split(" ", 1)[1] if " own" not in e else "show", 0) + 1
        if out != expected:
            k = next((k for k, (a, b) in enumerate(zip(out, expected)) if a != b), min(len(out), len(expected)))
            print(f"seed {seed}: answer {k}: lotsim {out[k] if k < len(out) else None!r}, here {expected[k] if k < len(expected) else None!r}")
            for name, lines in (("in", text), ("expected", expected)):
                path = os.path.join(tempfile.gettempdir(), f"{seed}.{name}")
                with open(path, "w") as file: file.write("\n".join(lines) + "\n")
                print(path)
            return 1
    print("agree", {k: v for k, v in sorted(seen.items(), key=lambda kv: -kv[1])[:14]})
    return 0
if __name__ == "__main__":
    sys.exit(main())
