//! `lotbench` over the Rust crate `parking_lot`: the same arguments, the same line.

use parking_lot::lock_api::{self, RawMutex as _, RawRwLock as _};
use parking_lot::{Condvar, FairMutex, Mutex, Once, RawMutex, RawRwLock, ReentrantMutex, RwLock, RwLockUpgradableReadGuard, RwLockWriteGuard};
use std::hint::black_box;
use std::process::ExitCode;
use std::sync::atomic::{AtomicU64, Ordering::Relaxed};
use std::{sync, thread};
use std::time::Instant;

const BATCH: u64 = 128;
// One operation in so many writes, where some read and some write.
const ONE_IN: u64 = 16;
// How many items a queue holds.
const PLACES: u64 = 16;
const MOST_THREADS: usize = 64;
const MOST_OPERATIONS: u64 = 1_000_000_000_000;
const USAGE: &str = "usage: lotbench raw_mutex|raw_mutex_try|mutex|mutex_try|fair|many|many_fair|remutex|remutex2|raw_read|raw_write|read|write|rw_mix|read_recursive|upgradable|upgrade|downgrade|once|semaphore|semaphore2|notify|notify_all|pingpong|many_turns|queue|std_once THREADS N [second]";

#[derive(Clone, Copy)]
enum Mode {
    RawMutex,
    RawMutexTry,
    Mutex,
    MutexTry,
    Fair,
    Many,
    ManyFair,
    Remutex,
    Remutex2,
    RawRead,
    RawWrite,
    Read,
    Write,
    RwMix,
    ReadRecursive,
    Upgradable,
    Upgrade,
    Downgrade,
    Once,
    Semaphore,
    Semaphore2,
    Notify,
    NotifyAll,
    PingPong,
    ManyTurns,
    Queue,
    /// `Once`, of the standard library.
    StdOnce,
}

impl Mode {
    fn named(name: &str) -> Option<Mode> {
        match name {
            "raw_mutex" => Some(Mode::RawMutex),
            "raw_mutex_try" => Some(Mode::RawMutexTry),
            "mutex" => Some(Mode::Mutex),
            "mutex_try" => Some(Mode::MutexTry),
            "fair" => Some(Mode::Fair),
            "many" => Some(Mode::Many),
            "many_fair" => Some(Mode::ManyFair),
            "remutex" => Some(Mode::Remutex),
            "remutex2" => Some(Mode::Remutex2),
            "raw_read" => Some(Mode::RawRead),
            "raw_write" => Some(Mode::RawWrite),
            "read" => Some(Mode::Read),
            "write" => Some(Mode::Write),
            "rw_mix" => Some(Mode::RwMix),
            "read_recursive" => Some(Mode::ReadRecursive),
            "upgradable" => Some(Mode::Upgradable),
            "upgrade" => Some(Mode::Upgrade),
            "downgrade" => Some(Mode::Downgrade),
            "once" => Some(Mode::Once),
            "semaphore" => Some(Mode::Semaphore),
            "semaphore2" => Some(Mode::Semaphore2),
            "notify" => Some(Mode::Notify),
            "notify_all" => Some(Mode::NotifyAll),
            "pingpong" => Some(Mode::PingPong),
            "many_turns" => Some(Mode::ManyTurns),
            "queue" => Some(Mode::Queue),
            "std_once" => Some(Mode::StdOnce),
            _ => None,
        }
    }

    fn name(self) -> &'static str {
        match self {
            Mode::RawMutex => "raw_mutex",
            Mode::RawMutexTry => "raw_mutex_try",
            Mode::Mutex => "mutex",
            Mode::MutexTry => "mutex_try",
            Mode::Fair => "fair",
            Mode::Many => "many",
            Mode::ManyFair => "many_fair",
            Mode::Remutex => "remutex",
            Mode::Remutex2 => "remutex2",
            Mode::RawRead => "raw_read",
            Mode::RawWrite => "raw_write",
            Mode::Read => "read",
            Mode::Write => "write",
            Mode::RwMix => "rw_mix",
            Mode::ReadRecursive => "read_recursive",
            Mode::Upgradable => "upgradable",
            Mode::Upgrade => "upgrade",
            Mode::Downgrade => "downgrade",
            Mode::Once => "once",
            Mode::Semaphore => "semaphore",
            Mode::Semaphore2 => "semaphore2",
            Mode::Notify => "notify",
            Mode::NotifyAll => "notify_all",
            Mode::PingPong => "pingpong",
            Mode::ManyTurns => "many_turns",
            Mode::Queue => "queue",
            Mode::StdOnce => "std_once",
        }
    }
}

/// A number of operations of a mode, which a number of threads do together, by the loop at one of its two places in
/// the code.
#[derive(Clone, Copy)]
struct Plan {
    mode: Mode,
    threads: usize,
    operations: u64,
    is_second: bool,
}

/// On cache lines of its own.
#[repr(align(128))]
struct Apart<T>(T);

/// What threads share that meet, take turns, or send items to one another.
struct Tally {
    came: u64,
    /// Whose turn it is, or how many have met or are in the queue.
    at: u64,
    left: u64,
    done: u64,
}

impl Tally {
    fn come(&mut self) -> u64 {
        self.came += 1;
        self.came - 1
    }

    fn count(&mut self) -> bool {
        if self.left == 0 {
            return false;
        }
        self.left -= 1;
        self.done += 1;
        true
    }

    fn turn(&mut self, threads: u64) {
        self.at += 1;
        if self.at == threads {
            self.at = 0;
        }
    }

    fn take(&mut self) -> bool {
        if self.at == 0 {
            return false;
        }
        self.at -= 1;
        true
    }
}

/// A tally under a mutex, and the condition variables on which threads wait for it.
struct Desk {
    tally: Apart<Mutex<Tally>>,
    filled: Apart<Condvar>,
    emptied: Apart<Condvar>,
}

impl Desk {
    fn new(operations: u64) -> Desk {
        Desk {
            tally: Apart(Mutex::new(Tally { came: 0, at: 0, left: operations, done: 0 })),
            filled: Apart(Condvar::new()),
            emptied: Apart(Condvar::new()),
        }
    }

    fn meet(&self, threads: u64) -> bool {
        let mut tally = self.tally.0.lock();
        let round = tally.done;
        if tally.left == 0 {
            return false;
        }
        tally.turn(threads);
        if tally.at == 0 {
            tally.count();
            drop(tally);
            self.filled.0.notify_all();
            return true;
        }
        self.filled.0.wait_while(&mut tally, |tally| tally.done == round);
        true
    }

    fn take_turn(&self, number: u64, threads: u64) -> bool {
        let mut tally = self.tally.0.lock();
        self.filled.0.wait_while(&mut tally, |tally| tally.left != 0 && tally.at != number);
        let any = tally.count();
        tally.turn(threads);
        drop(tally);
        self.filled.0.notify_all();
        any
    }

    fn send(&self) -> bool {
        let mut tally = self.tally.0.lock();
        self.emptied.0.wait_while(&mut tally, |tally| tally.left != 0 && tally.at >= PLACES);
        let any = tally.count();
        if any {
            tally.at += 1;
            drop(tally);
            self.filled.0.notify_one();
        } else {
            drop(tally);
            self.filled.0.notify_all();
            self.emptied.0.notify_all();
        }
        any
    }

    fn receive(&self) -> bool {
        let mut tally = self.tally.0.lock();
        self.filled.0.wait_while(&mut tally, |tally| tally.left != 0 && tally.at == 0);
        let any = tally.take();
        drop(tally);
        self.emptied.0.notify_one();
        any
    }

    fn work(&self, mode: Mode, threads: u64) -> u64 {
        let number = self.tally.0.lock().come();
        let mut done = 0;
        loop {
            let any = match mode {
                Mode::NotifyAll => self.meet(threads),
                Mode::PingPong | Mode::ManyTurns => self.take_turn(number, threads),
                _ if number % 2 == 0 => self.send(),
                _ => self.receive(),
            };
            if !any {
                return done;
            }
            done += 1;
        }
    }
}

/// A semaphore made of a mutex and a condition variable: the crate has none.
struct Semaphore {
    free: Mutex<u64>,
    given: Condvar,
}

impl Semaphore {
    fn new(permits: u64) -> Semaphore {
        Semaphore { free: Mutex::new(permits), given: Condvar::new() }
    }

    fn acquire(&self) {
        let mut free = self.free.lock();
        self.given.wait_while(&mut free, |free| *free == 0);
        *free -= 1;
    }

    fn release(&self) {
        *self.free.lock() += 1;
        self.given.notify_one();
    }
}

/// How many locks stand in a row.
const LENGTH: usize = 64;

struct Bench {
    raw: Apart<RawMutex>,
    value: Apart<Mutex<u64>>,
    fair: Apart<FairMutex<u64>>,
    plain_row: Vec<Apart<Mutex<u64>>>,
    fair_row: Vec<Apart<FairMutex<u64>>>,
    again: Apart<ReentrantMutex<u64>>,
    raw_rwlock: Apart<RawRwLock>,
    rwlock: Apart<RwLock<u64>>,
    once: Apart<Once>,
    std_once: Apart<sync::Once>,
    semaphore: Apart<Semaphore>,
    semaphore2: Apart<Semaphore>,
    desk: Apart<Desk>,
    /// A desk for each pair of threads.
    desks: Vec<Desk>,
    taken: Apart<AtomicU64>,
    operations: u64,
}

impl Bench {
    fn take(&self) -> u64 {
        let before = self.taken.0.fetch_add(BATCH, Relaxed);
        self.operations.saturating_sub(before).min(BATCH)
    }
}

#[inline(never)]
fn lock_raw<const SECOND: bool>(bench: &Bench, times: u64) {
    black_box(SECOND);
    for _ in 0..times {
        bench.raw.0.lock();
        // It is locked by this thread.
        unsafe { bench.raw.0.unlock() };
    }
}

#[inline(never)]
fn try_raw<const SECOND: bool>(bench: &Bench, times: u64) {
    black_box(SECOND);
    for _ in 0..times {
        while !bench.raw.0.try_lock() {}
        // It is locked by this thread.
        unsafe { bench.raw.0.unlock() };
    }
}

#[inline(never)]
fn lock_value<const SECOND: bool>(bench: &Bench, times: u64) {
    black_box(SECOND);
    for _ in 0..times {
        let mut value = bench.value.0.lock();
        *value = value.wrapping_add(1);
    }
}

#[inline(never)]
fn lock_fair<const SECOND: bool>(bench: &Bench, times: u64) {
    black_box(SECOND);
    for _ in 0..times {
        let mut value = bench.fair.0.lock();
        *value = value.wrapping_add(1);
    }
}

#[inline(never)]
fn add_along<const SECOND: bool, M: lock_api::RawMutex>(row: &[Apart<lock_api::Mutex<M, u64>>], number: usize, times: u64) {
    black_box(SECOND);
    let stride = number * 2 + 1;
    let mut place = stride;
    for _ in 0..times {
        place = place.wrapping_add(stride) % LENGTH;
        let mut value = row[place].0.lock();
        *value = value.wrapping_add(1);
    }
}

#[inline(never)]
fn lock_once<const SECOND: bool>(bench: &Bench, times: u64) {
    black_box(SECOND);
    for _ in 0..times {
        drop(bench.again.0.lock());
    }
}

#[inline(never)]
fn lock_again<const SECOND: bool>(bench: &Bench, times: u64) {
    black_box(SECOND);
    for _ in 0..times {
        let outer = bench.again.0.lock();
        drop(bench.again.0.lock());
        drop(outer);
    }
}

#[inline(never)]
fn try_value<const SECOND: bool>(bench: &Bench, times: u64) {
    black_box(SECOND);
    for _ in 0..times {
        let mut value = loop {
            if let Some(value) = bench.value.0.try_lock() {
                break value;
            }
        };
        *value = value.wrapping_add(1);
    }
}

#[inline(never)]
fn read_raw<const SECOND: bool>(bench: &Bench, times: u64) {
    black_box(SECOND);
    for _ in 0..times {
        bench.raw_rwlock.0.lock_shared();
        // This thread shares it.
        unsafe { bench.raw_rwlock.0.unlock_shared() };
    }
}

#[inline(never)]
fn write_raw<const SECOND: bool>(bench: &Bench, times: u64) {
    black_box(SECOND);
    for _ in 0..times {
        bench.raw_rwlock.0.lock_exclusive();
        // It is locked by this thread.
        unsafe { bench.raw_rwlock.0.unlock_exclusive() };
    }
}

#[inline]
fn read_once(bench: &Bench) {
    black_box(*bench.rwlock.0.read());
}

#[inline]
fn write_once(bench: &Bench) {
    let mut value = bench.rwlock.0.write();
    *value = value.wrapping_add(1);
}

#[inline(never)]
fn read_value<const SECOND: bool>(bench: &Bench, times: u64) {
    black_box(SECOND);
    for _ in 0..times {
        read_once(bench);
    }
}

#[inline(never)]
fn write_value<const SECOND: bool>(bench: &Bench, times: u64) {
    black_box(SECOND);
    for _ in 0..times {
        write_once(bench);
    }
}

#[inline(never)]
fn mix_value<const SECOND: bool>(bench: &Bench, times: u64) {
    black_box(SECOND);
    for turn in 0..times {
        if turn % ONE_IN == 0 {
            write_once(bench);
        } else {
            read_once(bench);
        }
    }
}

#[inline(never)]
fn read_again<const SECOND: bool>(bench: &Bench, times: u64) {
    black_box(SECOND);
    for _ in 0..times {
        black_box(*bench.rwlock.0.read_recursive());
    }
}

#[inline(never)]
fn come_upgradable<const SECOND: bool>(bench: &Bench, times: u64) {
    black_box(SECOND);
    for _ in 0..times {
        black_box(*bench.rwlock.0.upgradable_read());
    }
}

#[inline(never)]
fn upgrade_value<const SECOND: bool>(bench: &Bench, times: u64) {
    black_box(SECOND);
    for _ in 0..times {
        let mut value = RwLockUpgradableReadGuard::upgrade(bench.rwlock.0.upgradable_read());
        *value = value.wrapping_add(1);
    }
}

#[inline(never)]
fn downgrade_value<const SECOND: bool>(bench: &Bench, times: u64) {
    black_box(SECOND);
    for _ in 0..times {
        let mut value = bench.rwlock.0.write();
        *value = value.wrapping_add(1);
        drop(RwLockWriteGuard::downgrade(value));
    }
}

#[inline(never)]
fn call_once<const SECOND: bool>(bench: &Bench, times: u64) {
    black_box(SECOND);
    for _ in 0..times {
        bench.once.0.call_once(|| panic!("it is done"));
    }
}

#[inline(never)]
fn call_std_once<const SECOND: bool>(bench: &Bench, times: u64) {
    black_box(SECOND);
    for _ in 0..times {
        bench.std_once.0.call_once(|| panic!("it is done"));
    }
}

#[inline(never)]
fn hold_permit<const SECOND: bool>(semaphore: &Semaphore, times: u64) {
    black_box(SECOND);
    for _ in 0..times {
        semaphore.acquire();
        semaphore.release();
    }
}

#[inline(never)]
fn notify_nobody<const SECOND: bool>(bench: &Bench, times: u64) {
    black_box(SECOND);
    for _ in 0..times {
        bench.desk.0.filled.0.notify_one();
    }
}

/// Does so many operations, by the loops at the first or at the second place in the code. `black_box` keeps the two
/// from being made one.
fn operate<const SECOND: bool>(mode: Mode, bench: &Bench, number: usize, times: u64) {
    match mode {
        Mode::RawMutex => lock_raw::<SECOND>(bench, times),
        Mode::RawMutexTry => try_raw::<SECOND>(bench, times),
        Mode::Mutex => lock_value::<SECOND>(bench, times),
        Mode::MutexTry => try_value::<SECOND>(bench, times),
        Mode::Fair => lock_fair::<SECOND>(bench, times),
        Mode::Many => add_along::<SECOND, _>(&bench.plain_row, number, times),
        Mode::ManyFair => add_along::<SECOND, _>(&bench.fair_row, number, times),
        Mode::Remutex => lock_once::<SECOND>(bench, times),
        Mode::Remutex2 => lock_again::<SECOND>(bench, times),
        Mode::RawRead => read_raw::<SECOND>(bench, times),
        Mode::RawWrite => write_raw::<SECOND>(bench, times),
        Mode::Read => read_value::<SECOND>(bench, times),
        Mode::Write => write_value::<SECOND>(bench, times),
        Mode::RwMix => mix_value::<SECOND>(bench, times),
        Mode::ReadRecursive => read_again::<SECOND>(bench, times),
        Mode::Upgradable => come_upgradable::<SECOND>(bench, times),
        Mode::Upgrade => upgrade_value::<SECOND>(bench, times),
        Mode::Downgrade => downgrade_value::<SECOND>(bench, times),
        Mode::Once => call_once::<SECOND>(bench, times),
        Mode::Semaphore => hold_permit::<SECOND>(&bench.semaphore.0, times),
        Mode::Semaphore2 => hold_permit::<SECOND>(&bench.semaphore2.0, times),
        Mode::Notify => notify_nobody::<SECOND>(bench, times),
        Mode::NotifyAll | Mode::PingPong | Mode::ManyTurns | Mode::Queue => {}
        Mode::StdOnce => call_std_once::<SECOND>(bench, times),
    }
}

fn work(plan: Plan, bench: &Bench, number: usize) -> u64 {
    let Plan { mode, threads, is_second, .. } = plan;
    if matches!(mode, Mode::ManyTurns) {
        let alone = number % 2 == 0 && number + 1 == threads;
        return bench.desks[number / 2].work(mode, if alone { 1 } else { 2 });
    }
    if matches!(mode, Mode::NotifyAll | Mode::PingPong | Mode::Queue) {
        return bench.desk.0.work(mode, threads as u64);
    }
    let mut done = 0;
    loop {
        let times = bench.take();
        if times == 0 {
            return done;
        }
        if is_second {
            operate::<true>(mode, bench, number, times);
        } else {
            operate::<false>(mode, bench, number, times);
        }
        done += times;
    }
}

fn plan_of(args: &[String]) -> Option<Plan> {
    let (mode, threads, operations, is_second) = match args {
        [mode, threads, operations] => (mode, threads, operations, false),
        [mode, threads, operations, word] if word == "second" => (mode, threads, operations, true),
        _ => return None,
    };
    let (mode, threads) = (Mode::named(mode)?, threads.parse().ok()?);
    let operations = operations.parse().ok()?;
    // A thread that sends alone through a queue waits for ever.
    let least = if matches!(mode, Mode::Queue) { 2 } else { 1 };
    ((least..=MOST_THREADS).contains(&threads) && (1..=MOST_OPERATIONS).contains(&operations))
        .then_some(Plan { mode, threads, operations, is_second })
}

fn main() -> ExitCode {
    let args: Vec<String> = std::env::args().skip(1).collect();
    if args.is_empty() {
        println!("{USAGE}");
        return ExitCode::SUCCESS;
    }
    let Some(plan) = plan_of(&args) else {
        eprintln!("lotbench: no such plan; {USAGE}, 1 to 64 threads, 1 to 10^12 operations");
        return ExitCode::from(2);
    };
    let Plan { mode, threads, operations, .. } = plan;
    let pairs = threads.div_ceil(2) as u64;
    let bench = Box::new(Bench {
        raw: Apart(RawMutex::INIT),
        value: Apart(Mutex::new(0)),
        fair: Apart(FairMutex::new(0)),
        plain_row: (0..LENGTH).map(|_| Apart(Mutex::new(0))).collect(),
        fair_row: (0..LENGTH).map(|_| Apart(FairMutex::new(0))).collect(),
        again: Apart(ReentrantMutex::new(0)),
        raw_rwlock: Apart(RawRwLock::INIT),
        rwlock: Apart(RwLock::new(0)),
        once: Apart(Once::new()),
        std_once: Apart(sync::Once::new()),
        semaphore: Apart(Semaphore::new(1)),
        semaphore2: Apart(Semaphore::new(2)),
        desk: Apart(Desk::new(operations)),
        desks: (0..pairs).map(|pair| Desk::new(operations / pairs + u64::from(pair < operations % pairs))).collect(),
        taken: Apart(AtomicU64::new(0)),
        operations,
    });
    bench.once.0.call_once(|| {});
    bench.std_once.0.call_once(|| {});
    let started = Instant::now();
    let counts: Vec<u64> = thread::scope(|scope| {
        let shared = &bench;
        let spawned: Vec<_> = (0..threads).map(|number| scope.spawn(move || work(plan, shared, number))).collect();
        spawned.into_iter().map(|thread| thread.join().unwrap()).collect()
    });
    let nanos = started.elapsed().as_nanos();
    let answer = match mode {
        Mode::Mutex | Mode::MutexTry => *bench.value.0.lock(),
        Mode::Fair => *bench.fair.0.lock(),
        Mode::Write | Mode::Upgrade | Mode::Downgrade => *bench.rwlock.0.read(),
        Mode::NotifyAll | Mode::PingPong | Mode::Queue => bench.desk.0.tally.0.lock().done,
        _ => counts.iter().sum(),
    };
    let (low, high) = (counts.iter().min().unwrap(), counts.iter().max().unwrap());
    println!("{} {threads} {operations} {nanos} {answer} {low} {high}", mode.name());
    ExitCode::SUCCESS
}
