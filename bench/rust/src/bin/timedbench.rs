//! The program `timedbench` over the Rust crate `parking_lot`: how late a time-out is, and how soon a thread
//! wakes that sleeps up to a deadline.
use parking_lot::{Condvar, FairMutex, Mutex};
use std::time::{Duration, Instant};
use std::{env, process, thread};

const SHORT: Duration = Duration::from_millis(1);
const FAR: Duration = Duration::from_secs(600);
const LOOK: Duration = Duration::from_micros(20);
const SETTLE: Duration = Duration::from_micros(300);

#[derive(Clone, Copy, PartialEq)]
enum Mode {
    TimeOut,
    Notify,
    NotifyTimed,
    HandOver,
    HandOverTimed,
}

#[derive(Default)]
struct Ball {
    waits: bool,
    holds: bool,
    sent_at: Option<Instant>,
    over: bool,
}

struct Room {
    ball: Mutex<Ball>,
    told: Condvar,
    idle: Condvar,
    stick: FairMutex<Instant>,
}

fn nanos(time: Duration) -> u64 {
    time.as_nanos() as u64
}

impl Room {
    fn time_out(&self) -> u64 {
        let mut guard = self.ball.lock();
        let began = Instant::now();
        self.told.wait_while_for(&mut guard, |_| true, SHORT);
        nanos(began.elapsed().saturating_sub(SHORT))
    }

    fn be_told(&self, is_timed: bool) -> u64 {
        let mut guard = self.ball.lock();
        guard.waits = true;
        let again = |ball: &mut Ball| ball.sent_at.is_none();
        if is_timed {
            self.told.wait_while_for(&mut guard, again, FAR);
        } else {
            self.told.wait_while(&mut guard, again);
        }
        let now = Instant::now();
        nanos(now - guard.sent_at.take().unwrap_or(now))
    }

    fn await_sign(&self, take: impl Fn(&mut Ball) -> bool) {
        while !take(&mut self.ball.lock()) {
            thread::sleep(LOOK);
        }
    }

    fn notify(&self) {
        self.await_sign(|ball| std::mem::take(&mut ball.waits));
        thread::sleep(SETTLE);
        let mut guard = self.ball.lock();
        guard.sent_at = Some(Instant::now());
        drop(guard);
        self.told.notify_one();
    }

    fn hand_over(&self) {
        let mut stick = self.stick.lock();
        self.ball.lock().holds = true;
        self.await_sign(|ball| std::mem::take(&mut ball.waits));
        thread::sleep(SETTLE);
        *stick = Instant::now();
    }

    fn take_over(&self, is_timed: bool) -> u64 {
        self.await_sign(|ball| std::mem::take(&mut ball.holds));
        self.ball.lock().waits = true;
        let stick = if is_timed {
            self.stick.try_lock_for(FAR).expect("the deadline is far")
        } else {
            self.stick.lock()
        };
        nanos(stick.elapsed())
    }

    fn sample(&self, mode: Mode) -> u64 {
        match mode {
            Mode::TimeOut => self.time_out(),
            Mode::Notify => self.be_told(false),
            Mode::NotifyTimed => self.be_told(true),
            Mode::HandOver => self.take_over(false),
            Mode::HandOverTimed => self.take_over(true),
        }
    }

    fn wake(&self, mode: Mode) {
        match mode {
            Mode::TimeOut => {}
            Mode::Notify | Mode::NotifyTimed => self.notify(),
            Mode::HandOver | Mode::HandOverTimed => self.hand_over(),
        }
    }
}

fn latencies(mode: Mode, sleepers: u64, samples: usize) -> Vec<u64> {
    let room = Room {
        ball: Mutex::new(Ball::default()),
        told: Condvar::new(),
        idle: Condvar::new(),
        stick: FairMutex::new(Instant::now()),
    };
    thread::scope(|scope| {
        let room = &room;
        for number in 0..sleepers {
            scope.spawn(move || {
                let far = FAR + Duration::from_nanos(number);
                room.idle.wait_while_for(&mut room.ball.lock(), |ball| !ball.over, far);
            });
        }
        scope.spawn(move || (0..samples).for_each(|_| room.wake(mode)));
        let taken: Vec<u64> = (0..samples).map(|_| room.sample(mode)).collect();
        room.ball.lock().over = true;
        room.idle.notify_all();
        taken
    })
}

fn main() {
    let args: Vec<String> = env::args().skip(1).collect();
    let [name, sleepers, samples] = args.as_slice() else {
        process::exit(2);
    };
    let mode = match name.as_str() {
        "time_out" => Mode::TimeOut,
        "notify" => Mode::Notify,
        "notify_timed" => Mode::NotifyTimed,
        "hand_over" => Mode::HandOver,
        "hand_over_timed" => Mode::HandOverTimed,
        _ => process::exit(2),
    };
    let (sleepers, samples) = (sleepers.parse().expect("a number"), samples.parse().expect("a number"));
    let mut taken = latencies(mode, sleepers, samples);
    taken.sort_unstable();
    let last = taken.len() - 1;
    println!("{name} {sleepers} {samples} {} {} {}", taken[last / 2], taken[last * 99 / 100], taken[last]);
}
