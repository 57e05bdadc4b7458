//! The proved world of locks, for tests and fuzzers: schedules are replayed, and programs of lock calls searched.
//!
//! `docs/LIBRARY.md` says what of it is proved, and how a schedule and a program are written.

use std::fmt;

mod calls;

use calls::{explore, replay, step};

/// Why there is no answer.
#[derive(Clone, Debug, PartialEq, Eq)]
pub enum Refusal {
    /// A line is malformed: what is said of it.
    Malformed(String),
    /// Memory was refused.
    NoMemory,
}

impl fmt::Display for Refusal {
    fn fmt(&self, f: &mut fmt::Formatter<'_>) -> fmt::Result {
        match self {
            Refusal::Malformed(said) => write!(f, "{}", said.trim_end()),
            Refusal::NoMemory => write!(f, "no memory"),
        }
    }
}

impl std::error::Error for Refusal {}

/// How the lines of a schedule end.
#[derive(Clone, Copy, Debug, PartialEq, Eq)]
pub enum Ending {
    /// All are answered.
    Done,
    /// The last line of the text names one that is malformed.
    Malformed,
    /// The last line of the text names one at which memory was refused.
    NoMemory,
}

/// The text of a whole schedule.
#[derive(Clone, Debug, PartialEq, Eq)]
pub struct Replay {
    pub text: String,
    pub ending: Ending,
}

impl Replay {
    /// Replays a schedule, of any bytes.
    ///
    /// # Errors
    ///
    /// `NoMemory`, where memory was refused for the text.
    pub fn of(schedule: &[u8]) -> Result<Replay, Refusal> {
        let (text, status) = replay(schedule)?;
        let ending = match status {
            calls::DONE => Ending::Done,
            calls::MALFORMED => Ending::Malformed,
            _ => Ending::NoMemory,
        };
        Ok(Replay { text, ending })
    }
}

/// A world of locks and threads, line by line. A copy of it goes its own way.
///
/// Each call replays the lines so far, so that a line costs as much as all before it.
#[derive(Clone, Debug, Default, PartialEq, Eq)]
pub struct World {
    schedule: Vec<u8>,
    told: usize,
}

impl World {
    /// Makes a world of so many threads, from 1 to 1024, and locks of these names and kinds.
    ///
    /// # Errors
    ///
    /// `Malformed`, where a number, a name or a kind is none, and `NoMemory`.
    pub fn new(threads: usize, locks: &[(&str, &str)]) -> Result<World, Refusal> {
        let mut world = World::default();
        world.answer(&format!("threads {threads}"))?;
        for (name, kind) in locks {
            world.answer(&format!("lock {name} {kind}"))?;
        }
        Ok(world)
    }

    /// Answers a line, and goes on after it. A turn that is not possible is answered `not now`, and
    /// changes nothing.
    ///
    /// # Errors
    ///
    /// `Malformed` and `NoMemory`, after which the world is as before.
    pub fn answer(&mut self, line: &str) -> Result<String, Refusal> {
        let (text, next) = self.tried(line)?;
        self.told += text.len();
        self.schedule.extend_from_slice(&next);
        Ok(text)
    }

    /// Lets a thread begin a call and go on alone, and returns its outcome, as `end ok`, `end no` or `sleep`.
    ///
    /// # Errors
    ///
    /// As at `answer`.
    pub fn call(&mut self, thread: usize, call: &str) -> Result<String, Refusal> {
        let text = self.answer(&format!("{thread} do {call}"))?;
        let outcome = text.trim_end().split_once(' ').map_or("", |(_, outcome)| outcome);
        Ok(outcome.to_string())
    }

    /// Returns a line for each lock: its word, its owners, its queue and its debts.
    ///
    /// # Errors
    ///
    /// `NoMemory`.
    pub fn show(&self) -> Result<String, Refusal> {
        Ok(self.tried("show")?.0)
    }

    /// Returns the lines so far, as `lotsim replay` takes them.
    pub fn schedule(&self) -> &[u8] {
        &self.schedule
    }

    /// Answers a line, and returns it as it is to be kept.
    fn tried(&self, line: &str) -> Result<(String, Vec<u8>), Refusal> {
        let line = format!("{line}\n").into_bytes();
        match step(&self.schedule, &line, self.told)? {
            (text, calls::DONE) => Ok((text, line)),
            (said, calls::MALFORMED) => Err(Refusal::Malformed(said)),
            _ => Err(Refusal::NoMemory),
        }
    }
}

/// What a search has found. The text is that of `lotexplore`.
#[derive(Clone, Debug, PartialEq, Eq)]
pub enum Verdict {
    /// No schedule of the program goes wrong.
    Nothing(String),
    /// A schedule goes wrong, and none is shorter. The text ends with it.
    Found(String),
    /// Not all schedules were searched.
    NotAll(String),
}

/// A search of all schedules of a program.
#[derive(Clone, Copy, Debug, PartialEq, Eq)]
pub struct Explorer {
    /// The most states that are kept.
    pub states: u32,
}

impl Default for Explorer {
    fn default() -> Explorer {
        Explorer { states: 2_000_000 }
    }
}

impl Explorer {
    /// Searches a program of lock calls.
    ///
    /// # Errors
    ///
    /// `Malformed`, where the text is no program, and `NoMemory`, where memory was refused for the text.
    pub fn search(self, program: &str) -> Result<Verdict, Refusal> {
        let (text, status) = explore(program.as_bytes(), self.states)?;
        match status {
            calls::DONE => Ok(Verdict::Nothing(text)),
            calls::FOUND => Ok(Verdict::Found(text)),
            calls::MALFORMED => Err(Refusal::Malformed(text)),
            _ => Ok(Verdict::NotAll(text)),
        }
    }
}

impl Verdict {
    /// Returns the text.
    pub fn text(&self) -> &str {
        match self {
            Verdict::Nothing(text) | Verdict::Found(text) | Verdict::NotAll(text) => text,
        }
    }

    /// Returns the schedule that was found, as `Replay::of` takes it.
    pub fn schedule(&self) -> Option<&str> {
        match self {
            Verdict::Found(text) => text.find("\nthreads ").map(|at| &text[at + 1..]),
            Verdict::Nothing(_) | Verdict::NotAll(_) => None,
        }
    }
}
