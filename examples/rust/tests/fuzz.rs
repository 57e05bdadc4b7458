//! Schedules at random: what must hold of the text of each.

use lot::{Ending, Refusal, Replay, World};

/// Numbers at random, from a seed on.
struct Numbers(u64);

impl Numbers {
    fn below(&mut self, most: usize) -> usize {
        self.0 = self
            .0
            .wrapping_mul(6364136223846793005)
            .wrapping_add(1442695040888963407);
        ((self.0 >> 33) % most as u64) as usize
    }

    fn of<'a>(&mut self, words: &[&'a str]) -> &'a str {
        words[self.below(words.len())]
    }
}

const THREADS: usize = 3;

const LOCKS: [(&str, &str); 5] = [
    ("m", "mutex"),
    ("r", "rwlock"),
    ("s", "semaphore 2"),
    ("c", "condvar"),
    ("o", "once"),
];

const CALLS: [&str; 18] = [
    "lock m",
    "try_lock m",
    "lock_timed m",
    "unlock m",
    "read r",
    "write r",
    "try_write r",
    "unlock_shared r",
    "unlock_exclusive r",
    "downgrade r",
    "acquire s",
    "release s",
    "wait c m",
    "notify_one c",
    "notify_all c",
    "call_once o",
    "wait o",
    "unlock_fair m",
];

fn line(numbers: &mut Numbers) -> String {
    let thread = numbers.below(THREADS);
    match numbers.below(8) {
        0 | 1 => format!("{thread} begin {}", numbers.of(&CALLS)),
        2 => format!("{thread} do {}", numbers.of(&CALLS)),
        3 => format!("{thread} {}", numbers.of(&["late", "spin", "ok", "err", "solo"])),
        _ => format!("{thread} go"),
    }
}

#[test]
fn each_line_has_its_answer() {
    for seed in 0..200 {
        let mut numbers = Numbers(seed);
        let mut world = World::new(THREADS, &LOCKS).unwrap();
        let mut text = String::new();
        for _ in 0..60 {
            let line = line(&mut numbers);
            let answer = world.answer(&line).unwrap();
            assert_eq!(answer.lines().count(), 1, "seed {seed}, `{line}`: {answer}");
            text.push_str(&answer);
            let shown = world.show().unwrap();
            assert_eq!(shown.lines().count(), LOCKS.len(), "seed {seed}: {shown}");
            assert!(mutex_is_held_once(&shown), "seed {seed}: {shown}");
        }
        let whole = Replay::of(world.schedule()).unwrap();
        assert_eq!((whole.ending, whole.text), (Ending::Done, text), "seed {seed}");
    }
}

/// Answers whether the line of the mutex names at most one owner.
fn mutex_is_held_once(shown: &str) -> bool {
    let line = shown.lines().find(|line| line.starts_with("m ")).unwrap_or("");
    let owners = line.split(' ').find_map(|word| word.strip_prefix("own="));
    owners.map_or(0, |owners| owners.matches('x').count()) <= 1
}

#[test]
fn any_bytes_have_a_text() {
    let mut numbers = Numbers(1);
    for _ in 0..2000 {
        let length = numbers.below(300);
        let bytes: Vec<u8> = (0..length).map(|_| numbers.below(256) as u8).collect();
        let told = Replay::of(&bytes).unwrap();
        assert_eq!(told.ending == Ending::Done, bytes.is_empty(), "{bytes:?}");
    }
}

#[test]
fn a_malformed_line_changes_nothing() {
    let mut world = World::new(1, &[("m", "mutex")]).unwrap();
    assert_eq!(world.call(0, "lock m").unwrap(), "end ok");
    let before = world.clone();
    assert_eq!(
        world.answer("0 do lock n"),
        Err(Refusal::Malformed("line 4 malformed\n".to_string()))
    );
    assert_eq!(world, before);
    assert_eq!(world.show().unwrap(), "m 1 own=0x\n");
    assert!(World::new(0, &[]).is_err());
}
