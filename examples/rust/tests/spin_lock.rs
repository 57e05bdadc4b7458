//! A spin lock of one's own, tried against the mutex of the world: one that is right, and one with a fault.

use lot::World;
use std::sync::atomic::{AtomicU32, Ordering::SeqCst};

const THREADS: usize = 3;

/// A spin lock's word: 0 is open.
struct SpinLock {
    word: AtomicU32,
    /// A thread that has tried so often in a row takes the lock. None is right.
    impatience: Option<u32>,
    tries: AtomicU32,
}

impl SpinLock {
    fn new(impatience: Option<u32>) -> SpinLock {
        SpinLock {
            word: AtomicU32::new(0),
            impatience,
            tries: AtomicU32::new(0),
        }
    }

    fn try_lock(&self) -> bool {
        if self.word.compare_exchange(0, 1, SeqCst, SeqCst).is_ok() {
            self.tries.store(0, SeqCst);
            return true;
        }
        let tries = self.tries.fetch_add(1, SeqCst) + 1;
        self.impatience.is_some_and(|most| tries >= most)
    }

    fn unlock(&self) {
        self.word.store(0, SeqCst);
    }
}

#[derive(Clone, Copy, Debug, PartialEq, Eq)]
enum Act {
    TryLock(usize),
    Unlock(usize),
}

/// Tells the first act at which the lock and the world part, and how.
fn first_difference(lock: &SpinLock, acts: &[Act]) -> Option<String> {
    let mut world = World::new(THREADS, &[("m", "mutex")]).unwrap();
    for (number, act) in acts.iter().enumerate() {
        let (said, wanted) = match *act {
            Act::TryLock(thread) => {
                let said = if lock.try_lock() { "end yes" } else { "end no" };
                (said, world.call(thread, "try_lock m").unwrap())
            }
            Act::Unlock(thread) => {
                let outcome = world.call(thread, "unlock m").unwrap();
                // Only the owner may unlock: another's call is left out of both.
                if outcome == "not now" {
                    continue;
                }
                lock.unlock();
                ("end ok", outcome)
            }
        };
        if said != wanted {
            return Some(format!(
                "act {number}, {act:?}: {said}, where the world has {wanted}"
            ));
        }
    }
    None
}

/// Acts from a seed on.
fn acts(seed: u64, length: usize) -> Vec<Act> {
    let mut number = seed;
    let mut next = |most: u64| {
        number = number
            .wrapping_mul(6364136223846793005)
            .wrapping_add(1442695040888963407);
        (number >> 33) % most
    };
    (0..length)
        .map(|_| {
            let thread = next(THREADS as u64) as usize;
            if next(3) == 0 {
                Act::Unlock(thread)
            } else {
                Act::TryLock(thread)
            }
        })
        .collect()
}

/// Returns the shortest of the acts that still part, by leaving out one after another.
fn shrunk(impatience: Option<u32>, mut acts: Vec<Act>) -> Vec<Act> {
    let mut at = 0;
    while at < acts.len() {
        let mut fewer = acts.clone();
        fewer.remove(at);
        if first_difference(&SpinLock::new(impatience), &fewer).is_some() {
            acts = fewer;
        } else {
            at += 1;
        }
    }
    acts
}

#[test]
fn a_right_lock_does_as_the_mutex() {
    for seed in 0..300 {
        let acts = acts(seed, 40);
        assert_eq!(first_difference(&SpinLock::new(None), &acts), None, "seed {seed}");
    }
}

#[test]
fn the_fault_is_found_and_made_short() {
    let faulty = Some(4);
    let found = (0..300)
        .map(|seed| acts(seed, 40))
        .find(|acts| first_difference(&SpinLock::new(faulty), acts).is_some())
        .expect("the fault is not found");
    let short = shrunk(faulty, found);
    let tells = first_difference(&SpinLock::new(faulty), &short).unwrap();
    assert_eq!(short.len(), 5, "{short:?}");
    assert!(tells.contains("end yes, where the world has end no"), "{tells}");
}
