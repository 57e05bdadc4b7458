//! Searches of programs, called from tests.

use lot::{Ending, Explorer, Refusal, Replay, Verdict};

/// A program of philosophers: each thread takes two forks, in this order.
fn philosophers(orders: &[(usize, usize)]) -> String {
    let mut program = format!("threads {}\n", orders.len());
    for fork in 0..orders.len() {
        program.push_str(&format!("lock f{fork} mutex\n"));
    }
    for (thread, (first, second)) in orders.iter().enumerate() {
        program.push_str(&format!("thread {thread}\n"));
        program.push_str(&format!(
            "lock f{first}\nlock f{second}\nunlock f{second}\nunlock f{first}\n"
        ));
    }
    program
}

#[test]
fn a_deadlock_is_found_and_replayed() {
    let verdict = Explorer::default()
        .search(&philosophers(&[(0, 1), (1, 2), (2, 0)]))
        .unwrap();
    assert!(matches!(verdict, Verdict::Found(_)));
    assert!(
        verdict.text().starts_with("deadlock after 6 turns, grain call\n"),
        "{}",
        verdict.text()
    );
    let told = Replay::of(verdict.schedule().unwrap().as_bytes()).unwrap();
    assert_eq!(told.ending, Ending::Done);
    assert!(
        told.text
            .ends_with("f0 3 own=0x queue=2x\nf1 3 own=1x queue=0x\nf2 3 own=2x queue=1x\n"),
        "{}",
        told.text
    );
}

#[test]
fn one_order_of_forks_goes_well() {
    let verdict = Explorer::default()
        .search(&philosophers(&[(0, 1), (1, 2), (0, 2)]))
        .unwrap();
    assert_eq!(
        verdict,
        Verdict::Nothing("nothing found: 785 states by turns; no schedule of single steps goes wrong\n".to_string())
    );
}

/// A spin lock as a program of one's own: two threads read the word, and then write it.
#[test]
fn a_spin_lock_that_reads_and_then_writes_lets_two_in() {
    let program =
        "threads 2\nvar word 0\nvar inside 0\nthread 0 1\nwhile word = 1\nend\nset word 1\nadd inside 1\n\
        assert inside = 1\nadd inside 0\nset word 0\n";
    let verdict = Explorer::default().search(program).unwrap();
    assert!(verdict.text().starts_with("assert after "), "{}", verdict.text());
}

#[test]
fn a_limit_and_a_malformed_line_are_told() {
    let program = philosophers(&[(0, 1), (1, 2), (0, 2)]);
    let verdict = Explorer { states: 10 }.search(&program).unwrap();
    assert!(
        matches!(&verdict, Verdict::NotAll(text) if text.starts_with("nothing found in 10 states")),
        "{verdict:?}"
    );
    let refusal = Explorer::default()
        .search("threads 2\nlock m mutexx\n")
        .unwrap_err();
    assert!(matches!(refusal, Refusal::Malformed(said) if said.starts_with("line 2: `mutexx`: ")));
}
