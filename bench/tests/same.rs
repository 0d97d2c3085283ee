//! The entries written by hand answer as the second program does, and so as the library.

use bench::plain::{Plain, BY_EVENTS, BY_TICKS};
use fuzz::report::run;
use second::Slip;

const CASES: u64 = 20_000;

/// Runs the cases of the comparison against these entries.
fn differ(plain: Plain, seed: u64) -> Vec<String> {
    match run(&plain, seed, 0..CASES, Slip::None, |_| ()) {
        Ok(_) => vec![],
        Err(failed) => failed.1,
    }
}

#[test]
fn plain_entries_answer_as_the_second_program() {
    assert_eq!(differ(BY_TICKS, 1), Vec::<String>::new());
    assert_eq!(differ(BY_EVENTS, 2), Vec::<String>::new());
}
