//! Helpers shared by the tests.
#![allow(dead_code)]

pub mod clauses;
pub mod random;

use second::{Refusal, Table};

/// Makes a table of jobs (release, cost, deadline), arcs (before, after) and sections
/// (job, resource, from, to).
pub fn table(jobs: &[[u32; 3]], arcs: &[[u32; 2]], sections: &[[u32; 4]]) -> Table {
    Table {
        jobs: jobs.concat(),
        arcs: arcs.concat(),
        sections: sections.concat(),
    }
}

/// Makes a refusal as an error.
pub fn refused<T>(number: u32, place: u32) -> Result<T, Refusal> {
    Err(Refusal { number, place })
}

/// The table of the first shelf example.
pub fn p1() -> Table {
    table(
        &[[0, 4, 20], [2, 2, 10], [0, 1, 12]],
        &[[1, 2]],
        &[[0, 0, 1, 4], [1, 0, 0, 1]],
    )
}

/// The text of the first shelf example.
pub const P1_TEXT: &str = "jobs=3\nrelease=0\ncost=4\ndeadline=20\nrelease=2\ncost=2\n\
    deadline=10\nrelease=0\ncost=1\ndeadline=12\narcs=1\nbefore=1\nafter=2\nsections=2\n\
    job=0\nresource=0\nfrom=1\nto=4\njob=1\nresource=0\nfrom=0\nto=1\n";

/// The shortest text that the reader takes.
pub const ONE_JOB: &str = "jobs=1\nrelease=0\ncost=1\ndeadline=1\narcs=0\nsections=0\n";

/// Tables with wrong list lengths and the number that each is refused with.
pub fn wrong_lengths() -> Vec<(Table, u32)> {
    let mut wrong = Vec::new();
    for length in [0, 1, 2, 4, 8, 10, 193, 195, 198] {
        wrong.push((
            Table {
                jobs: vec![1; length],
                ..p1()
            },
            2,
        ));
    }
    for length in [1, 3, 511, 513, 514] {
        wrong.push((
            Table {
                arcs: vec![1; length],
                ..p1()
            },
            3,
        ));
    }
    for length in [1, 2, 3, 5, 6, 7, 511, 513, 516] {
        wrong.push((
            Table {
                sections: vec![1; length],
                ..p1()
            },
            4,
        ));
    }
    wrong
}
