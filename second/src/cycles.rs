//! Cycles of the arcs, by reachability.

use crate::table::{Table, MOST_JOBS};

/// Gives for each job the word of the jobs that it reaches by one arc or more.
///
/// The table must pass refusals 2, 3 and 6.
pub fn reachable(table: &Table) -> [u64; MOST_JOBS] {
    let mut reach = [0u64; MOST_JOBS];
    for arc in table.each_arc() {
        reach[arc.before] |= 1 << arc.after;
    }
    for through in 0..MOST_JOBS {
        let beyond = reach[through];
        for row in reach.iter_mut().filter(|row| **row >> through & 1 == 1) {
            *row |= beyond;
        }
    }
    reach
}

/// Gives the lowest job that reaches itself.
///
/// The table must pass refusals 2, 3 and 6.
pub fn lowest_on_cycle(table: &Table) -> Option<usize> {
    let reach = reachable(table);
    (0..table.job_count()).find(|&job| reach[job] >> job & 1 == 1)
}
