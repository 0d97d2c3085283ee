//! Modified releases and deadlines, by a topological order.

use crate::slip::Slip;
use crate::table::Table;

/// Gives the jobs, each after all its predecessors; jobs on a cycle or after one are left over.
///
/// The table must pass refusals 2, 3 and 6.
pub fn topological_order(table: &Table) -> Vec<usize> {
    let jobs = 0..table.job_count();
    let mut waiting_for: Vec<usize> = jobs.map(|job| table.predecessors(job).count()).collect();
    let mut order: Vec<usize> = Vec::new();
    order.extend((0..table.job_count()).filter(|&job| waiting_for[job] == 0));
    let mut next = 0;
    while next < order.len() {
        for after in table.successors(order[next]) {
            waiting_for[after] -= 1;
            if waiting_for[after] == 0 {
                order.push(after);
            }
        }
        next += 1;
    }
    order
}

/// Gives the modified release and the modified deadline of each job, also below zero.
///
/// The table must pass refusals 2, 3, 6 and 9.
pub fn modified_times(table: &Table) -> Vec<(i64, i64)> {
    modified_times_with(table, Slip::None)
}

/// Gives the modified times with a slip.
///
/// The table must pass refusals 2, 3, 6 and 9.
pub fn modified_times_with(table: &Table, slip: Slip) -> Vec<(i64, i64)> {
    let own = table.each_job();
    let mut times: Vec<(i64, i64)> = own
        .map(|job| (i64::from(job.release), i64::from(job.deadline)))
        .collect();
    let order = topological_order(table);
    for &job in &order {
        times[job].0 = modified_release(table, &times, job, slip);
    }
    let back: Vec<usize> = match slip {
        Slip::DeadlinesInTableOrder => (0..table.job_count()).collect(),
        _ => order.into_iter().rev().collect(),
    };
    for job in back {
        times[job].1 = modified_deadline(table, &times, job);
    }
    times
}

/// Gives the release of one job whose predecessors are done.
fn modified_release(table: &Table, times: &[(i64, i64)], job: usize, slip: Slip) -> i64 {
    let releases = table.predecessors(job).map(|before| times[before].0);
    match slip {
        Slip::ReleasesByMinimum => releases.fold(times[job].0, i64::min),
        _ => releases.fold(times[job].0, i64::max),
    }
}

/// Gives the deadline of one job whose successors are done.
fn modified_deadline(table: &Table, times: &[(i64, i64)], job: usize) -> i64 {
    let latest_ends = table
        .successors(job)
        .map(|after| times[after].1 - i64::from(table.cost(after)));
    latest_ends.fold(times[job].1, i64::min)
}
