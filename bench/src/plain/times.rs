//! The table check, and the modified times along the order of the arcs.

use super::check::{judge_clashes, judge_values};
use super::order::{jobs_of, neighbours, order};
use super::{refuse, Judged, MOST_JOBS};
use fuzz::abi::TableLists;

/// Checks a table and writes its modified times to the front of `times`; gives how many numbers.
pub fn plan(table: TableLists, times: &mut [u32]) -> Judged<u32> {
    judge_values(table)?;
    judge_clashes(table.sections)?;
    let count = table.jobs.len() / 3;
    let neighbours = neighbours(table.arcs);
    let order = order(&neighbours, count)?;
    let mut releases = [0; MOST_JOBS];
    let mut deadlines = [0_i32; MOST_JOBS];
    for (job, row) in table.jobs.chunks_exact(3).enumerate() {
        releases[job] = row[0];
        deadlines[job] = row[2] as i32;
    }
    for &job in &order[..count] {
        for next in jobs_of(neighbours.after[job]) {
            releases[next] = releases[next].max(releases[job]);
        }
    }
    for &job in order[..count].iter().rev() {
        let latest = deadlines[job] - table.jobs[3 * job + 1] as i32;
        for before in jobs_of(neighbours.before[job]) {
            deadlines[before] = deadlines[before].min(latest);
        }
    }
    for (job, row) in table.jobs.chunks_exact(3).enumerate() {
        if deadlines[job] - (releases[job] as i32) < row[1] as i32 {
            return refuse(10, job);
        }
    }
    if times.len() < 2 * count {
        return refuse(11, 0);
    }
    for (job, time) in times.chunks_exact_mut(2).take(count).enumerate() {
        time[0] = releases[job];
        time[1] = deadlines[job] as u32;
    }
    Ok(2 * count as u32)
}
