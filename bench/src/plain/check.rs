//! Judges tables row by row (2 to 8), and plans and states that are handed in (12).

use super::{refuse, Judged, LATEST, RESOURCES};
use fuzz::abi::{PlanLists, StateLists, TableLists};

/// Largest cost.
const MOST_COST: u32 = 100_000;
/// Largest tick of a state.
pub const LAST_TICK: u32 = 10_000_000;

/// Refuses with 2, 3 or 4 where a list has a wrong length.
pub fn judge_counts(table: TableLists) -> Judged<()> {
    let whole = |list: &[u32], width: usize| list.len().is_multiple_of(width);
    if !whole(table.jobs, 3) || !(1..=64).contains(&(table.jobs.len() / 3)) {
        return refuse(2, 0);
    }
    if !whole(table.arcs, 2) || table.arcs.len() / 2 > 256 {
        return refuse(3, 0);
    }
    if !whole(table.sections, 4) || table.sections.len() / 4 > 128 {
        return refuse(4, 0);
    }
    Ok(())
}

/// Refuses with 2 to 7.
pub fn judge_values(table: TableLists) -> Judged<()> {
    judge_counts(table)?;
    let count = table.jobs.len() / 3;
    for (place, job) in table.jobs.chunks_exact(3).enumerate() {
        if job[0] > LATEST || job[1] == 0 || job[1] > MOST_COST || job[2] > LATEST {
            return refuse(5, place);
        }
    }
    for (place, arc) in table.arcs.chunks_exact(2).enumerate() {
        if arc[0] as usize >= count || arc[1] as usize >= count {
            return refuse(6, place);
        }
    }
    for (place, section) in table.sections.chunks_exact(4).enumerate() {
        if section_out(table.jobs, section) {
            return refuse(7, place);
        }
    }
    Ok(())
}

/// Tells whether a section breaks rule 7.
fn section_out(jobs: &[u32], section: &[u32]) -> bool {
    let job = section[0] as usize;
    job >= jobs.len() / 3
        || section[1] as usize >= RESOURCES
        || section[2] >= section[3]
        || section[3] > jobs[3 * job + 1]
}

/// Tells whether two sections clash.
fn clash(a: &[u32], b: &[u32]) -> bool {
    let within = |inner: &[u32], outer: &[u32]| outer[2] <= inner[2] && inner[3] <= outer[3];
    a[0] == b[0] && a[2] < b[3] && b[2] < a[3] && (a[1] == b[1] || !(within(a, b) || within(b, a)))
}

/// Refuses with 8 the lowest section that clashes with one before it.
pub fn judge_clashes(sections: &[u32]) -> Judged<()> {
    for (place, later) in sections.chunks_exact(4).enumerate() {
        let mut earlier = sections.chunks_exact(4).take(place);
        if earlier.any(|earlier| clash(earlier, later)) {
            return refuse(8, place);
        }
    }
    Ok(())
}

/// Refuses with 12 a plan out of its bounds.
pub fn judge_plan(plan: PlanLists) -> Judged<()> {
    let jobs = plan.table.jobs;
    if judge_values(plan.table).is_err() || plan.times.len() != 2 * (jobs.len() / 3) {
        return refuse(12, 0);
    }
    for (job, time) in jobs.chunks_exact(3).zip(plan.times.chunks_exact(2)) {
        if time[0] > LATEST || time[1] > LATEST || time[0] + job[1] > time[1] {
            return refuse(12, 0);
        }
    }
    Ok(())
}

/// Refuses with 12 a state that is none of this many jobs, or out of its bounds.
pub fn judge_state(jobs: &[u32], tick: u32, [executed, marks, finish]: StateLists) -> Judged<()> {
    let count = jobs.len() / 3;
    if executed.len() != count || marks.len() != count || finish.len() != count {
        return refuse(12, 0);
    }
    let right = |job: usize| {
        executed[job] <= jobs[3 * job + 1] && marks[job] <= 2 && finish[job] <= LAST_TICK
    };
    if tick > LAST_TICK || !(0..count).all(right) {
        return refuse(12, 0);
    }
    Ok(())
}
