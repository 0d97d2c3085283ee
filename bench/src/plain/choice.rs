//! Who runs in a tick.

use super::RESOURCES;
use fuzz::abi::PlanLists;

/// Tells whether a job is pending.
fn pending(plan: PlanLists, tick: u32, executed: &[u32], job: usize) -> bool {
    plan.times[2 * job] <= tick && executed[job] < plan.table.jobs[3 * job + 1]
}

/// Gives the relative deadline of a job.
pub fn relative(plan: PlanLists, job: usize) -> u32 {
    plan.times[2 * job + 1] - plan.times[2 * job]
}

/// Gives the first pending job in the order, of those that have executed at least so much.
pub fn first_pending(plan: PlanLists, tick: u32, executed: &[u32], least: u32) -> Option<usize> {
    (0..executed.len())
        .filter(|&job| executed[job] >= least && pending(plan, tick, executed, job))
        .min_by_key(|&job| (plan.times[2 * job + 1], plan.times[2 * job]))
}

/// Gives the resources that pending jobs hold.
fn held(plan: PlanLists, tick: u32, executed: &[u32]) -> [bool; RESOURCES] {
    let mut held = [false; RESOURCES];
    for section in plan.table.sections.chunks_exact(4) {
        let job = section[0] as usize;
        let inside = section[2] < executed[job] && executed[job] < section[3];
        if inside && pending(plan, tick, executed, job) {
            held[section[1] as usize] = true;
        }
    }
    held
}

/// Tells whether a job is below the ceiling of every resource that is held.
fn may_start(plan: PlanLists, tick: u32, executed: &[u32], job: usize) -> bool {
    let held = held(plan, tick, executed);
    let own = relative(plan, job);
    plan.table
        .sections
        .chunks_exact(4)
        .all(|section| !held[section[1] as usize] || own < relative(plan, section[0] as usize))
}

/// Gives the job that runs in this tick, none in an idle one.
pub fn choose(plan: PlanLists, tick: u32, executed: &[u32]) -> Option<usize> {
    let first = first_pending(plan, tick, executed, 0)?;
    if executed[first] > 0 || may_start(plan, tick, executed, first) {
        return Some(first);
    }
    first_pending(plan, tick, executed, 1)
}
