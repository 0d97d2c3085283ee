//! The order of jobs and the ceilings of resources, both fixed for a plan.

use crate::slip::Slip;
use crate::table::{Plan, RESOURCES};

/// Gives the jobs in the order: modified deadline, then modified release, then number.
///
/// The plan must be within its bounds.
pub fn order_of_jobs(plan: &Plan) -> Vec<usize> {
    let jobs = 0..plan.table.job_count();
    let mut keys: Vec<(u32, u32, usize)> = jobs
        .map(|job| (plan.deadline(job), plan.release(job), job))
        .collect();
    keys.sort_unstable();
    keys.into_iter().map(|(_, _, job)| job).collect()
}

/// Gives the ceiling of each resource, none where no job has a section on it.
///
/// The plan must be within its bounds.
pub fn ceilings(plan: &Plan) -> [Option<u32>; RESOURCES] {
    ceilings_with(plan, Slip::None)
}

/// Gives the ceiling of each resource, with a slip.
///
/// The plan must be within its bounds.
pub fn ceilings_with(plan: &Plan, slip: Slip) -> [Option<u32>; RESOURCES] {
    let mut ceilings: [Option<u32>; RESOURCES] = [None; RESOURCES];
    for section in plan.table.each_section() {
        if slip == Slip::OneTickSectionsDropped && section.length() == 1 {
            continue;
        }
        let relative = plan.relative_deadline(section.job);
        let ceiling = &mut ceilings[section.resource];
        *ceiling = Some(ceiling.map_or(relative, |lowest| lowest.min(relative)));
    }
    ceilings
}
