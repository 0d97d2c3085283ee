//! The density test: jobs sorted by relative deadline, sums over their common multiple.

use super::check::judge_plan;
use super::choice::relative;
use super::{refuse, Judged, MOST_JOBS, RESOURCES};
use fuzz::abi::PlanLists;

/// Largest common multiple.
const MOST_MULTIPLE: u64 = 1_000_000_000;

/// Gives the greatest common divisor.
fn common_divisor(mut a: u64, mut b: u64) -> u64 {
    while b > 0 {
        (a, b) = (b, a % b);
    }
    a
}

/// Gives the least common multiple of all relative deadlines, or refuses with 14.
fn common_multiple(plan: PlanLists, count: usize) -> Judged<u64> {
    let mut multiple = 1;
    for job in 0..count {
        let span = u64::from(relative(plan, job));
        multiple = multiple / common_divisor(multiple, span) * span;
        if multiple > MOST_MULTIPLE {
            return refuse(14, 0);
        }
    }
    Ok(multiple)
}

/// Gives the ceiling of each resource, the largest number where it has no section.
fn ceilings(plan: PlanLists) -> [u32; RESOURCES] {
    let mut ceilings = [u32::MAX; RESOURCES];
    for section in plan.table.sections.chunks_exact(4) {
        let ceiling = &mut ceilings[section[1] as usize];
        *ceiling = (*ceiling).min(relative(plan, section[0] as usize));
    }
    ceilings
}

/// Gives the longest section that can hold up a job of this relative deadline.
fn blocking(plan: PlanLists, ceilings: &[u32; RESOURCES], span: u32) -> u32 {
    let sections = plan.table.sections.chunks_exact(4);
    let blocks = sections.filter(|section| {
        relative(plan, section[0] as usize) > span && ceilings[section[1] as usize] <= span
    });
    blocks
        .map(|section| section[3] - section[2])
        .max()
        .unwrap_or(0)
}

/// Gives the lowest failing place, from 1, or 0 with a yes.
pub fn lowest_failing(plan: PlanLists) -> Judged<u32> {
    judge_plan(plan)?;
    let count = plan.table.jobs.len() / 3;
    let multiple = common_multiple(plan, count)?;
    let ceilings = ceilings(plan);
    let mut order: [usize; MOST_JOBS] = std::array::from_fn(|job| job);
    let order = &mut order[..count];
    order.sort_unstable_by_key(|&job| (relative(plan, job), job));
    let mut sum = 0;
    for (place, &job) in order.iter().enumerate() {
        let span = relative(plan, job);
        let share = multiple / u64::from(span);
        sum += share * u64::from(plan.table.jobs[3 * job + 1]);
        if sum + share * u64::from(blocking(plan, &ceilings, span)) > multiple {
            return Ok(place as u32 + 1);
        }
    }
    Ok(0)
}
