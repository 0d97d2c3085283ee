//! How long jobs wait for jobs later in the order, and the bound on it.

use crate::dispatch::trace;
use crate::order::{ceilings, order_of_jobs};
use crate::refusal::Refusal;
use crate::slip::Slip;
use crate::table::{Plan, Section};

/// How long one job waited for later jobs.
#[derive(Clone, Debug, PartialEq, Eq)]
pub struct Wait {
    /// Ticks given to later jobs from the job's modified release to its finish.
    pub ticks: u32,
    /// The later jobs that got them, by number.
    pub given_to: Vec<usize>,
    /// The longest section among later jobs, less one; 0 if they have none.
    pub bound: u32,
}

/// Gives the wait of each job, by number, in a run of this plan, or refusal 12.
pub fn waits(plan: &Plan) -> Result<Vec<Wait>, Refusal> {
    waits_with(plan, Slip::None)
}

/// Gives the waits of the right run, their bound with a slip.
pub fn waits_with(plan: &Plan, slip: Slip) -> Result<Vec<Wait>, Refusal> {
    let trace = trace(plan, &[])?;
    let order = order_of_jobs(plan);
    let mut waits = Vec::new();
    for job in 0..plan.table.job_count() {
        let place = order.iter().position(|&other| other == job).unwrap_or(0);
        let later = &order[place + 1..];
        let window = plan.release(job) as usize..trace.end.finish[job] as usize;
        let ran = trace.ran[window].iter().flatten();
        let given: Vec<usize> = ran.copied().filter(|ran| later.contains(ran)).collect();
        let mut given_to = given.clone();
        given_to.sort_unstable();
        given_to.dedup();
        waits.push(Wait {
            ticks: given.len() as u32,
            given_to,
            bound: bound(plan, job, later, slip),
        });
    }
    Ok(waits)
}

/// Gives the longest section among these later jobs, less one.
fn bound(plan: &Plan, job: usize, later: &[usize], slip: Slip) -> u32 {
    let ceilings = ceilings(plan);
    let relative = plan.relative_deadline(job);
    let counts = |section: &Section| {
        let reaches = ceilings[section.resource].is_some_and(|ceiling| ceiling <= relative);
        later.contains(&section.job) && (reaches || slip != Slip::NarrowedWaitingBound)
    };
    let sections = plan.table.each_section().filter(counts);
    let longest = sections.map(|section| section.length()).max();
    longest.unwrap_or(0).saturating_sub(1)
}
