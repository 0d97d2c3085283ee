//! Refusal 12: plans and states handed in.

use crate::check::{counts, values};
use crate::refusal::Refusal;
use crate::table::{Plan, State, LARGEST_INSTANT, LARGEST_TICK, MARK_STALE};

/// Refuses with 12 a plan that leaves its bounds.
pub fn plan_in_bounds(plan: &Plan) -> Result<(), Refusal> {
    let table = &plan.table;
    counts(table)
        .and_then(|()| values(table))
        .map_err(|_| OUT)?;
    let mut windows = table.each_job().zip(plan.times.chunks_exact(2));
    let right = plan.times.len() == 2 * table.job_count()
        && plan.times.iter().all(|&time| time <= LARGEST_INSTANT)
        && windows.all(|(job, pair)| i64::from(pair[1]) - i64::from(pair[0]) >= job.cost.into());
    refuse_unless(right)
}

/// Refuses with 12 a state that leaves its bounds, for a plan within its own.
pub fn state_in_bounds(plan: &Plan, state: &State) -> Result<(), Refusal> {
    let jobs = plan.table.job_count();
    let lists = [&state.executed, &state.marks, &state.finish];
    let mut executed = plan.table.each_job().zip(&state.executed);
    let right = lists.iter().all(|list| list.len() == jobs)
        && executed.all(|(job, &executed)| executed <= job.cost)
        && state.marks.iter().all(|&mark| mark <= MARK_STALE)
        && state.finish.iter().all(|&finish| finish <= LARGEST_TICK)
        && state.tick <= LARGEST_TICK;
    refuse_unless(right)
}

/// Refuses with 12 a plan or state that leaves the bounds of a step.
pub fn step_in_bounds(plan: &Plan, state: &State) -> Result<(), Refusal> {
    plan_in_bounds(plan)?;
    state_in_bounds(plan, state)?;
    refuse_unless(state.tick < LARGEST_TICK)
}

/// The one refusal of this part.
const OUT: Refusal = Refusal {
    number: 12,
    place: 0,
};

/// Refuses with 12 unless all is right.
pub(crate) fn refuse_unless(right: bool) -> Result<(), Refusal> {
    if right {
        Ok(())
    } else {
        Err(OUT)
    }
}
