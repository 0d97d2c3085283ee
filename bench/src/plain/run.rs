//! Starts, steps, whole runs and lateness.

use super::check::{judge_plan, judge_state, LAST_TICK};
use super::choice::choose;
use super::{refuse, Judged};
use fuzz::abi::{LentLists, PlanLists, StateLists};

/// Tells whether every job has finished.
fn all_finished(jobs: &[u32], executed: &[u32]) -> bool {
    let mut both = jobs.chunks_exact(3).zip(executed);
    both.all(|(job, &done)| done == job[1])
}

/// Writes the state at tick 0; gives the number of jobs.
pub fn start(plan: PlanLists, lent: LentLists) -> Judged<usize> {
    judge_plan(plan)?;
    let count = plan.table.jobs.len() / 3;
    if lent.iter().any(|list| list.len() < count) {
        return refuse(11, 0);
    }
    for list in lent {
        list[..count].fill(0);
    }
    Ok(count)
}

/// Gives a job so many ticks from this one on, with the report of the last one; tells whether it
/// has finished.
fn advance(
    plan: PlanLists,
    tick: u32,
    state: &mut LentLists,
    silent: bool,
    job: usize,
    ticks: u32,
) -> bool {
    let [executed, marks, finish] = state;
    executed[job] += ticks;
    if executed[job] < plan.table.jobs[3 * job + 1] {
        return false;
    }
    let mut arcs = plan.table.arcs.chunks_exact(2);
    let after_stale = |arc: &[u32]| arc[1] as usize == job && marks[arc[0] as usize] == 2;
    let stale = silent || arcs.any(after_stale);
    marks[job] = if stale { 2 } else { 1 };
    finish[job] = tick + ticks;
    true
}

/// Does one tick; gives the job that ran.
pub fn step(
    plan: PlanLists,
    tick: u32,
    mut state: LentLists,
    silent: bool,
) -> Judged<Option<usize>> {
    judge_plan(plan)?;
    let jobs = plan.table.jobs;
    judge_state(jobs, tick, [&*state[0], &*state[1], &*state[2]])?;
    if tick == LAST_TICK {
        return refuse(12, 0);
    }
    if all_finished(jobs, state[0]) {
        return refuse(13, 0);
    }
    let ran = choose(plan, tick, state[0]);
    if let Some(job) = ran {
        advance(plan, tick, &mut state, silent, job, 1);
    }
    Ok(ran)
}

/// Judges a plan, starts it in the fronts of the lent lists and gives these.
fn begin<'a>(plan: PlanLists, mut lent: LentLists<'a>) -> Judged<LentLists<'a>> {
    let count = start(plan, lent.each_mut().map(|list| &mut **list))?;
    Ok(lent.map(|list| &mut list[..count]))
}

/// Runs a plan to the end tick by tick; gives the tick of the end state.
pub fn run_by_ticks(plan: PlanLists, lent: LentLists) -> Judged<u32> {
    let mut state = begin(plan, lent)?;
    let mut left = state[0].len();
    let mut tick = 0;
    while left > 0 {
        if let Some(job) = choose(plan, tick, state[0]) {
            left -= usize::from(advance(plan, tick, &mut state, false, job, 1));
        }
        tick += 1;
    }
    Ok(tick)
}

/// Runs a plan to the end from event to event; gives the tick of the end state and the number of
/// decisions.
pub fn run_by_events(plan: PlanLists, lent: LentLists) -> Judged<(u32, u32)> {
    let mut state = begin(plan, lent)?;
    let mut left = state[0].len();
    let mut tick = 0;
    let mut decisions = 0;
    while left > 0 {
        let chosen = choose(plan, tick, state[0]);
        let mut ticks = ticks_to_release(plan.times, tick);
        if let Some(job) = chosen {
            ticks = ticks.min(ticks_to_stop(plan, state[0], job));
            left -= usize::from(advance(plan, tick, &mut state, false, job, ticks));
        }
        tick += ticks;
        decisions += 1;
    }
    Ok((tick, decisions))
}

/// Gives the ticks to the next modified release, more than any run has where there is none.
fn ticks_to_release(times: &[u32], tick: u32) -> u32 {
    let releases = times.chunks_exact(2).map(|time| time[0]);
    let ahead = releases.filter(|&release| release > tick);
    ahead.min().unwrap_or(u32::MAX) - tick
}

/// Gives the ticks that a job still has to its next end of a section, or to its own end.
fn ticks_to_stop(plan: PlanLists, executed: &[u32], job: usize) -> u32 {
    let done = executed[job];
    let sections = plan.table.sections.chunks_exact(4);
    let own = sections.filter(|section| section[0] as usize == job && section[3] > done);
    let stop = own.map(|section| section[3]).min();
    stop.unwrap_or(plan.table.jobs[3 * job + 1]) - done
}

/// Gives the lateness of a finished job, none of an unfinished one.
pub fn lateness(plan: PlanLists, tick: u32, state: StateLists, job: u32) -> Judged<Option<i32>> {
    judge_plan(plan)?;
    judge_state(plan.table.jobs, tick, state)?;
    let [executed, _, finish] = state;
    let Some(row) = plan.table.jobs.chunks_exact(3).nth(job as usize) else {
        return refuse(12, 0);
    };
    let job = job as usize;
    let finished = executed[job] == row[1];
    Ok(finished.then(|| finish[job] as i32 - row[2] as i32))
}
