//! The dispatcher: one tick, whole runs, lateness.
//!
//! A step follows the rules tick by tick. A run goes by stretches in which no decision can
//! change; a trace goes by single ticks, so that the two can be compared.

use crate::bounds::{plan_in_bounds, refuse_unless, state_in_bounds, step_in_bounds};
use crate::order::{ceilings_with, order_of_jobs};
use crate::refusal::{refuse_short_room, Refusal};
use crate::slip::Slip;
use crate::table::{Plan, Section, State, MARK_FRESH, MARK_STALE, RESOURCES};

/// What one step gives.
#[derive(Clone, Debug, PartialEq, Eq)]
pub struct Step {
    /// The state after the step.
    pub state: State,
    /// The job that ran, none at an idle tick.
    pub ran: Option<usize>,
}

/// A whole run, tick by tick.
#[derive(Clone, Debug, PartialEq, Eq)]
pub struct Trace {
    /// The job that ran at each tick from 0, none at an idle one.
    pub ran: Vec<Option<usize>>,
    /// The end state.
    pub end: State,
}

/// Gives the state in which a run of this plan starts, or refusal 12.
pub fn start(plan: &Plan) -> Result<State, Refusal> {
    plan_in_bounds(plan)?;
    Ok(start_of(plan.table.job_count()))
}

/// Gives the start state in lent lists of these lengths.
pub fn start_into(
    plan: &Plan,
    executed_room: usize,
    marks_room: usize,
    finish_room: usize,
) -> Result<State, Refusal> {
    let state = start(plan)?;
    let jobs = plan.table.job_count();
    refuse_short_room(&[
        (executed_room, jobs),
        (marks_room, jobs),
        (finish_room, jobs),
    ])?;
    Ok(state)
}

/// Does one tick with its report, or gives refusal 12, then 13.
pub fn step(plan: &Plan, state: &State, silent: bool) -> Result<Step, Refusal> {
    step_with(plan, state, silent, Slip::None)
}

/// Does one tick with a slip.
pub fn step_with(plan: &Plan, state: &State, silent: bool, slip: Slip) -> Result<Step, Refusal> {
    step_in_bounds(plan, state)?;
    let rules = Rules::of(plan, slip);
    if rules.all_finished(state) {
        return Err(Refusal::new(13, 0));
    }
    let ran = rules.decide(state);
    let mut state = state.clone();
    rules.advance(&mut state, ran, 1, silent);
    Ok(Step { state, ran })
}

/// Runs a plan to the end with every report answered, or gives refusal 12.
pub fn run(plan: &Plan) -> Result<State, Refusal> {
    run_with(plan, &[])
}

/// Runs a plan to the end; the report of tick t is silent if `reports[t]`, answered where missing.
pub fn run_with(plan: &Plan, reports: &[bool]) -> Result<State, Refusal> {
    run_with_slip(plan, reports, Slip::None)
}

/// Runs a plan to the end with a slip; ends also where the slip lets no job run any more.
pub fn run_with_slip(plan: &Plan, reports: &[bool], slip: Slip) -> Result<State, Refusal> {
    let mut state = start(plan)?;
    let rules = Rules::of(plan, slip);
    while !rules.all_finished(&state) {
        let Some((ran, length)) = rules.stretch(&state) else {
            break;
        };
        let silent = report(reports, state.tick + length - 1);
        rules.advance(&mut state, ran, length, silent);
    }
    Ok(state)
}

/// Runs a plan tick by tick with these reports and tells which job ran at each.
pub fn trace(plan: &Plan, reports: &[bool]) -> Result<Trace, Refusal> {
    trace_with_slip(plan, reports, Slip::None)
}

/// Runs a plan tick by tick with a slip, at most to the largest release plus the sum of costs.
pub fn trace_with_slip(plan: &Plan, reports: &[bool], slip: Slip) -> Result<Trace, Refusal> {
    let mut end = start(plan)?;
    let rules = Rules::of(plan, slip);
    let mut ran = Vec::new();
    while !rules.all_finished(&end) && end.tick < latest_end(plan) {
        let job = rules.decide(&end);
        let silent = report(reports, end.tick);
        rules.advance(&mut end, job, 1, silent);
        ran.push(job);
    }
    Ok(Trace { ran, end })
}

/// Gives the largest modified release plus the sum of costs, for a plan within its bounds.
pub fn latest_end(plan: &Plan) -> u32 {
    let releases = (0..plan.table.job_count()).map(|job| plan.release(job));
    let costs: u32 = plan.table.each_job().map(|job| job.cost).sum();
    releases.max().unwrap_or(0) + costs
}

/// Gives the lateness of a finished job, none of an unfinished one, or refusal 12.
pub fn lateness(plan: &Plan, state: &State, job: usize) -> Result<Option<i64>, Refusal> {
    lateness_with(plan, state, job, Slip::None)
}

/// Gives the lateness of a job with a slip.
pub fn lateness_with(
    plan: &Plan,
    state: &State,
    job: usize,
    slip: Slip,
) -> Result<Option<i64>, Refusal> {
    plan_in_bounds(plan)?;
    state_in_bounds(plan, state)?;
    refuse_unless(job < plan.table.job_count())?;
    if state.executed[job] < plan.table.cost(job) {
        return Ok(None);
    }
    let deadline = match slip {
        Slip::LatenessAgainstModified => plan.deadline(job),
        _ => plan.table.deadline(job),
    };
    Ok(Some(i64::from(state.finish[job]) - i64::from(deadline)))
}

/// Gives the start state of this many jobs.
fn start_of(jobs: usize) -> State {
    State {
        tick: 0,
        executed: vec![0; jobs],
        marks: vec![0; jobs],
        finish: vec![0; jobs],
    }
}

/// Tells whether the report of a tick is silent.
fn report(reports: &[bool], tick: u32) -> bool {
    reports.get(tick as usize).copied().unwrap_or(false)
}

/// The rules of one tick for a plan, with what is fixed for it worked out in advance.
struct Rules<'a> {
    plan: &'a Plan,
    order: Vec<usize>,
    sections: Vec<Section>,
    ceilings: [Option<u32>; RESOURCES],
    slip: Slip,
}

impl Rules<'_> {
    fn of(plan: &Plan, slip: Slip) -> Rules<'_> {
        Rules {
            plan,
            order: order_of_jobs(plan),
            sections: plan.table.each_section().collect(),
            ceilings: ceilings_with(plan, slip),
            slip,
        }
    }

    fn finished(&self, state: &State, job: usize) -> bool {
        state.executed[job] == self.plan.table.cost(job)
    }

    fn all_finished(&self, state: &State) -> bool {
        self.order.iter().all(|&job| self.finished(state, job))
    }

    fn pending(&self, state: &State, job: usize) -> bool {
        self.plan.release(job) <= state.tick && !self.finished(state, job)
    }

    /// Tells whether the section's job holds it at a decision.
    fn held(&self, state: &State, section: &Section) -> bool {
        let executed = state.executed[section.job];
        let entered = match self.slip {
            Slip::HoldsAtFrom => section.from <= executed,
            _ => section.from < executed,
        };
        entered && executed < section.to
    }

    /// Gives the lowest ceiling of the resources held by pending jobs.
    fn lowest_held_ceiling(&self, state: &State) -> Option<u32> {
        let held = self
            .sections
            .iter()
            .filter(|section| self.held(state, section) && self.pending(state, section.job));
        held.filter_map(|section| self.ceilings[section.resource])
            .min()
    }

    /// Tells whether a job is below this ceiling.
    fn passes(&self, job: usize, ceiling: Option<u32>) -> bool {
        let relative = self.plan.relative_deadline(job);
        match (ceiling, self.slip) {
            (None, _) => true,
            (Some(ceiling), Slip::CeilingAtMost) => relative <= ceiling,
            (Some(ceiling), _) => relative < ceiling,
        }
    }

    /// Gives the job that runs at this tick, none at an idle one.
    fn decide(&self, state: &State) -> Option<usize> {
        let jobs = self.order.iter().copied();
        let mut pending = jobs.filter(|&job| self.pending(state, job));
        let first = pending.next()?;
        let started = |job: &usize| state.executed[*job] > 0;
        let ceiling = self.lowest_held_ceiling(state);
        if started(&first) || self.passes(first, ceiling) {
            return Some(first);
        }
        match self.slip {
            Slip::StartBestThatPasses => {
                pending.find(|job| started(job) || self.passes(*job, ceiling))
            }
            _ => pending.find(started),
        }
    }

    /// Gives the job that runs now and for how many ticks no decision can change.
    fn stretch(&self, state: &State) -> Option<(Option<usize>, u32)> {
        let ran = self.decide(state);
        let releases = self.order.iter().map(|&job| self.plan.release(job));
        let to_releases = releases.filter_map(|release| ticks_to(state.tick, release));
        let to_turns = ran.into_iter().flat_map(|job| {
            let executed = state.executed[job];
            let turns = self.turns(job);
            turns.filter_map(move |turn| ticks_to(executed, turn))
        });
        let length = to_releases.chain(to_turns).min()?;
        Some((ran, length))
    }

    /// Gives the executed counts at which a job starts, ends, or changes what it holds.
    fn turns(&self, job: usize) -> impl Iterator<Item = u32> + '_ {
        let own = self
            .sections
            .iter()
            .filter(move |section| section.job == job);
        let edges = own.flat_map(|section| [section.from, section.from + 1, section.to]);
        edges.chain([1, self.plan.table.cost(job)])
    }

    /// Gives these ticks to a job or to none; the report counts where they finish it.
    fn advance(&self, state: &mut State, ran: Option<usize>, ticks: u32, silent: bool) {
        state.tick += ticks;
        let Some(job) = ran else { return };
        state.executed[job] += ticks;
        if self.finished(state, job) {
            let mut before = self.plan.table.predecessors(job);
            let inherited = self.slip != Slip::MarkByReportAlone
                && before.any(|before| state.marks[before] == MARK_STALE);
            let stale = silent || inherited;
            state.marks[job] = if stale { MARK_STALE } else { MARK_FRESH };
            state.finish[job] = state.tick;
        }
    }
}

/// Gives the number of ticks to an instant ahead.
fn ticks_to(now: u32, instant: u32) -> Option<u32> {
    instant.checked_sub(now).filter(|&ticks| ticks > 0)
}
