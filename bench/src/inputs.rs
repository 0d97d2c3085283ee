//! What the benchmark asks about: tables of chosen sizes, their plans, and states on the way.

use crate::plain::choice::first_pending;
use crate::plain::BY_TICKS;
use fuzz::abi::{Entries, PlanLists, TableLists};
use second::random::Random;
use second::rows::Rows;
use second::{check, Plan, State, Table};

/// Layers of jobs; arcs lead from a layer to the next.
const LAYERS: u32 = 8;
/// A number with many divisors, the relative deadlines for the density test.
const RICH: u32 = 720_720;
/// Largest release or deadline of a table that can be multiplied by a thousand.
const LATEST: u32 = 1_000;

/// Lends the lists of a table.
pub fn lists_of(table: &Table) -> TableLists<'_> {
    TableLists {
        jobs: &table.jobs,
        arcs: &table.arcs,
        sections: &table.sections,
    }
}

/// Lends the lists of a plan.
pub fn plan_lists_of(plan: &Plan) -> PlanLists<'_> {
    PlanLists {
        table: lists_of(&plan.table),
        times: &plan.times,
    }
}

/// Makes an accepted table of these sizes, with releases and costs up to 100 and deadlines up to
/// 1,000.
///
/// Job 0 comes first, is long, has no arcs and much time, so that others find it inside its sections. Arcs
/// lead from a layer of jobs to the next, some of them more than once where the layers are small.
/// The sections of a job lie within each other, each on a resource of its own.
pub fn layered(jobs: u32, arcs: u32, sections: u32) -> Rows {
    let mut random = Random(u64::from(jobs << 20 | arcs << 10 | sections));
    let layers = LAYERS.min(jobs);
    let mut rows = Rows::default();
    for _ in 0..jobs {
        let (release, cost) = (1 + random.below(100), 40 + random.below(61));
        rows.jobs.push([release, cost, LATEST - random.below(50)]);
    }
    rows.jobs[0] = [0, 100, LATEST];
    while rows.arcs.len() < arcs as usize {
        let layer = random.below(layers - 1);
        let [before, after] =
            [layer, layer + 1].map(|of| random.below(jobs / layers) * layers + of);
        if before > 0 {
            rows.arcs.push([before, after]);
        }
    }
    let buses: Vec<u32> = (0..jobs).map(|_| random.below(16)).collect();
    for section in 0..sections {
        let (job, depth) = (section % jobs, section / jobs);
        let cost = rows.jobs[job as usize][1];
        let bus = (buses[job as usize] + depth) % 16;
        rows.sections.push([job, bus, depth, cost - depth]);
    }
    random.shuffle(&mut rows.sections);
    rows
}

/// Makes a table of the most jobs, arcs and sections.
pub fn full() -> Rows {
    layered(64, 256, 128)
}

/// Makes the same table with every job at this cost, its sections stretched to it.
pub fn with_cost(mut rows: Rows, cost: u32) -> Rows {
    for section in &mut rows.sections {
        let own = rows.jobs[section[0] as usize][1];
        section[2] = section[2] * cost / own;
        section[3] = cost - section[2];
    }
    rows.jobs.iter_mut().for_each(|job| job[1] = cost);
    rows
}

/// Multiplies all releases, costs, deadlines and sections.
pub fn times(mut rows: Rows, factor: u32) -> Rows {
    for job in &mut rows.jobs {
        *job = job.map(|value| value * factor);
    }
    for section in &mut rows.sections {
        section[2] *= factor;
        section[3] *= factor;
    }
    rows
}

/// Makes all releases, costs, deadlines and sections even, by one less for each that is odd.
pub fn even(mut rows: Rows) -> Rows {
    for job in &mut rows.jobs {
        *job = job.map(|value| value & !1);
    }
    for section in &mut rows.sections {
        section[2] &= !1;
        section[3] &= !1;
    }
    rows
}

/// Makes a table of the most jobs, arcs and sections that the density test says yes to.
///
/// The relative deadlines are divisors of one number, and arcs lead from shorter to longer ones
/// that leave the time, so that the modified times are the given ones.
pub fn for_density() -> Rows {
    let mut random = Random(7);
    let mut rows = Rows::default();
    let divisors = (1..=RICH)
        .rev()
        .filter(|divisor| RICH.is_multiple_of(*divisor));
    let mut spans: Vec<u32> = divisors.take(64).collect();
    random.shuffle(&mut spans);
    for span in spans {
        rows.jobs.push([0, 10 + random.below(20), span]);
    }
    while rows.arcs.len() < 256 {
        let [before, after] = [0; 2].map(|_| random.below(64));
        if rows.jobs[before as usize][2] < rows.jobs[after as usize][2] {
            rows.arcs.push([before, after]);
        }
    }
    for section in 0..128 {
        let (job, depth) = (section % 64, section / 64);
        rows.sections.push([job, (job + depth) % 16, depth, 9]);
    }
    rows
}

/// Gives the plan of a table that is accepted.
pub fn plan_of(rows: &Rows) -> Plan {
    check(&rows.table()).expect("the table is accepted")
}

/// What a step finds.
#[derive(Clone, Copy, Debug, PartialEq, Eq)]
pub enum Turn {
    /// The first pending job has been started and runs on.
    RunsOn,
    /// The first pending job starts.
    Starts,
    /// The first pending job is held back, and a started one runs.
    HeldBack,
    /// A job ends.
    Ends,
}

/// Gives the state in the middle of those in which a run of this plan finds this.
pub fn state_at(plan: &Plan, turn: Turn) -> State {
    let states = states(plan);
    let found: Vec<&State> = states
        .iter()
        .filter(|(_, found)| found.contains(&turn))
        .map(|(state, _)| state)
        .collect();
    found[found.len() / 2].clone()
}

/// Gives the states of a run of this plan, each with what its step finds.
fn states(plan: &Plan) -> Vec<(State, Vec<Turn>)> {
    let count = plan.table.job_count();
    let mut state = State {
        tick: 0,
        executed: vec![0; count],
        marks: vec![0; count],
        finish: vec![0; count],
    };
    let mut states = Vec::new();
    loop {
        let before = state.clone();
        let lent = [&mut state.executed, &mut state.marks, &mut state.finish];
        let lent = lent.map(|list| list.as_mut_slice());
        let stepped = BY_TICKS.step(plan_lists_of(plan), before.tick, lent, false);
        if stepped.refusal > 0 {
            return states;
        }
        state.tick = stepped.tick;
        if stepped.ran > 0 {
            let turns = turns(plan, &before, stepped.job as usize);
            states.push((before, turns));
        }
    }
}

/// Gives what a step finds in which this job runs.
fn turns(plan: &Plan, before: &State, job: usize) -> Vec<Turn> {
    let done = before.executed[job];
    let first = first_pending(plan_lists_of(plan), before.tick, &before.executed, 0);
    let mut turns = vec![match (first == Some(job), done) {
        (true, 0) => Turn::Starts,
        (true, _) => Turn::RunsOn,
        (false, _) => Turn::HeldBack,
    }];
    if done + 1 == plan.table.cost(job) {
        turns.push(Turn::Ends);
    }
    turns
}
