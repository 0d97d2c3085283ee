//! Draws states for a plan: reached by a run, within their bounds but reached by none, or damaged.

use crate::draw::damage;
use second::random::Random;
use second::table::{Job, LARGEST_TICK};
use second::{start, step, Plan, State};

/// Draws a state for a plan, which may be out of its own bounds.
pub fn state(random: &mut Random, plan: &Plan) -> State {
    let mut state = match random.percent(40) {
        true => reached(random, plan).unwrap_or_else(|| unreached(random, plan)),
        false => unreached(random, plan),
    };
    if random.percent(25) {
        damage_state(random, &mut state);
    }
    state
}

/// Gives the state after some steps of a run, none for a plan out of its bounds.
fn reached(random: &mut Random, plan: &Plan) -> Option<State> {
    let mut state = start(plan).ok()?;
    let silent = random.one_of(&[0, 20, 100]);
    for _ in 0..random.below(24) {
        match step(plan, &state, random.percent(silent)) {
            Ok(step) => state = step.state,
            Err(_) => break,
        }
    }
    Some(state)
}

/// Draws a state that no run need reach, sometimes with every job at its end.
fn unreached(random: &mut Random, plan: &Plan) -> State {
    let mut state = State {
        tick: tick(random, plan),
        ..State::default()
    };
    let all_ended = random.percent(8);
    for (number, job) in plan.table.each_job().enumerate() {
        let executed = match all_ended {
            true => job.cost,
            false => executed(random, plan, number, job),
        };
        state.executed.push(executed);
        state.marks.push(random.below(3));
        let finish = random.one_of(&[0, 0, 1, 50, LARGEST_TICK]);
        state.finish.push(finish);
    }
    state
}

/// Draws the executed ticks of a job: none, all, or at an edge of a section of its own.
fn executed(random: &mut Random, plan: &Plan, number: usize, job: Job) -> u32 {
    let own = plan.table.each_section().filter(|s| s.job == number);
    let edges: Vec<u32> = own.flat_map(|s| [s.from, s.to]).collect();
    let drawn = match random.below(6) {
        0 => 0,
        1 => job.cost,
        2 if !edges.is_empty() => random.one_of(&edges),
        3 if !edges.is_empty() => random.one_of(&edges).saturating_add(1),
        4 => job.cost.saturating_sub(1),
        _ => random.below(job.cost.saturating_add(1)),
    };
    drawn.min(job.cost)
}

/// Draws a tick: near a release, or near the largest one.
fn tick(random: &mut Random, plan: &Plan) -> u32 {
    let release = plan.times.get(2 * random.place(plan.times.len() / 2));
    let release = release.copied().unwrap_or(0);
    match random.below(8) {
        0 => random.one_of(&[LARGEST_TICK - 1, LARGEST_TICK]),
        1 => release.saturating_sub(1),
        2 => release,
        3 => random.below(LARGEST_TICK),
        _ => random.below(30),
    }
}

/// Damages one part of a state, within the bounds or out of them.
fn damage_state(random: &mut Random, state: &mut State) {
    match random.below(4) {
        0 => damage(random, &mut state.executed, 65),
        1 => damage(random, &mut state.marks, 65),
        2 => damage(random, &mut state.finish, 65),
        _ => state.tick = random.one_of(&[LARGEST_TICK, LARGEST_TICK + 1, u32::MAX]),
    }
}
