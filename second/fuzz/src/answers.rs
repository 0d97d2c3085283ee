//! What the second program answers to a question, with the fronts that it writes.

use crate::abi::Numbers;
use crate::asked::Asked;
use second::{answer_with, check_with, density_with, lateness_with, read_with, run_with_slip};
use second::{start, step_with, write, Plan, Refusal, Slip, State, Table};

/// An answer with what is written to the front of each lent list.
#[derive(Clone, Debug, Default, PartialEq, Eq)]
pub struct Answer {
    /// The refusal, or the values.
    pub numbers: Numbers,
    /// The fronts of the lent lists of numbers.
    pub fronts: Vec<Vec<u32>>,
    /// The front of the lent list of bytes.
    pub bytes: Vec<u8>,
}

impl Answer {
    /// Gives an answer of values and fronts.
    fn of(values: [i64; 3], fronts: Vec<Vec<u32>>) -> Answer {
        let numbers = Numbers {
            values,
            ..Numbers::default()
        };
        Answer {
            numbers,
            fronts,
            ..Answer::default()
        }
    }

    /// Gives an answer that writes bytes.
    fn of_bytes(bytes: Vec<u8>) -> Answer {
        let answer = Answer::of([bytes.len() as i64, 0, 0], vec![]);
        Answer { bytes, ..answer }
    }

    /// Gives the answer of a refusal with these values.
    fn refused(refusal: Refusal, values: [i64; 3]) -> Answer {
        let mut answer = Answer::of(values, vec![]);
        answer.numbers.refusal = refusal.number;
        answer.numbers.place = refusal.place;
        answer
    }
}

/// Answers a question with a slip.
pub fn answer(asked: &Asked, slip: Slip) -> Answer {
    let answered = match asked {
        Asked::Read { text, .. } => read_with(text, slip).map(of_read),
        Asked::Write { table, .. } => write(table).map(Answer::of_bytes),
        Asked::Plan { table, .. } => check_with(table, slip).map(of_check),
        Asked::Density { plan } => density_with(plan, slip)
            .map(|density| Answer::of([density.yes.into(), density.place.into(), 0], vec![])),
        Asked::Start { plan, .. } => start(plan).map(of_end),
        Asked::Step {
            plan,
            state,
            silent,
        } => return step_answer(plan, state, *silent, slip),
        Asked::Run { plan, .. } => run_with_slip(plan, &[], slip).map(of_end),
        Asked::Lateness { plan, state, job } => lateness_with(plan, state, *job as usize, slip)
            .map(|late| Answer::of([late.is_some().into(), late.unwrap_or(0), 0], vec![])),
        Asked::Answer { text, .. } => Ok(Answer::of_bytes(answer_with(text, slip))),
        Asked::Walk { plan, reports } => walk(plan, reports, slip),
    };
    answered
        .and_then(|answer| given_room(asked, answer))
        .unwrap_or_else(|refusal| Answer::refused(refusal, [0; 3]))
}

/// Gives the answer of a table that was read: its counts and its lists.
fn of_read(table: Table) -> Answer {
    let (jobs, arcs, sections) = (&table.jobs, &table.arcs, &table.sections);
    let counts = [jobs.len() / 3, arcs.len() / 2, sections.len() / 4];
    let counts = counts.map(|count| count as i64);
    Answer::of(counts, vec![table.jobs, table.arcs, table.sections])
}

/// Gives the answer of a table that was checked: how many times there are, and these.
fn of_check(plan: Plan) -> Answer {
    Answer::of([plan.times.len() as i64, 0, 0], vec![plan.times])
}

/// Gives the three lists of a state.
fn lists(state: State) -> Vec<Vec<u32>> {
    vec![state.executed, state.marks, state.finish]
}

/// Gives the answer of a state that was reached: its tick and its lists.
fn of_end(state: State) -> Answer {
    Answer::of([state.tick.into(), 0, 0], lists(state))
}

/// Refuses with 11 where a lent list is too short for what is to be written.
fn given_room(asked: &Asked, answer: Answer) -> Result<Answer, Refusal> {
    let rooms = asked.rooms();
    let mut lists = answer.fronts.iter().zip(&rooms);
    if lists.any(|(front, &room)| front.len() > room) || answer.bytes.len() > asked.byte_room() {
        return Err(Refusal::new(11, 0));
    }
    Ok(answer)
}

/// Gives the answer of one step; a refusal hands back the given tick.
fn step_answer(plan: &Plan, state: &State, silent: bool, slip: Slip) -> Answer {
    match step_with(plan, state, silent, slip) {
        Ok(step) => {
            let ran = step.ran.is_some().into();
            let job = step.ran.unwrap_or(0) as i64;
            Answer::of([step.state.tick.into(), ran, job], lists(step.state))
        }
        Err(refusal) => Answer::refused(refusal, [state.tick.into(), 0, 0]),
    }
}

/// Gives the answer of a walk, which ends at the first refused step: the last tick, how many steps
/// there were, and a number for what ran at each.
fn walk(plan: &Plan, reports: &[bool], slip: Slip) -> Result<Answer, Refusal> {
    let mut state = start(plan)?;
    let (mut steps, mut order) = (0, 0);
    for &silent in reports {
        let Ok(step) = step_with(plan, &state, silent, slip) else {
            break;
        };
        steps += 1;
        order = order_after(order, step.ran.map(|job| job as u32));
        state = step.state;
    }
    Ok(Answer::of([state.tick.into(), steps, order], lists(state)))
}

/// Gives a number for a sequence of what ran, from that of the sequence without the last.
pub fn order_after(order: i64, ran: Option<u32>) -> i64 {
    let last = ran.map_or(0, |job| i64::from(job) + 1);
    (order * 67 + last) % 1_000_000_007
}
