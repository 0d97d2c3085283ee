//! What comes of a question: the answer and every list afterwards, guards included.

use crate::abi::{Entries, LentLists, Numbers, PlanLists, StateLists, TableLists};
use crate::answers::{order_after, Answer};
use crate::asked::Asked;
use crate::guarded::Guarded;
use second::random::Random;

/// The lists lent to an entry.
#[derive(Clone, Debug, PartialEq, Eq)]
pub struct Lent {
    words: Vec<Guarded<u32>>,
    bytes: Guarded<u8>,
}

impl Lent {
    /// Draws what the lent lists hold; a step's are its state.
    pub fn of(random: &mut Random, asked: &Asked) -> Lent {
        let words = match asked {
            Asked::Step { .. } => asked.state().map(|list| Guarded::of(random, list)).into(),
            _ => {
                let rooms = asked.rooms().into_iter();
                rooms.map(|room| Guarded::drawn(random, room)).collect()
            }
        };
        let bytes = Guarded::drawn(random, asked.byte_room());
        Lent { words, bytes }
    }

    /// Lends the three lists of numbers; no list where fewer were drawn.
    fn three(&mut self) -> LentLists<'_> {
        let mut lists = self.words.iter_mut().map(Guarded::lend);
        std::array::from_fn(|_| lists.next().unwrap_or_default())
    }
}

/// The lists that an entry only reads, between guards too.
#[derive(Clone, PartialEq, Eq)]
struct Inputs {
    text: Guarded<u8>,
    lists: [Guarded<u32>; 4],
    state: [Guarded<u32>; 3],
}

impl Inputs {
    fn of(random: &mut Random, asked: &Asked) -> Inputs {
        Inputs {
            text: Guarded::of(random, asked.text()),
            lists: asked.lists().map(|list| Guarded::of(random, list)),
            state: asked.state().map(|list| Guarded::of(random, list)),
        }
    }

    fn plan(&self) -> PlanLists<'_> {
        let [jobs, arcs, sections, times] = self.lists.each_ref().map(Guarded::list);
        let table = TableLists {
            jobs,
            arcs,
            sections,
        };
        PlanLists { table, times }
    }

    fn state(&self) -> StateLists<'_> {
        self.state.each_ref().map(Guarded::list)
    }
}

/// What came of a question.
#[derive(Clone, Debug, PartialEq, Eq)]
pub struct Outcome {
    /// The answer.
    pub numbers: Numbers,
    /// The lent lists afterwards.
    pub lent: Lent,
    /// Whether the lists that are only read are as they were.
    pub inputs_kept: bool,
}

/// Gives what is to come of a question with this answer, for lists lent like these.
pub fn expected(answer: &Answer, mut lent: Lent) -> Outcome {
    for (list, front) in lent.words.iter_mut().zip(&answer.fronts) {
        list.write_front(front);
    }
    lent.bytes.write_front(&answer.bytes);
    Outcome {
        numbers: answer.numbers,
        lent,
        inputs_kept: true,
    }
}

/// Asks the entries and gives what came of it.
pub fn found(entries: &dyn Entries, asked: &Asked, random: &mut Random, mut lent: Lent) -> Outcome {
    let inputs = Inputs::of(random, asked);
    let before = inputs.clone();
    let numbers = ask(entries, asked, &inputs, &mut lent);
    Outcome {
        numbers,
        lent,
        inputs_kept: inputs == before,
    }
}

/// Calls the entry that is asked.
fn ask(entries: &dyn Entries, asked: &Asked, inputs: &Inputs, lent: &mut Lent) -> Numbers {
    let (text, plan) = (inputs.text.list(), inputs.plan());
    match asked {
        Asked::Read { .. } => entries.read(text, lent.three()).into(),
        Asked::Write { .. } => entries.write(plan.table, lent.bytes.lend()).into(),
        Asked::Plan { .. } => entries.plan(plan.table, lent.words[0].lend()).into(),
        Asked::Density { .. } => entries.density(plan).into(),
        Asked::Start { .. } => entries.start(plan, lent.three()).into(),
        Asked::Step { state, silent, .. } => {
            entries.step(plan, state.tick, lent.three(), *silent).into()
        }
        Asked::Run { .. } => entries.run(plan, lent.three()).into(),
        Asked::Lateness { state, job, .. } => entries
            .lateness(plan, state.tick, inputs.state(), *job)
            .into(),
        Asked::Answer { .. } => entries.answer(text, lent.bytes.lend()).into(),
        Asked::Walk { reports, .. } => walk(entries, plan, reports, lent),
    }
}

/// Starts a run and steps it on the lent lists, as far as reports go or to the first refusal.
fn walk(entries: &dyn Entries, plan: PlanLists, reports: &[bool], lent: &mut Lent) -> Numbers {
    let start: Numbers = entries.start(plan, lent.three()).into();
    let (mut tick, mut steps, mut order) = (start.values[0], 0, 0);
    for &silent in reports {
        let step = entries.step(plan, tick as u32, lent.three(), silent);
        if step.refusal > 0 {
            break;
        }
        steps += 1;
        tick = step.tick.into();
        order = order_after(order, (step.ran > 0).then_some(step.job));
    }
    Numbers {
        values: [tick, steps, order],
        ..start
    }
}

/// Says in which ways an outcome differs from the expected one, with these fronts.
pub fn differences(expected: &Outcome, found: &Outcome, answer: &Answer) -> Vec<String> {
    let mut ways = Vec::new();
    if expected.numbers != found.numbers {
        let (expected, found) = (expected.numbers, found.numbers);
        ways.push(format!("expected {expected:?}, found {found:?}"));
    }
    let lists = expected.lent.words.iter().zip(&found.lent.words);
    for (number, (expected, found)) in lists.enumerate() {
        let front = answer.fronts.get(number).map_or(0, Vec::len);
        let difference = found.difference(expected, front);
        ways.extend(difference.map(|way| format!("lent list {number} {way}")));
    }
    let bytes = (&expected.lent.bytes, &found.lent.bytes);
    let difference = bytes.1.difference(bytes.0, answer.bytes.len());
    ways.extend(difference.map(|way| format!("lent bytes {way}")));
    if !found.inputs_kept {
        ways.push("a list that is only read was changed".to_string());
    }
    ways
}
