//! What lies before an entry when it is asked: its inputs, and the lists that it is lent.

use crate::inputs::plan_lists_of;
use fuzz::abi::{Entries, Numbers, PlanLists, Stepped};
use second::{Plan, State};

/// What is asked.
#[derive(Clone, Copy, Debug, PartialEq, Eq)]
pub enum Asked {
    /// The text is read.
    Read,
    /// The table's text is written.
    Write,
    /// The table is planned.
    Plan,
    /// The density of the plan is tested.
    Density,
    /// One step is done from the state, which is then put back.
    Step,
    /// A run is started and stepped to its end.
    Walk,
    /// The plan is run.
    Run,
    /// The text is answered.
    Answer,
}

/// The inputs of an entry and the lists lent to it.
#[derive(Clone, Debug, Default, PartialEq, Eq)]
pub struct Desk {
    text: Vec<u8>,
    plan: Plan,
    state: State,
    words: [Vec<u32>; 3],
    bytes: Vec<u8>,
}

impl Desk {
    /// Lays out a text, with room for all that can be asked of it.
    pub fn of_text(text: &[u8]) -> Desk {
        Desk {
            text: text.to_vec(),
            words: [192, 512, 512].map(|room| vec![7; room]),
            bytes: vec![7; 6_000],
            ..Desk::default()
        }
    }

    /// Lays out a plan, with room for its text, and for its times or a state.
    pub fn of_plan(plan: &Plan) -> Desk {
        Desk {
            plan: plan.clone(),
            words: [7; 3].map(|filling| vec![filling; 2 * plan.table.job_count()]),
            bytes: vec![7; 21_000],
            ..Desk::default()
        }
    }

    /// Lays out a plan and a state of it.
    pub fn of_state(plan: &Plan, state: &State) -> Desk {
        let state = state.clone();
        let words = [&state.executed, &state.marks, &state.finish].map(Vec::clone);
        Desk {
            plan: plan.clone(),
            state,
            words,
            ..Desk::default()
        }
    }

    /// Lends the plan and three lists.
    fn lend(&mut self) -> (PlanLists<'_>, [&mut [u32]; 3]) {
        let lent = self.words.each_mut().map(Vec::as_mut_slice);
        (plan_lists_of(&self.plan), lent)
    }

    /// Asks an entry.
    pub fn ask(&mut self, entries: &impl Entries, asked: Asked) -> Numbers {
        let text = self.text.as_slice();
        let [first, _, _] = &mut self.words;
        let plan = plan_lists_of(&self.plan);
        match asked {
            Asked::Read => {
                let lent = self.words.each_mut().map(Vec::as_mut_slice);
                entries.read(text, lent).into()
            }
            Asked::Write => entries.write(plan.table, &mut self.bytes).into(),
            Asked::Plan => entries.plan(plan.table, first).into(),
            Asked::Density => entries.density(plan).into(),
            Asked::Step => self.step_and_put_back(entries),
            Asked::Walk => self.walk(entries, u32::MAX),
            Asked::Run => {
                let (plan, lent) = self.lend();
                entries.run(plan, lent).into()
            }
            Asked::Answer => entries.answer(text, &mut self.bytes).into(),
        }
    }

    /// Steps once from the state, on the lent lists.
    pub fn step(&mut self, entries: &impl Entries) -> Stepped {
        let tick = self.state.tick;
        let (plan, lent) = self.lend();
        entries.step(plan, tick, lent, false)
    }

    /// Steps once from the state and puts back what the step wrote.
    fn step_and_put_back(&mut self, entries: &impl Entries) -> Numbers {
        let stepped = self.step(entries);
        if stepped.ran > 0 {
            let job = stepped.job as usize;
            let state = [&self.state.executed, &self.state.marks, &self.state.finish];
            for (list, kept) in self.words.iter_mut().zip(state) {
                list[job] = kept[job];
            }
        }
        stepped.into()
    }

    /// Starts a run and steps it so many times, or to its end.
    pub fn walk(&mut self, entries: &impl Entries, steps: u32) -> Numbers {
        let jobs = self.plan.table.job_count();
        let lent = self.words.each_mut().map(|list| &mut list[..jobs]);
        let plan = plan_lists_of(&self.plan);
        let mut last: Numbers = entries.start(plan, lent).into();
        let mut tick = 0;
        for _ in 0..steps {
            let lent = self.words.each_mut().map(|list| &mut list[..jobs]);
            let stepped = entries.step(plan, tick, lent, false);
            last = stepped.into();
            if stepped.refusal > 0 {
                break;
            }
            tick = stepped.tick;
        }
        last
    }
}
