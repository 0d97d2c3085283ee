//! The second program behind the C interface's own shapes, for the harness to be tried without the
//! library.

use crate::abi::{Count, Counts, Entries, Late, Length, LentLists, Numbers, PlanLists};
use crate::abi::{StateLists, Stepped, TableLists, Tick, Verdict};
use crate::answers::answer;
use crate::asked::Asked;
use second::{Plan, Slip, State, Table};

/// The second program in the library's place.
#[derive(Clone, Copy, Debug, Default)]
pub struct StandIn;

/// Copies a table's lists.
fn table_of(lists: TableLists) -> Table {
    Table {
        jobs: lists.jobs.to_vec(),
        arcs: lists.arcs.to_vec(),
        sections: lists.sections.to_vec(),
    }
}

/// Copies a plan's lists.
fn plan_of(lists: PlanLists) -> Plan {
    Plan {
        table: table_of(lists.table),
        times: lists.times.to_vec(),
    }
}

/// Copies a state's lists.
fn state_of(tick: u32, [executed, marks, finish]: StateLists) -> State {
    State {
        tick,
        executed: executed.to_vec(),
        marks: marks.to_vec(),
        finish: finish.to_vec(),
    }
}

/// Answers a question rightly and writes what is to be written.
fn answered<const N: usize>(asked: &Asked, lent: [&mut [u32]; N], out: &mut [u8]) -> Numbers {
    let answer = answer(asked, Slip::None);
    for (list, front) in lent.into_iter().zip(&answer.fronts) {
        list[..front.len()].copy_from_slice(front);
    }
    out[..answer.bytes.len()].copy_from_slice(&answer.bytes);
    answer.numbers
}

/// Gives the lengths of lent lists.
fn rooms(lent: &LentLists) -> [usize; 3] {
    [lent[0].len(), lent[1].len(), lent[2].len()]
}

impl Entries for StandIn {
    fn read(&self, text: &[u8], lent: LentLists) -> Counts {
        let (text, rooms) = (text.to_vec(), rooms(&lent));
        answered(&Asked::Read { text, rooms }, lent, &mut []).into()
    }

    fn write(&self, table: TableLists, out: &mut [u8]) -> Length {
        let (table, room) = (table_of(table), out.len());
        answered(&Asked::Write { table, room }, [], out).into()
    }

    fn plan(&self, table: TableLists, times: &mut [u32]) -> Count {
        let (table, room) = (table_of(table), times.len());
        answered(&Asked::Plan { table, room }, [times], &mut []).into()
    }

    fn density(&self, plan: PlanLists) -> Verdict {
        let plan = plan_of(plan);
        answered(&Asked::Density { plan }, [], &mut []).into()
    }

    fn start(&self, plan: PlanLists, lent: LentLists) -> Tick {
        let (plan, rooms) = (plan_of(plan), rooms(&lent));
        answered(&Asked::Start { plan, rooms }, lent, &mut []).into()
    }

    fn step(&self, plan: PlanLists, tick: u32, lent: LentLists, silent: bool) -> Stepped {
        let plan = plan_of(plan);
        let state = state_of(tick, [&*lent[0], &*lent[1], &*lent[2]]);
        let asked = Asked::Step {
            plan,
            state,
            silent,
        };
        answered(&asked, lent, &mut []).into()
    }

    fn run(&self, plan: PlanLists, lent: LentLists) -> Tick {
        let (plan, rooms) = (plan_of(plan), rooms(&lent));
        answered(&Asked::Run { plan, rooms }, lent, &mut []).into()
    }

    fn lateness(&self, plan: PlanLists, tick: u32, state: StateLists, job: u32) -> Late {
        let (plan, state) = (plan_of(plan), state_of(tick, state));
        answered(&Asked::Lateness { plan, state, job }, [], &mut []).into()
    }

    fn answer(&self, text: &[u8], out: &mut [u8]) -> Length {
        let (text, room) = (text.to_vec(), out.len());
        answered(&Asked::Answer { text, room }, [], out).into()
    }
}
