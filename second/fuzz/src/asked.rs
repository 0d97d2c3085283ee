//! What an entry is asked: its inputs and the lengths of the lists lent to it.

use second::{Plan, State, Table};
use std::fmt;

/// One question to one entry; a walk is a start and all steps after it.
#[derive(Clone, PartialEq, Eq)]
#[allow(missing_docs)]
pub enum Asked {
    Read {
        text: Vec<u8>,
        rooms: [usize; 3],
    },
    Write {
        table: Table,
        room: usize,
    },
    Plan {
        table: Table,
        room: usize,
    },
    Density {
        plan: Plan,
    },
    Start {
        plan: Plan,
        rooms: [usize; 3],
    },
    Step {
        plan: Plan,
        state: State,
        silent: bool,
    },
    Run {
        plan: Plan,
        rooms: [usize; 3],
    },
    Lateness {
        plan: Plan,
        state: State,
        job: u32,
    },
    Answer {
        text: Vec<u8>,
        room: usize,
    },
    Walk {
        plan: Plan,
        reports: Vec<bool>,
    },
}

/// The kinds of questions by name, in the order in which they take turns.
pub const KINDS: [&str; 10] = [
    "read", "write", "plan", "density", "start", "step", "run", "lateness", "answer", "walk",
];

impl Asked {
    /// Names the kind.
    pub fn kind(&self) -> &'static str {
        KINDS[match self {
            Asked::Read { .. } => 0,
            Asked::Write { .. } => 1,
            Asked::Plan { .. } => 2,
            Asked::Density { .. } => 3,
            Asked::Start { .. } => 4,
            Asked::Step { .. } => 5,
            Asked::Run { .. } => 6,
            Asked::Lateness { .. } => 7,
            Asked::Answer { .. } => 8,
            Asked::Walk { .. } => 9,
        }]
    }

    /// Gives the lengths of the lent lists of numbers; a step is lent its state.
    pub fn rooms(&self) -> Vec<usize> {
        match self {
            Asked::Read { rooms, .. } | Asked::Start { rooms, .. } | Asked::Run { rooms, .. } => {
                rooms.to_vec()
            }
            Asked::Plan { room, .. } => vec![*room],
            Asked::Walk { plan, .. } => vec![plan.table.job_count(); 3],
            Asked::Step { .. } => self.state().iter().map(|list| list.len()).collect(),
            _ => vec![],
        }
    }

    /// Gives the length of the lent list of bytes, 0 where none is.
    pub fn byte_room(&self) -> usize {
        match self {
            Asked::Write { room, .. } | Asked::Answer { room, .. } => *room,
            _ => 0,
        }
    }

    /// Gives the text, an empty one where none is asked about.
    pub fn text(&self) -> &[u8] {
        match self {
            Asked::Read { text, .. } | Asked::Answer { text, .. } => text,
            _ => &[],
        }
    }

    /// Gives jobs, arcs, sections and times, empty where none are asked about.
    pub fn lists(&self) -> [&[u32]; 4] {
        match self {
            Asked::Read { .. } | Asked::Answer { .. } => [&[]; 4],
            Asked::Write { table, .. } | Asked::Plan { table, .. } => {
                [&table.jobs, &table.arcs, &table.sections, &[]]
            }
            Asked::Density { plan }
            | Asked::Start { plan, .. }
            | Asked::Step { plan, .. }
            | Asked::Run { plan, .. }
            | Asked::Lateness { plan, .. }
            | Asked::Walk { plan, .. } => {
                let table = &plan.table;
                [&table.jobs, &table.arcs, &table.sections, &plan.times]
            }
        }
    }

    /// Gives executed ticks, marks and finishes, empty where none are asked about.
    pub fn state(&self) -> [&[u32]; 3] {
        match self {
            Asked::Step { state, .. } | Asked::Lateness { state, .. } => {
                [&state.executed, &state.marks, &state.finish]
            }
            _ => [&[]; 3],
        }
    }

    /// Gives what is handed in beside lists, in words.
    fn single_values(&self) -> String {
        match self {
            Asked::Step { state, silent, .. } => format!("tick {}, silent {silent}", state.tick),
            Asked::Lateness { state, job, .. } => format!("tick {}, job {job}", state.tick),
            Asked::Walk { reports, .. } => format!("reports {reports:?}"),
            _ => "no other values".to_string(),
        }
    }
}

impl fmt::Display for Asked {
    /// Writes the inputs whole, each list with its length before it, bytes as a byte string.
    fn fmt(&self, f: &mut fmt::Formatter) -> fmt::Result {
        let text = self.text();
        writeln!(f, "  text {} b\"{}\"", text.len(), text.escape_ascii())?;
        let names = [
            "jobs", "arcs", "sections", "times", "executed", "marks", "finish",
        ];
        let lists = self.lists().into_iter().chain(self.state());
        for (name, list) in names.iter().zip(lists) {
            writeln!(f, "  {name} {} {list:?}", list.len())?;
        }
        writeln!(f, "  {}", self.single_values())?;
        write!(f, "  lent lists of {:?} numbers", self.rooms())?;
        write!(f, ", lent bytes {}", self.byte_room())
    }
}
