//! An independent second program of the job dispatcher for one preemptive processor.
//!
//! Written from the rules alone, to be compared with the proved implementation. Functions that
//! take a [`Slip`] are the same program with one deliberate mistake switched on; with
//! [`Slip::None`] they are the right one.

#![forbid(unsafe_code)]
#![deny(missing_docs)]

pub mod bounds;
pub mod check;
pub mod cycles;
pub mod density;
pub mod dispatch;
pub mod edges;
pub mod faults;
pub mod order;
pub mod plans;
pub mod program;
pub mod random;
pub mod reader;
pub mod refusal;
pub mod rows;
pub mod slip;
pub mod table;
pub mod texts;
pub mod times;
pub mod waiting;
pub mod writer;

pub use check::{check, check_into, check_with};
pub use density::{density, density_with, Density};
pub use dispatch::{lateness, lateness_with, run, run_with, run_with_slip};
pub use dispatch::{start, start_into, step, step_with, trace, trace_with_slip, Step, Trace};
pub use program::{answer, answer_with, density_answer, density_answer_with};
pub use reader::{read, read_into, read_with};
pub use refusal::Refusal;
pub use slip::Slip;
pub use table::{Plan, State, Table};
pub use times::{modified_times, modified_times_with};
pub use waiting::{waits, waits_with, Wait};
pub use writer::{write, write_into};
