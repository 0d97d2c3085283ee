//! Compares the C interface of the dispatcher with the second program, on seeded random texts,
//! tables, plans, states and lent lists of all kinds.

#![deny(missing_docs)]

pub mod abi;
pub mod answers;
pub mod asked;
pub mod draw;
pub mod guarded;
pub mod outcome;
pub mod report;
pub mod stand_in;
pub mod state_draw;
