//! Times the proved library against the same work written by hand, in one run on the same inputs.

#![deny(missing_docs)]

pub mod desk;
pub mod events;
pub mod growth;
pub mod inputs;
pub mod plain;
pub mod ratios;
pub mod timing;
