//! A second implementation of `ratemap`, written from its documentation alone.
//! It is plain rather than fast, so that it can be compared with the engine.

pub mod chain;
pub mod exact;
pub mod file;
pub mod gen;
pub mod map;
pub mod pass_line;
pub mod program;
pub mod refusal;
pub mod rng;
pub mod script;
pub mod search;
pub mod stats;
pub mod value;
pub mod witness;
