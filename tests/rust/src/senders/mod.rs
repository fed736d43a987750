//! What the lines, rows and states of a run tried of senders. It is measured on the lent bytes and on what the interpreter makes of them,
//! not taken from how they were made.

pub mod classes;
pub mod coverage;
pub mod faults;
pub mod required;
