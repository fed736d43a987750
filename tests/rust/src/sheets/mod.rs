//! What the sheets of a run tried. It is measured on the lent bytes and on what the interpreter makes of them, not taken from how they
//! were made.

pub mod classes;
pub mod coverage;
