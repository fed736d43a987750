//! A case: one bench text and a list of steps on lent memory.

use crate::image::{sheet_size, BENCH_SIZE, ROW_SIZE, STATE_SIZE, TRIED_SIZE};

/// How many bytes of each memory a call is lent.
#[derive(Clone, Copy, Debug, PartialEq, Eq)]
pub struct Lent {
    pub bench: usize,
    pub state: usize,
    pub row: usize,
}

/// The most by which lent memory is longer than its stated size.
pub const LONGER_MOST: usize = 48;

pub const EXACT: Lent = Lent { bench: BENCH_SIZE, state: STATE_SIZE, row: ROW_SIZE };

#[derive(Clone, Debug, PartialEq, Eq)]
pub enum Call {
    Check,
    /// Where the entity of this number has its name.
    Name {
        number: usize,
    },
    Fresh,
    Header,
    Row {
        sender: Vec<u8>,
    },
    Line {
        names: Vec<u8>,
        values: Vec<u8>,
    },
    Sheet {
        readings: Vec<u8>,
        cells: Vec<u8>,
        /// By how many bytes the sheet's memory is longer than its stated size, which follows from the readings; below 0 it is shorter.
        over: isize,
    },
    /// The call of the test archive: the rules that a line tries that leads from one of two states to the other.
    Tried {
        /// The images of the two states, or what else their memories begin with.
        before: Vec<u8>,
        after: Vec<u8>,
        /// By how many bytes the memories of the two states and of the set are longer than their stated sizes; below 0 shorter.
        over: [isize; 3],
    },
    /// Not a call: writes these bytes to the bench's memory on both sides.
    SetBench {
        at: usize,
        bytes: Vec<u8>,
    },
    /// The same for the state's memory.
    SetState {
        at: usize,
        bytes: Vec<u8>,
    },
}

#[derive(Clone, Debug, PartialEq, Eq)]
pub struct Step {
    pub call: Call,
    pub lent: Lent,
}

impl Step {
    /// How many bytes of a sheet's memory the call is lent; none if it writes no sheet.
    pub fn lent_sheet(&self) -> usize {
        match &self.call {
            Call::Sheet { readings, over, .. } => sheet_size(readings).saturating_add_signed(*over),
            _ => 0,
        }
    }

    /// How many bytes of the two states and of the set of rules the call is lent; none if it asks for no such set.
    pub fn lent_tried(&self) -> [usize; 3] {
        match &self.call {
            Call::Tried { over: [before, after, tried], .. } => [
                STATE_SIZE.saturating_add_signed(*before),
                STATE_SIZE.saturating_add_signed(*after),
                TRIED_SIZE.saturating_add_signed(*tried),
            ],
            _ => [0; 3],
        }
    }
}

#[derive(Clone, Debug, PartialEq, Eq)]
pub struct Case {
    pub text: Vec<u8>,
    /// Seed of the bytes that all memory holds at first.
    pub fill: u64,
    pub steps: Vec<Step>,
}
