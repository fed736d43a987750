//! The rows that senders' last lines gave when they were taken. Sent again at any later point, such a line must give the very row that it
//! gave, and leave every byte of the state; asked for, that row must be given too.

use crate::generate::case::{Call, Step};
use crate::memory::Memory;
use std::collections::BTreeMap;

/// What a run's new lines gave so far, by sender: the number, and the row.
#[derive(Clone, Debug, Default)]
pub struct Rows {
    taken: BTreeMap<Vec<u8>, (Vec<u8>, Vec<u8>)>,
    /// Lines of others since the sender's own, by sender.
    others: BTreeMap<Vec<u8>, u64>,
    pub seen: Seen,
}

/// How often that was tried.
#[derive(Clone, Copy, Debug, Default, PartialEq, Eq)]
pub struct Seen {
    pub again: u64,
    /// Of these, after new lines of others.
    pub late: u64,
    pub asked: u64,
}

impl Seen {
    pub fn add(&mut self, other: Seen) {
        self.again += other.again;
        self.late += other.late;
        self.asked += other.asked;
    }
}

impl Rows {
    /// Follows an accepted call or a write to memory. Gives what is wrong, if anything.
    pub fn follow(&mut self, step: &Step, answer: Option<u64>, before: &Memory, after: &Memory) -> Option<&'static str> {
        let row = |answer: u64| &after.row[..(answer >> 8) as usize];
        match (&step.call, answer.filter(|answer| answer & 255 == 0)) {
            (Call::Line { values, .. }, Some(answer)) => self.line(values, row(answer), before.state == after.state),
            (Call::Row { sender }, Some(answer)) => self.asked(sender, row(answer)),
            (Call::Check | Call::Fresh, Some(_)) | (Call::SetBench { .. } | Call::SetState { .. }, _) => self.forget(),
            _ => None,
        }
    }

    fn line(&mut self, values: &[u8], row: &[u8], state_stays: bool) -> Option<&'static str> {
        let mut fields = values.split(|&byte| byte == b' ').map(<[u8]>::to_vec);
        let (sender, number) = (fields.next()?, fields.next()?);
        match self.taken.get(&sender) {
            Some((last, given)) if *last == number => {
                self.seen.again += 1;
                self.seen.late += u64::from(self.others.get(&sender).is_some_and(|&count| count > 0));
                return wrong(given == row, state_stays);
            }
            // A written state may know the sender: then the line can be one sent again.
            None if state_stays => return None,
            _ => {}
        }
        self.others.values_mut().for_each(|count| *count += 1);
        self.others.insert(sender.clone(), 0);
        self.taken.insert(sender, (number, row.to_vec()));
        None
    }

    fn asked(&mut self, sender: &[u8], row: &[u8]) -> Option<&'static str> {
        let (_, given) = self.taken.get(sender)?;
        self.seen.asked += 1;
        (given != row).then_some("the row asked for is not the one that the sender's last line gave")
    }

    fn forget(&mut self) -> Option<&'static str> {
        self.taken.clear();
        self.others.clear();
        None
    }
}

fn wrong(same_row: bool, state_stays: bool) -> Option<&'static str> {
    match (same_row, state_stays) {
        (false, _) => Some("a line sent again gave another row than when it was taken"),
        (_, false) => Some("a line sent again changed the state"),
        _ => None,
    }
}
