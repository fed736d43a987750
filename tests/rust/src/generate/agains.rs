//! A case in which every sender's last line is sent again after each step, however long ago it was taken.

use super::case::{Call, Case, Step, EXACT};
use crate::memory::{Memory, OURS};

/// Sends again what was taken. That changes no state, so the case's own steps answer as they do without.
pub fn put_in(case: &mut Case) {
    let plain = std::mem::take(&mut case.steps);
    let mut memory = Memory::new(case.fill);
    let mut last: Vec<Step> = Vec::new();
    for step in plain {
        memory.lend(&step);
        let state = memory.state.clone();
        let answer = OURS.answer(&case.text, &step, &mut memory);
        let accepted = answer.is_some_and(|answer| answer & 255 == 0);
        match &step.call {
            Call::Line { values, .. } if accepted && state != memory.state => keep(&mut last, values, &step),
            Call::SetBench { .. } | Call::SetState { .. } => last.clear(),
            Call::Check | Call::Fresh if accepted => last.clear(),
            _ => {}
        }
        case.steps.push(step);
        case.steps.extend(last.iter().cloned());
    }
}

/// The new line takes the place of its sender's last.
fn keep(last: &mut Vec<Step>, values: &[u8], step: &Step) {
    last.retain(|step| !matches!(&step.call, Call::Line { values: known, .. } if sender(known) == sender(values)));
    last.push(Step { call: step.call.clone(), lent: EXACT });
}

fn sender(values: &[u8]) -> &[u8] {
    values.split(|&byte| byte == b' ').next().unwrap_or(b"")
}
