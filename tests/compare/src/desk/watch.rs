//! Watches over what the reference has answered, by what documents 01 and 02 say of the outcome as a whole.

use super::{on_reference, packs, pairs, Case, Outcome, What};
use crate::faults::{block_numbers, image_faults};
use reference::kind::Kind;
use reference::rule::Rule;

/// What is wrong with the outcome; None if nothing is.
pub fn fault(case: &Case, outcome: &Outcome) -> Option<String> {
    let wrong = match case.what {
        What::Salvage => salvage_fault(case, outcome),
        What::Pack => packs::fault(case, outcome),
        What::Same => pairs::fault(case, outcome),
    };
    wrong.map(|what| format!("the reference's {}: {what}", case.what.title()))
}

fn salvage_fault(case: &Case, outcome: &Outcome) -> Option<&'static str> {
    if outcome.answer != 0 {
        return (case.buffers != outcome.buffers).then_some("a refusal has changed something");
    }
    let kind = Kind::told(case.kind)?;
    let judged_as = (kind, Rule::told(case.rule));
    let (before, after, report) = (&case.buffers[0], &outcome.buffers[0], &outcome.buffers[1]);
    if !image_faults(judged_as, after).is_empty() {
        return Some("the result is not sound");
    }
    let directory = kind.directory();
    if before[directory..] != after[directory..] {
        return Some("a block has changed");
    }
    if image_faults(judged_as, before).is_empty() && before != after {
        return Some("a sound image has changed");
    }
    let entries = before[..directory].chunks(32).zip(after.chunks(32));
    let told: Vec<Option<u8>> = entries.map(|(was, is)| done_to(kind, was, is)).collect();
    if told != report.iter().copied().map(Some).collect::<Vec<_>>() {
        return Some("the report is not what the images tell");
    }
    let again = Case {
        buffers: vec![after.clone(), vec![0xAA; kind.entries()]],
        ..case.clone()
    };
    let twice = on_reference(&again);
    let same = twice.buffers[0] == *after && twice.buffers[1].iter().all(|byte| *byte == 0);
    (!same).then_some("salvaged twice is not salvaged once")
}

/// What the bytes of an entry before and after tell of it; None if a byte has changed that may not.
fn done_to(kind: Kind, was: &[u8], is: &[u8]) -> Option<u8> {
    if was[0] != is[0] {
        return (is[0] == 0xE5 && was[1..] == is[1..]).then_some(255);
    }
    if was[..16] != is[..16] {
        return None;
    }
    let numbers = block_numbers(kind, was).into_iter().zip(block_numbers(kind, is));
    let changed: Vec<(u16, u16)> = numbers.filter(|(was, is)| was != is).collect();
    let all_zeroed = changed.iter().all(|(_, is)| *is == 0);
    all_zeroed.then_some(changed.len() as u8)
}
