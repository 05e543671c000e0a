//! The program `mpmcalls` as a function of DISK.IMG and standard input.

use crate::calls::{DMA_LENGTH, FCB_LENGTH};
use crate::kind::Kind;
use crate::locks::{rule_of_image, LIST_LENGTH};
use std::fmt::Write;

pub const IMAGE_LIMIT: usize = 65_536;
pub const START_MARK: [u8; 2] = [0x4D, 0x53];
pub const CALL_MARK: [u8; 2] = [0x4D, 0x43];
pub const START_LENGTH: usize = 22;
const RULE: usize = START_LENGTH - 1;
pub const CALL_LENGTH: usize = 5 + FCB_LENGTH + DMA_LENGTH;

struct BadRecord(usize);

/// The program has drives of the first kind only.
fn first_kind() -> u32 {
    Kind::First.number()
}

/// Standard output, and DISK.OUT if it is written. `disk` is None where DISK.IMG is unreadable.
pub fn mpmcalls(disk: Option<&[u8]>, input: &[u8]) -> (Vec<u8>, Option<Vec<u8>>) {
    let mut image = disk.unwrap_or_default().to_vec();
    if image.len() > IMAGE_LIMIT {
        return (b"image too long\n".to_vec(), None);
    }
    let mut lines = String::from("call process function A H\n");
    let end = run(&mut image, input, &mut lines);
    let (last, written) = match end {
        Ok(calls) => (format!("end {calls}\n"), Some(image)),
        Err(BadRecord(number)) => (format!("bad record {number}\n"), None),
    };
    lines.push_str(&last);
    (lines.into_bytes(), written)
}

fn run(image: &mut [u8], input: &[u8], lines: &mut String) -> Result<usize, BadRecord> {
    let (mut list, mut rest) = started(input).ok_or(BadRecord(0))?;
    // Where the image is not sound, every call is refused for that, whatever the vector.
    let mut vector = vec![0; Kind::First.vector()];
    crate::vector(first_kind(), rule_of_image(&list).number(), image, &mut vector);
    let mut calls = 0;
    while !rest.is_empty() {
        let record = rest.get(..CALL_LENGTH).ok_or(BadRecord(calls + 1))?;
        if record[..2] != CALL_MARK {
            return Err(BadRecord(calls + 1));
        }
        let (function, process) = (record[2], record[3]);
        let answer = one_call(record, &mut list, image, &mut vector);
        let (a, h) = (answer % 256, answer / 256);
        // Writing to a String cannot fail.
        let _ = writeln!(lines, "{calls} {process} {function} {a} {h}");
        calls += 1;
        rest = &rest[CALL_LENGTH..];
    }
    Ok(calls)
}

fn started(input: &[u8]) -> Option<([u8; LIST_LENGTH], &[u8])> {
    let record = input.get(..START_LENGTH)?;
    if record[..2] != START_MARK {
        return None;
    }
    let mut list = [0; LIST_LENGTH];
    let [capacity, open_limit, lock_limit] = [2, 3, 4].map(|at| u32::from(record[at]));
    let answer = crate::start(
        first_kind(),
        capacity,
        open_limit,
        lock_limit,
        record[RULE].into(),
        &record[5..RULE],
        &mut list,
    );
    (answer == 0).then_some((list, &input[START_LENGTH..]))
}

fn one_call(record: &[u8], list: &mut [u8], image: &mut [u8], vector: &mut [u8]) -> u32 {
    let [function, process, count] = [2, 3, 4].map(|at| u32::from(record[at]));
    let (fcb, dma) = record[5..].split_at(FCB_LENGTH);
    let (mut fcb, mut dma) = (fcb.to_vec(), dma.to_vec());
    crate::call(
        first_kind(),
        function,
        process,
        count,
        &mut fcb,
        &mut dma,
        list,
        image,
        vector,
    )
}
