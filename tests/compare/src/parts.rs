//! Which parts of the image are compared after a step. An image can have 8 MB, and a right call
//! changes little of it: the directory, and the blocks of its own records. A long image is
//! therefore compared whole by a step of its own, and after the others only there.

use crate::step::Step;
use reference::calls::{Numbers, MOST_RECORDS};
use reference::kind::{Kind, ENTRY, RECORDS_PER_EXTENT};
use std::collections::BTreeSet;
use std::ops::Range;

/// Up to this length an image is compared whole after every step.
pub const SHORT_IMAGE: usize = 64 * 1024;

/// No kind has a longer directory.
const LONGEST_DIRECTORY: usize = 4_096;

/// The parts in rising order; none of them meets another.
pub fn parts(step: &Step, before: &[u8], after: &[u8]) -> Vec<Range<usize>> {
    let length = before.len();
    if length <= SHORT_IMAGE || *step == Step::Whole {
        return std::iter::once(0..length).collect();
    }
    let mut parts: Vec<Range<usize>> = std::iter::once(0..LONGEST_DIRECTORY).collect();
    if let Step::Call { numbers, fcb, .. } = step {
        let blocks = blocks_of_call(*numbers, fcb, before, after);
        parts.extend(blocks.into_iter().filter(|block| block.end <= length));
    }
    parts
}

/// The blocks that any entry has for the call's records, before the call or after it.
fn blocks_of_call(numbers: Numbers, fcb: &[u8], before: &[u8], after: &[u8]) -> Vec<Range<usize>> {
    let (Some(kind), Some(&[low, middle, high])) = (Kind::told(numbers.kind), fcb.get(33..36)) else {
        return Vec::new();
    };
    let first = u32::from_le_bytes([low, middle, high, 0]);
    let records = first..first + numbers.count.min(MOST_RECORDS);
    let directories = [before, after].map(|image| image[..kind.directory()].chunks_exact(ENTRY));
    let blocks: BTreeSet<usize> = directories
        .into_iter()
        .flatten()
        .flat_map(|entry| blocks_of_entry(kind, entry, &records))
        .collect();
    blocks
        .into_iter()
        .map(|block| kind.block() * block..kind.block() * (block + 1))
        .filter(|block| block.start >= LONGEST_DIRECTORY)
        .collect()
}

fn blocks_of_entry<'a>(
    kind: Kind,
    entry: &'a [u8],
    records: &Range<u32>,
) -> impl Iterator<Item = usize> + 'a {
    let extent = u32::from(entry[12]) + 32 * u32::from(entry[14]);
    let (first, size) = (RECORDS_PER_EXTENT * extent, kind.records_per_block());
    let records = records.clone();
    let meets = first < records.end && records.start < first + RECORDS_PER_EXTENT;
    let map = if meets { &entry[16..] } else { &[] };
    (0..)
        .zip(kind.numbers(map))
        .filter(move |(index, _)| {
            let at = first + size * index;
            at < records.end && records.start < at + size
        })
        .map(|(_, block)| usize::from(block))
}
