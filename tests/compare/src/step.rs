//! What is asked of an engine, step by step, and what it replies.

use reference::calls::Numbers;
use std::ops::Range;

/// The longest buffers that a step may set; the pipe's other end has areas of these sizes.
pub const MAX_IMAGE: usize = 4_098 * 2_048;
pub const MAX_LIST: usize = 4096;
pub const MAX_VECTOR: usize = 4096;
pub const MAX_DMA: usize = 4096;

/// What a function without a list is told of an image, as the host gives it.
#[derive(Clone, Copy, Debug, PartialEq, Eq)]
pub struct Told {
    pub kind: u32,
    pub rule: u32,
}

#[derive(Clone, Debug, PartialEq, Eq)]
pub enum Step {
    /// The image gets this length: it is cut, or lengthened with the fill byte.
    Image {
        length: usize,
        fill: u8,
    },
    PatchImage {
        at: usize,
        bytes: Vec<u8>,
    },
    /// The list gets this length.
    List {
        length: usize,
        fill: u8,
    },
    PatchList {
        at: usize,
        bytes: Vec<u8>,
    },
    /// The vector gets this length.
    Vector {
        length: usize,
        fill: u8,
    },
    PatchVector {
        at: usize,
        bytes: Vec<u8>,
    },
    /// With capacity, open limit, lock limit and rule.
    Start {
        kind: u32,
        numbers: [u32; 4],
        users: Vec<u8>,
    },
    Call {
        numbers: Numbers,
        fcb: Vec<u8>,
        dma: Vec<u8>,
    },
    Check {
        told: Told,
    },
    /// Builds the vector from the image.
    Build {
        told: Told,
    },
    Look {
        told: Told,
        user: u32,
        name: Vec<u8>,
        record: u32,
    },
    /// Compares the whole image with what it was after the last steps, however long it is.
    Whole,
}

impl Step {
    pub fn is_answered(&self) -> bool {
        matches!(
            self,
            Step::Start { .. }
                | Step::Call { .. }
                | Step::Check { .. }
                | Step::Build { .. }
                | Step::Look { .. }
                | Step::Whole
        )
    }
}

/// Bytes that an engine has changed.
#[derive(Clone, Debug, PartialEq, Eq)]
pub struct Change {
    pub at: usize,
    pub bytes: Vec<u8>,
}

/// The changes of one buffer; None if they are more than any right call makes.
pub type Changes = Option<Vec<Change>>;

/// A 40 of sixteen records can change two blocks of 2,048 bytes and two entries, every second byte
/// of them.
pub const MAX_CHANGES: usize = 4096;
pub const MAX_CHANGED_BYTES: usize = 8192;

/// The buffers of a reply, in order. Start's users and Look's name stand in the FCB's place.
pub const BUFFERS: [&str; 5] = ["FCB", "DMA", "list", "image", "vector"];

/// Where the engine's plain side has done otherwise than the engine.
#[derive(Clone, Debug, PartialEq, Eq)]
pub struct Apart {
    /// A bit for each buffer, and the next one for the answer.
    pub parts: u8,
    pub answer: u32,
}

pub const ANSWER_APART: u8 = 1 << BUFFERS.len();

#[derive(Clone, Debug, PartialEq, Eq)]
pub struct Reply {
    pub answer: u32,
    /// A bit for each buffer whose guard bytes were overwritten; as many more for the plain side's.
    pub broken_guards: u16,
    pub apart: Option<Apart>,
    pub changes: [Changes; BUFFERS.len()],
}

/// The longest runs of differing bytes.
pub fn changes(before: &[u8], after: &[u8]) -> Changes {
    let whole = 0..before.len();
    changes_in(std::slice::from_ref(&whole), before, after)
}

/// The longest runs of differing bytes in these parts, which are in rising order.
pub fn changes_in(parts: &[Range<usize>], before: &[u8], after: &[u8]) -> Changes {
    let mut found: Vec<Change> = Vec::new();
    let mut changed_bytes = 0;
    const STRIDE: usize = 256;
    for part in parts {
        let strides = before[part.clone()]
            .chunks(STRIDE)
            .zip(after[part.clone()].chunks(STRIDE));
        for (number, (old, new)) in strides.enumerate().filter(|(_, (old, new))| old != new) {
            let at = part.start + STRIDE * number;
            for (offset, (_, &byte)) in old.iter().zip(new).enumerate().filter(|(_, (a, b))| a != b) {
                changed_bytes += 1;
                extend(&mut found, at + offset, byte);
            }
            if found.len() > MAX_CHANGES || changed_bytes > MAX_CHANGED_BYTES {
                return None;
            }
        }
    }
    Some(found)
}

fn extend(found: &mut Vec<Change>, at: usize, byte: u8) {
    match found.last_mut() {
        Some(last) if last.at + last.bytes.len() == at => last.bytes.push(byte),
        _ => found.push(Change {
            at,
            bytes: vec![byte],
        }),
    }
}

/// The steps that give the image these bytes, whatever it was before.
pub fn set_image(bytes: &[u8], fill: u8) -> Vec<Step> {
    let mut steps = vec![
        Step::Image { length: 0, fill: 0 },
        Step::Image {
            length: bytes.len(),
            fill,
        },
    ];
    let patches = patches(bytes, fill).map(|(at, bytes)| Step::PatchImage { at, bytes });
    steps.extend(patches);
    steps
}

pub fn set_list(bytes: &[u8]) -> Vec<Step> {
    let mut steps = vec![
        Step::List { length: 0, fill: 0 },
        Step::List {
            length: bytes.len(),
            fill: 0,
        },
    ];
    let patches = patches(bytes, 0).map(|(at, bytes)| Step::PatchList { at, bytes });
    steps.extend(patches);
    steps
}

pub fn set_vector(bytes: &[u8]) -> Vec<Step> {
    let mut steps = vec![
        Step::Vector { length: 0, fill: 0 },
        Step::Vector {
            length: bytes.len(),
            fill: 0,
        },
    ];
    let patches = patches(bytes, 0).map(|(at, bytes)| Step::PatchVector { at, bytes });
    steps.extend(patches);
    steps
}

/// The parts of the bytes that are not all filling.
fn patches(bytes: &[u8], fill: u8) -> impl Iterator<Item = (usize, Vec<u8>)> + '_ {
    const PART: usize = 1024;
    let filling = [fill; PART];
    (0..)
        .step_by(PART)
        .zip(bytes.chunks(PART))
        .filter(move |(_, part)| **part != filling[..part.len()])
        .map(|(at, part)| (at, part.to_vec()))
}

/// The steps that put the image's old bytes back where they are others now.
pub fn put_back(old: &[u8], now: &[u8]) -> Vec<Step> {
    const PART: usize = 128;
    (0..)
        .step_by(PART)
        .zip(old.chunks(PART).zip(now.chunks(PART)))
        .filter(|(_, (old, now))| old != now)
        .map(|(at, (old, _))| Step::PatchImage {
            at,
            bytes: old.to_vec(),
        })
        .collect()
}
