//! A second, independent program for the rules of documents 01 and 02.

pub mod answer;
pub mod calls;
pub mod drive;
pub mod kind;
pub mod locks;
pub mod moved;
pub mod name;
pub mod packing;
pub mod program;
pub mod rule;
pub mod salvage;
pub mod singly;

pub use program::mpmcalls;

use answer::Answer;
use calls::{Buffers, Numbers};
use drive::{Drive, Fault};
use kind::Kind;
use locks::{rule_of_image, LockList, LIST_LENGTH};
use name::{File, Name};
use rule::Rule;

/// Each function is told the kind of drive by a number: 0 or 1, and any other is unknown. Those without a list are told
/// the rule of where a file ends: 1, and any other is 0.
pub fn start(
    kind: u32,
    capacity: u32,
    open_limit: u32,
    lock_limit: u32,
    rule: u32,
    users: &[u8],
    list: &mut [u8],
) -> u32 {
    let fresh = Kind::told(kind)
        .and_then(|kind| LockList::fresh(kind, capacity, open_limit, lock_limit, rule, users));
    let (Some(fresh), LIST_LENGTH) = (fresh, list.len()) else {
        return Answer::extended(13).word();
    };
    list.copy_from_slice(&fresh.write());
    Answer::SUCCESS.word()
}

/// 0 sound, 1 wrong length or unknown kind; else why an entry is bad, 2 to 8, plus 256 times the
/// entry.
pub fn check(kind: u32, rule: u32, image: &[u8]) -> u32 {
    let Some(kind) = Kind::told(kind) else {
        return 1;
    };
    match Drive::read(kind, Rule::told(rule), image) {
        Ok(_) => 0,
        Err(Fault::Length | Fault::OtherKind) => 1,
        Err(Fault::Entry(slot, reason)) => reason.code() + 256 * slot as u32,
    }
}

/// Where the record's 128 bytes begin in the image.
pub fn look(kind: u32, rule: u32, user: u32, name: &[u8], record: u32, image: &[u8]) -> Option<usize> {
    let drive = Drive::read(Kind::told(kind)?, Rule::told(rule), image).ok()?;
    let user = u8::try_from(user).ok().filter(|&user| user <= 15)?;
    let name = Name::read(name)?;
    let block = drive.block(&File { user, name }, record)?;
    Some(drive.record_start(block, record))
}

/// Writes the allocation vector of an image. A + 256·H; a refusal leaves the vector as it was.
pub fn vector(kind: u32, rule: u32, image: &[u8], vector: &mut [u8]) -> u32 {
    let Some(kind) = Kind::told(kind).filter(|kind| vector.len() == kind.vector()) else {
        return Answer::extended(13).word();
    };
    let Ok(drive) = Drive::read(kind, Rule::told(rule), image) else {
        return Answer::extended(1).word();
    };
    vector.copy_from_slice(&drive.vector());
    Answer::SUCCESS.word()
}

/// 0 mended, with what was done to each entry in the report; 1 wrong length or unknown kind, 2 a report of wrong
/// length, both changing nothing.
pub fn salvage(kind: u32, rule: u32, image: &mut [u8], report: &mut [u8]) -> u32 {
    let length = image.len();
    let Some((kind, blocks)) = Kind::told(kind).and_then(|kind| Some((kind, kind.blocks_of(length)?))) else {
        return 1;
    };
    if report.len() != kind.entries() {
        return 2;
    }
    let mended = salvage::mend(kind, Rule::told(rule), blocks, &mut image[..kind.directory()]);
    report.copy_from_slice(&mended);
    0
}

/// Writes the book packed into a buffer of the image's length. A + 256·H; a refusal leaves the buffer as it was.
pub fn pack(kind: u32, image: &[u8], list: &[u8], packed: &mut [u8]) -> u32 {
    match packing_of(kind, image, list, packed.len()) {
        Ok(bytes) => {
            packed.copy_from_slice(&bytes);
            Answer::SUCCESS.word()
        }
        Err(refusal) => refusal.word(),
    }
}

fn packing_of(kind: u32, image: &[u8], list: &[u8], length: usize) -> Result<Vec<u8>, Answer> {
    let kind = Kind::told(kind).ok_or(Answer::extended(13))?;
    if list.len() != LIST_LENGTH || length != image.len() {
        return Err(Answer::extended(13));
    }
    let drive = Drive::read(kind, rule_of_image(list), image).map_err(|_| Answer::extended(1))?;
    let list = LockList::read(list, &drive).ok_or(Answer::extended(12))?;
    if list.holds_an_open() {
        return Err(Answer::extended(5));
    }
    Ok(packing::packed(kind, image))
}

/// By the rule of MP/M II: 0 the two images hold the same book, 1 the first is unsound or the kind unknown, 2 the
/// second is unsound, 3 they hold different books.
pub fn same(kind: u32, first: &[u8], second: &[u8]) -> u32 {
    let read = |image| Drive::read(Kind::told(kind)?, Rule::MpmII, image).ok();
    let Some(one) = read(first) else {
        return 1;
    };
    let Some(other) = read(second) else {
        return 2;
    };
    match moved::book(&one, first) == moved::book(&other, second) {
        true => 0,
        false => 3,
    }
}

/// A + 256·H.
#[allow(clippy::too_many_arguments)]
pub fn call(
    kind: u32,
    function: u32,
    process: u32,
    count: u32,
    fcb: &mut [u8],
    dma: &mut [u8],
    list: &mut [u8],
    image: &mut [u8],
    vector: &mut [u8],
) -> u32 {
    let numbers = Numbers {
        kind,
        function,
        process,
        count,
    };
    let buffers = Buffers {
        fcb,
        dma,
        list,
        image,
        vector,
    };
    calls::call_explained(numbers, buffers).0.word()
}

/// The same call made as single calls, one after another: the answer of the last one made.
#[allow(clippy::too_many_arguments)]
pub fn call_singly(
    kind: u32,
    function: u32,
    process: u32,
    count: u32,
    fcb: &mut [u8],
    dma: &mut [u8],
    list: &mut [u8],
    image: &mut [u8],
    vector: &mut [u8],
) -> u32 {
    let numbers = Numbers {
        kind,
        function,
        process,
        count,
    };
    let buffers = Buffers {
        fcb,
        dma,
        list,
        image,
        vector,
    };
    singly::singly(numbers, buffers, |numbers, buffers| {
        calls::call_explained(numbers, buffers).0.word()
    })
}
