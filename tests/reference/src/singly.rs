//! A call for several records, made as single calls one after another. Those have a count of 1,
//! the number of their own record in the FCB, and at the beginning of the DMA the part of the
//! lent one that is their record's.

use crate::calls::{Buffers, Numbers, DMA_LENGTH, FCB_LENGTH, MOST_RECORDS, RUN_FUNCTIONS};
use crate::kind::RECORD;

/// A plain side tells no records done: the high four bits of H are clear.
const WITHOUT_DONE: u32 = 0x0FFF;

pub fn is_run_function(function: u32) -> bool {
    RUN_FUNCTIONS.contains(&function)
}

/// The answer of the single calls where the call for all records has answered this.
pub fn plain_answer(function: u32, answer: u32) -> u32 {
    match is_run_function(function) {
        true => answer & WITHOUT_DONE,
        false => answer,
    }
}

/// What of a call can be made singly; all else is refused before any record, or is no run.
fn is_run(numbers: Numbers, buffers: &Buffers) -> bool {
    is_run_function(numbers.function)
        && (1..=MOST_RECORDS).contains(&numbers.count)
        && buffers.fcb.len() == FCB_LENGTH
        && buffers.dma.len() == DMA_LENGTH
}

/// The answer of the last call made. A function that does no run is called as it is.
pub fn singly(numbers: Numbers, buffers: Buffers, mut call: impl FnMut(Numbers, Buffers) -> u32) -> u32 {
    if !is_run(numbers, &buffers) {
        return call(numbers, buffers);
    }
    let first = u32::from_le_bytes([buffers.fcb[33], buffers.fcb[34], buffers.fcb[35], 0]);
    let records = first..first + numbers.count;
    for (record, part) in records.zip(buffers.dma.chunks_exact_mut(RECORD)) {
        let mut fcb = buffers.fcb.to_vec();
        fcb[33..].copy_from_slice(&record.to_le_bytes()[..3]);
        let mut dma = part.to_vec();
        dma.resize(DMA_LENGTH, 0);
        let single = Buffers {
            fcb: &mut fcb,
            dma: &mut dma,
            list: buffers.list,
            image: buffers.image,
            vector: buffers.vector,
        };
        let answer = call(Numbers { count: 1, ..numbers }, single);
        part.copy_from_slice(&dma[..RECORD]);
        if answer != 0 {
            return answer;
        }
    }
    0
}
