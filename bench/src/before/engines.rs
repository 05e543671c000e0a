//! The engine of an earlier commit and that of this tree, called in one way: before.c brings an earlier one to today's
//! parameters, and this tree's goes through it too.

use crate::books::{Book, Call};
use crate::engines::{through, CCall, Timed};

type CCheck = unsafe extern "C" fn(u32, *const u8, usize) -> u32;

macro_rules! declare {
    (calls: $($call:ident)*; checks: $($check:ident)*) => {
        extern "C" {
            $(fn $call(
                kind: u32,
                function: u32,
                process: u32,
                count: u32,
                fcb: *mut u8,
                fcb_len: usize,
                dma: *mut u8,
                dma_len: usize,
                list: *mut u8,
                list_len: usize,
                image: *mut u8,
                image_len: usize,
                vector: *mut u8,
                vector_len: usize,
            ) -> u32;)*
            $(fn $check(kind: u32, image: *const u8, image_len: usize) -> u32;)*
        }
    };
}

extern "C" {
    fn before_kinds() -> u32;
    fn before_keeps_vectors() -> u32;
}

/// How many kinds of drive the earlier engine knows.
pub fn kinds_before() -> u32 {
    // SAFETY: it gives a constant.
    unsafe { before_kinds() }
}

/// The earlier engine takes a vector and keeps it.
pub fn keeps_vectors_before() -> bool {
    // SAFETY: it gives a constant.
    unsafe { before_keeps_vectors() != 0 }
}

declare!(calls: before_call before_singly now_call now_singly; checks: before_check now_check);

#[derive(Clone, Copy)]
pub struct Version {
    call: CCall,
    singly: CCall,
    check: CCheck,
}

pub const BEFORE: Version = Version {
    call: before_call,
    singly: before_singly,
    check: before_check,
};

pub const NOW: Version = Version {
    call: now_call,
    singly: now_singly,
    check: now_check,
};

pub const BOTH: [Version; 2] = [BEFORE, NOW];

impl Timed for Version {
    fn answer(self, call: &mut Call, book: &mut Book) -> u32 {
        through(self.call, call, book)
    }
}

impl Version {
    pub fn check(self, book: &Book) -> u32 {
        self.check_image(book.kind.number(), &book.image)
    }

    pub fn check_image(self, kind: u32, image: &[u8]) -> u32 {
        // SAFETY: the pointer comes with the length of the slice it is taken from.
        unsafe { (self.check)(kind, image.as_ptr(), image.len()) }
    }

    /// Its plain side, as an engine.
    pub fn plain_side(self) -> Version {
        Version {
            call: self.singly,
            ..self
        }
    }
}
