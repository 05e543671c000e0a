//! The three that are timed and the engine's plain side, called in one way.

use crate::books::{Book, Call};
use compare::engine::{Engine, Reference};
use compare::linked::Linked;
use compare::step::Told;
use reference::calls::{Buffers, Numbers};

/// mpm_call and all that have its parameters.
pub type CCall = unsafe extern "C" fn(
    u32,
    u32,
    u32,
    u32,
    *mut u8,
    usize,
    *mut u8,
    usize,
    *mut u8,
    usize,
    *mut u8,
    usize,
    *mut u8,
    usize,
) -> u32;

extern "C" {
    fn plain_call(
        kind: u32,
        function: u32,
        process: u32,
        count: u32,
        fcb: *mut u8,
        fcb_len: usize,
        dma: *mut u8,
        dma_len: usize,
        list: *mut u8,
        list_len: usize,
        image: *mut u8,
        image_len: usize,
        vector: *mut u8,
        vector_len: usize,
    ) -> u32;
}

/// What is timed: it answers a call on a book.
pub trait Timed: Copy {
    fn answer(self, call: &mut Call, book: &mut Book) -> u32;
}

#[derive(Clone, Copy)]
pub enum Who {
    Engine,
    Plain,
    Reference,
    /// The engine's plain side: a call for several records as single calls.
    Singly,
}

pub const THREE: [Who; 3] = [Who::Engine, Who::Plain, Who::Reference];

impl Timed for Who {
    fn answer(self, call: &mut Call, book: &mut Book) -> u32 {
        match self {
            Who::Engine => Linked.call(numbers(call), buffers(call, book)),
            Who::Plain => through(plain_call, call, book),
            Who::Reference => Reference::default().call(numbers(call), buffers(call, book)),
            Who::Singly => Linked
                .singly(numbers(call), buffers(call, book))
                .expect("the engine has a plain side"),
        }
    }
}

/// What functions without a list are told of the books: they are of the rule of MP/M II.
pub fn told(kind: u32) -> Told {
    Told { kind, rule: 0 }
}

fn numbers(call: &Call) -> Numbers {
    Numbers {
        kind: call.kind,
        function: call.function,
        process: call.process,
        count: call.count,
    }
}

fn buffers<'a>(call: &'a mut Call, book: &'a mut Book) -> Buffers<'a> {
    Buffers {
        fcb: &mut call.fcb,
        dma: &mut call.dma,
        list: &mut book.list,
        image: &mut book.image,
        vector: &mut book.vector,
    }
}

pub fn through(function: CCall, call: &mut Call, book: &mut Book) -> u32 {
    // SAFETY: each pointer comes with the length of the slice it is taken from, and the slices are separate.
    unsafe {
        function(
            call.kind,
            call.function,
            call.process,
            call.count,
            call.fcb.as_mut_ptr(),
            call.fcb.len(),
            call.dma.as_mut_ptr(),
            call.dma.len(),
            book.list.as_mut_ptr(),
            book.list.len(),
            book.image.as_mut_ptr(),
            book.image.len(),
            book.vector.as_mut_ptr(),
            book.vector.len(),
        )
    }
}
