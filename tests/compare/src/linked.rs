//! An engine linked into this program by its C symbols.

use crate::engine::Engine;
use crate::step::Told;
use reference::calls::{Buffers, Numbers};

/// mpm_call and mpm_singly have the same parameters.
type Call = unsafe extern "C" fn(
    u32,
    u32,
    u32,
    u32,
    *mut u8,
    usize,
    *mut u8,
    usize,
    *mut u8,
    usize,
    *mut u8,
    usize,
    *mut u8,
    usize,
) -> u32;

extern "C" {
    fn mpm_call(
        kind: u32,
        function: u32,
        process: u32,
        count: u32,
        fcb: *mut u8,
        fcb_len: usize,
        dma: *mut u8,
        dma_len: usize,
        list: *mut u8,
        list_len: usize,
        image: *mut u8,
        image_len: usize,
        vector: *mut u8,
        vector_len: usize,
    ) -> u32;

    fn mpm_singly(
        kind: u32,
        function: u32,
        process: u32,
        count: u32,
        fcb: *mut u8,
        fcb_len: usize,
        dma: *mut u8,
        dma_len: usize,
        list: *mut u8,
        list_len: usize,
        image: *mut u8,
        image_len: usize,
        vector: *mut u8,
        vector_len: usize,
    ) -> u32;

    fn mpm_vector(
        kind: u32,
        rule: u32,
        image: *const u8,
        image_len: usize,
        vector: *mut u8,
        vector_len: usize,
    ) -> u32;

    fn mpm_start(
        kind: u32,
        capacity: u32,
        open_limit: u32,
        lock_limit: u32,
        rule: u32,
        users: *const u8,
        users_len: usize,
        list: *mut u8,
        list_len: usize,
    ) -> u32;

    fn mpm_check(kind: u32, rule: u32, image: *const u8, image_len: usize) -> u32;

    fn mpm_look(
        kind: u32,
        rule: u32,
        user: u32,
        name: *const u8,
        name_len: usize,
        record: u32,
        image: *const u8,
        image_len: usize,
    ) -> u32;
}

pub struct Linked;

// SAFETY, of all six: each pointer comes with the length of the slice it is taken from, and the
// slices are separate and stay borrowed until the call returns.
impl Engine for Linked {
    fn start(&mut self, kind: u32, numbers: [u32; 4], users: &mut [u8], list: &mut [u8]) -> u32 {
        let [capacity, open_limit, lock_limit, rule] = numbers;
        unsafe {
            mpm_start(
                kind,
                capacity,
                open_limit,
                lock_limit,
                rule,
                users.as_mut_ptr(),
                users.len(),
                list.as_mut_ptr(),
                list.len(),
            )
        }
    }

    fn check(&mut self, told: Told, image: &mut [u8]) -> u32 {
        unsafe { mpm_check(told.kind, told.rule, image.as_mut_ptr(), image.len()) }
    }

    fn look(&mut self, told: Told, user: u32, name: &mut [u8], record: u32, image: &mut [u8]) -> u32 {
        unsafe {
            mpm_look(
                told.kind,
                told.rule,
                user,
                name.as_mut_ptr(),
                name.len(),
                record,
                image.as_mut_ptr(),
                image.len(),
            )
        }
    }

    fn vector(&mut self, told: Told, image: &mut [u8], vector: &mut [u8]) -> u32 {
        unsafe {
            mpm_vector(
                told.kind,
                told.rule,
                image.as_mut_ptr(),
                image.len(),
                vector.as_mut_ptr(),
                vector.len(),
            )
        }
    }

    fn call(&mut self, numbers: Numbers, buffers: Buffers) -> u32 {
        make(mpm_call, numbers, buffers)
    }

    /// Every call, not only runs.
    fn singly(&mut self, numbers: Numbers, buffers: Buffers) -> Option<u32> {
        Some(make(mpm_singly, numbers, buffers))
    }
}

fn make(call: Call, numbers: Numbers, buffers: Buffers) -> u32 {
    let Buffers {
        fcb,
        dma,
        list,
        image,
        vector,
    } = buffers;
    // SAFETY: as above.
    unsafe {
        call(
            numbers.kind,
            numbers.function,
            numbers.process,
            numbers.count,
            fcb.as_mut_ptr(),
            fcb.len(),
            dma.as_mut_ptr(),
            dma.len(),
            list.as_mut_ptr(),
            list.len(),
            image.as_mut_ptr(),
            image.len(),
            vector.as_mut_ptr(),
            vector.len(),
        )
    }
}
