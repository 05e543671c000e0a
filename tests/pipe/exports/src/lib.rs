//! The reference behind the engine's nine C symbols, to try `pipe.c` and the feature `linked` with.

use std::slice::{from_raw_parts, from_raw_parts_mut};

/// # Safety
/// A pointer must be good for its length, unless that is 0.
unsafe fn lent<'a>(bytes: *const u8, length: usize) -> &'a [u8] {
    match length {
        0 => &[],
        _ => from_raw_parts(bytes, length),
    }
}

/// # Safety
/// As for `lent`, and nobody else may use the bytes meanwhile.
unsafe fn lent_mut<'a>(bytes: *mut u8, length: usize) -> &'a mut [u8] {
    match length {
        0 => &mut [],
        _ => from_raw_parts_mut(bytes, length),
    }
}

/// # Safety
/// The five buffers must be good for their lengths and separate.
#[no_mangle]
#[allow(clippy::too_many_arguments)]
pub unsafe extern "C" fn mpm_call(
    kind: u32,
    function: u32,
    process: u32,
    count: u32,
    fcb: *mut u8,
    fcb_len: usize,
    dma: *mut u8,
    dma_len: usize,
    list: *mut u8,
    list_len: usize,
    image: *mut u8,
    image_len: usize,
    vector: *mut u8,
    vector_len: usize,
) -> u32 {
    reference::call(
        kind,
        function,
        process,
        count,
        lent_mut(fcb, fcb_len),
        lent_mut(dma, dma_len),
        lent_mut(list, list_len),
        lent_mut(image, image_len),
        lent_mut(vector, vector_len),
    )
}

/// # Safety
/// The five buffers must be good for their lengths and separate.
#[no_mangle]
#[allow(clippy::too_many_arguments)]
pub unsafe extern "C" fn mpm_singly(
    kind: u32,
    function: u32,
    process: u32,
    count: u32,
    fcb: *mut u8,
    fcb_len: usize,
    dma: *mut u8,
    dma_len: usize,
    list: *mut u8,
    list_len: usize,
    image: *mut u8,
    image_len: usize,
    vector: *mut u8,
    vector_len: usize,
) -> u32 {
    reference::call_singly(
        kind,
        function,
        process,
        count,
        lent_mut(fcb, fcb_len),
        lent_mut(dma, dma_len),
        lent_mut(list, list_len),
        lent_mut(image, image_len),
        lent_mut(vector, vector_len),
    )
}

/// # Safety
/// The two buffers must be good for their lengths and separate.
#[no_mangle]
pub unsafe extern "C" fn mpm_start(
    kind: u32,
    capacity: u32,
    open_limit: u32,
    lock_limit: u32,
    rule: u32,
    users: *const u8,
    users_len: usize,
    list: *mut u8,
    list_len: usize,
) -> u32 {
    reference::start(
        kind,
        capacity,
        open_limit,
        lock_limit,
        rule,
        lent(users, users_len),
        lent_mut(list, list_len),
    )
}

/// # Safety
/// The two buffers must be good for their lengths and separate.
#[no_mangle]
pub unsafe extern "C" fn mpm_vector(
    kind: u32,
    rule: u32,
    image: *const u8,
    image_len: usize,
    vector: *mut u8,
    vector_len: usize,
) -> u32 {
    reference::vector(kind, rule, lent(image, image_len), lent_mut(vector, vector_len))
}

/// # Safety
/// The image must be good for its length.
#[no_mangle]
pub unsafe extern "C" fn mpm_check(kind: u32, rule: u32, image: *const u8, image_len: usize) -> u32 {
    reference::check(kind, rule, lent(image, image_len))
}

/// # Safety
/// The two buffers must be good for their lengths.
#[no_mangle]
pub unsafe extern "C" fn mpm_look(
    kind: u32,
    rule: u32,
    user: u32,
    name: *const u8,
    name_len: usize,
    record: u32,
    image: *const u8,
    image_len: usize,
) -> u32 {
    let found = reference::look(
        kind,
        rule,
        user,
        lent(name, name_len),
        record,
        lent(image, image_len),
    );
    found.map_or(0, |at| at as u32)
}

/// # Safety
/// The two buffers must be good for their lengths and separate.
#[no_mangle]
pub unsafe extern "C" fn mpm_salvage(
    kind: u32,
    rule: u32,
    image: *mut u8,
    image_len: usize,
    report: *mut u8,
    report_len: usize,
) -> u32 {
    reference::salvage(
        kind,
        rule,
        lent_mut(image, image_len),
        lent_mut(report, report_len),
    )
}

/// # Safety
/// The three buffers must be good for their lengths and separate.
#[no_mangle]
pub unsafe extern "C" fn mpm_pack(
    kind: u32,
    image: *const u8,
    image_len: usize,
    list: *const u8,
    list_len: usize,
    packed: *mut u8,
    packed_len: usize,
) -> u32 {
    reference::pack(
        kind,
        lent(image, image_len),
        lent(list, list_len),
        lent_mut(packed, packed_len),
    )
}

/// # Safety
/// The two buffers must be good for their lengths.
#[no_mangle]
pub unsafe extern "C" fn mpm_same(
    kind: u32,
    first: *const u8,
    first_len: usize,
    second: *const u8,
    second_len: usize,
) -> u32 {
    reference::same(kind, lent(first, first_len), lent(second, second_len))
}
