//! The desk's functions of an engine linked into this program by its C symbols.

use super::What;
use crate::step::Told;

extern "C" {
    fn mpm_salvage(
        kind: u32,
        rule: u32,
        image: *mut u8,
        image_len: usize,
        report: *mut u8,
        report_len: usize,
    ) -> u32;

    fn mpm_pack(
        kind: u32,
        image: *const u8,
        image_len: usize,
        list: *const u8,
        list_len: usize,
        packed: *mut u8,
        packed_len: usize,
    ) -> u32;

    fn mpm_same(kind: u32, first: *const u8, first_len: usize, second: *const u8, second_len: usize) -> u32;
}

pub fn by_linked(what: What, told: Told, buffers: &mut [&mut [u8]]) -> u32 {
    let Told { kind, rule } = told;
    // SAFETY: each pointer comes with the length of the slice it is taken from, and the slices are separate and stay
    // borrowed until the function returns.
    match (what, buffers) {
        (What::Salvage, [image, report]) => unsafe {
            mpm_salvage(
                kind,
                rule,
                image.as_mut_ptr(),
                image.len(),
                report.as_mut_ptr(),
                report.len(),
            )
        },
        // All are lent mutable, so that a write can be seen.
        (What::Pack, [image, list, packed]) => unsafe {
            mpm_pack(
                kind,
                image.as_mut_ptr(),
                image.len(),
                list.as_mut_ptr(),
                list.len(),
                packed.as_mut_ptr(),
                packed.len(),
            )
        },
        (What::Same, [first, second]) => unsafe {
            mpm_same(
                kind,
                first.as_mut_ptr(),
                first.len(),
                second.as_mut_ptr(),
                second.len(),
            )
        },
        _ => unreachable!("a case has the buffers of its function"),
    }
}
