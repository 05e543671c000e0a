//! Salvage: takes out of a damaged directory what keeps the image from being sound, and tells of each entry what
//! was done to it.

use crate::drive::{file_and_extent, is_data_block, EMPTY};
use crate::kind::{Kind, ENTRY};
use crate::name::File;
use crate::rule::Rule;
use std::collections::{BTreeMap, BTreeSet};

const UNTOUCHED: u8 = 0;
const EMPTIED: u8 = 255;
const MAP: usize = 16;

/// Where the extents of each file stand.
type Kept = BTreeMap<File, BTreeMap<u32, usize>>;

/// Mends the directory of an image of so many blocks, by this rule. What was done to each entry: 0 nothing, 255
/// emptied, else how many of its block numbers were zeroed.
pub fn mend(kind: Kind, rule: Rule, blocks: usize, directory: &mut [u8]) -> Vec<u8> {
    let stays = slots_that_stay(rule, directory);
    let mut named = BTreeSet::new();
    let entries = directory.chunks_exact_mut(ENTRY).enumerate();
    entries
        .map(|(slot, entry)| {
            if entry[0] == EMPTY {
                return UNTOUCHED;
            }
            if !stays.contains(&slot) {
                entry[0] = EMPTY;
                return EMPTIED;
            }
            zero_numbers(kind, blocks, &mut entry[MAP..], &mut named)
        })
        .collect()
}

/// The entries that are good by themselves, each the first of its file and extent, of files that have an extent 0.
fn slots_that_stay(rule: Rule, directory: &[u8]) -> BTreeSet<usize> {
    let mut kept = Kept::new();
    for (slot, entry) in directory.chunks_exact(ENTRY).enumerate() {
        if let Ok(Some((file, extent))) = file_and_extent(rule, entry) {
            kept.entry(file).or_default().entry(extent).or_insert(slot);
        }
    }
    kept.retain(|_, extents| extents.contains_key(&0));
    kept.into_values().flat_map(BTreeMap::into_values).collect()
}

/// Zeroes the numbers that are out of range or that stand in `named`, which gets the others; tells how many.
fn zero_numbers(kind: Kind, blocks: usize, map: &mut [u8], named: &mut BTreeSet<u16>) -> u8 {
    let numbers: Vec<u16> = kind.numbers(map).collect();
    let mut zeroed = 0;
    for (index, block) in numbers.into_iter().enumerate() {
        let stays = block == 0 || (is_data_block(block, blocks) && named.insert(block));
        if !stays {
            kind.put_number(map, index, 0);
            zeroed += 1;
        }
    }
    zeroed
}
