//! The slots by which the engine looks for entries and items, from the lowest of a slot on. Where all names of a drive
//! fall into one slot, it looks from the first entry on. No answer is told by them: they choose names, and say which
//! sessions have met a crowd in a slot.
//!
//! The weights are those of `mixed` and `slot_of` in crates/index/src/slot.rt; `tests/hints.rs` reads them there.

use crate::faults::{extent_number, items, used_entries, Item};
use crate::random::Random;
use reference::kind::{Kind, ENTRY};
use std::collections::{BTreeMap, BTreeSet};

pub const SLOTS: usize = 256;

/// Of the bytes of a name.
pub const WEIGHTS: [usize; 11] = [1, 11, 121, 51, 49, 27, 41, 195, 97, 43, 217];
pub const USER_WEIGHT: usize = 85;
pub const NUMBER_WEIGHT: usize = 17;

/// So many entries of one slot are more than chance brings together, and so many items.
pub const CROWD_OF_ENTRIES: usize = 8;
pub const CROWD_OF_ITEMS: usize = 4;

const LETTERS: &[u8; 36] = b"ABCDEFGHIJKLMNOPQRSTUVWXYZ0123456789";

/// The slot of an extent of a file, or of a lock of a record; an open's is that of record 0.
pub fn slot_of(user: u8, name: &[u8], number: u32) -> usize {
    let low = name.iter().map(|byte| usize::from(byte & 127));
    let mixed: usize = WEIGHTS.iter().zip(low).map(|(weight, byte)| weight * byte).sum();
    (mixed + USER_WEIGHT * usize::from(user) + NUMBER_WEIGHT * (number as usize % SLOTS)) % SLOTS
}

/// So many names, no two the same, that begin with this short stem: each of them, with this user and number, falls into
/// this slot.
pub fn names_in(
    slot: usize,
    (user, number): (u8, u32),
    stem: &[u8],
    count: usize,
    random: &mut Random,
) -> Vec<[u8; 11]> {
    let mut seen = BTreeSet::new();
    let mut names = Vec::new();
    while names.len() < count {
        let mut name: [u8; 11] =
            std::array::from_fn(|at| stem.get(at).copied().unwrap_or_else(|| random.pick(LETTERS)));
        // One last byte of 256 brings the sum to the slot; in one name of seven it is a letter.
        let last = LETTERS.iter().find(|&&letter| {
            name[10] = letter;
            slot_of(user, &name, number) == slot
        });
        if last.is_some() && seen.insert(name) {
            names.push(name);
        }
    }
    names
}

/// How many of these fall into each slot.
fn counts(slots: impl Iterator<Item = usize>) -> [usize; SLOTS] {
    let mut counts = [0; SLOTS];
    slots.for_each(|slot| counts[slot] += 1);
    counts
}

fn counts_of_entries(kind: Kind, image: &[u8]) -> [usize; SLOTS] {
    let slot = |entry: &[u8]| slot_of(entry[0], &entry[1..12], extent_number(entry) as u32);
    counts(used_entries(kind, image).map(slot))
}

/// How many entries fall into the slot that has most of them.
pub fn most_of_one_slot(kind: Kind, image: &[u8]) -> usize {
    let counts = counts_of_entries(kind, image);
    counts.into_iter().max().unwrap_or(0)
}

/// A crowd of entries falls into the slot of this extent of this entry's file.
pub fn is_in_crowd(kind: Kind, image: &[u8], entry: usize, extent: u32) -> bool {
    let file = &image[ENTRY * entry..ENTRY * entry + 12];
    counts_of_entries(kind, image)[slot_of(file[0], &file[1..], extent)] >= CROWD_OF_ENTRIES
}

/// The user, name and number of each item of a sort, and how often they stand in the list.
fn often<'a>(list: &'a [u8], is_of_sort: fn(&Item<'a>) -> bool) -> BTreeMap<(u8, &'a [u8], u32), usize> {
    let mut often = BTreeMap::new();
    for (_, Item(bytes)) in items(list) {
        let item = Item(bytes);
        if let (true, Some(user)) = (is_of_sort(&item), item.user(list)) {
            let number = if item.is_lock() { item.record() } else { 0 };
            *often.entry((user, &bytes[3..14], number)).or_default() += 1;
        }
    }
    often
}

/// A crowd of items of this sort, no two of one file and number, falls into a slot; into that of two items of one file
/// and number where twins are asked for.
pub fn has_crowd_of_items<'a>(list: &'a [u8], is_of_sort: fn(&Item<'a>) -> bool, of_twins: bool) -> bool {
    let often = often(list, is_of_sort);
    let slot = |(user, name, number): &(u8, &[u8], u32)| slot_of(*user, name, *number);
    let counts = counts(often.keys().map(slot));
    let mut asked = often.iter().filter(|(_, &count)| count > 1 || !of_twins);
    asked.any(|(item, _)| counts[slot(item)] >= CROWD_OF_ITEMS)
}
