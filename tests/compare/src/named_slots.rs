//! Names that all fall into one slot of the engine's (`hints.rs`): what is bad there has to be found past all the others
//! of the slot, and what is good to be told from them.

use crate::build::{image_of, lock_item, open_item, put_item, Entry, Fcb};
use crate::hints::{names_in, SLOTS};
use crate::named::{Play, Script};
use crate::named_entries::{empty, is_sound, put, tells};
use reference::kind::Kind;

/// Played on drives of both kinds.
pub const CASES: [(&str, Play); 3] = [
    ("extents 0 of one slot", first_extents),
    ("later extents of one slot", later_extents),
    ("opens and locks of one slot", items),
];

/// The process of another user.
const STRANGER: u32 = 8;

fn blocks_of(kind: Kind) -> usize {
    match kind {
        Kind::First => 2 + kind.entries(),
        Kind::Second => 300,
    }
}

fn first_extents(script: &mut Script) {
    directory(script, 0, script.kind.entries() - 1);
}

/// Behind them stand the extents 0.
fn later_extents(script: &mut Script) {
    directory(script, 3, (script.kind.entries() - 1) / 2);
}

/// So many entries of one slot, each with a block, from entry 0 on; the last entry of the directory alone is empty.
fn directory(script: &mut Script, extent: u32, crowd: usize) {
    let kind = script.kind;
    let (last, block) = (kind.entries() - 1, |at: usize| 2 + at as u16);
    let slot = script.random.below(SLOTS);
    let names = names_in(slot, (0, extent), b"ORDERS", crowd + 1, script.random);
    let plain = |at: usize| Entry::of(0, names[at], extent);
    let own = |at: usize| plain(at).block_of(kind, 0, block(at));
    let mut entries: Vec<Entry> = (0..crowd).map(own).collect();
    if extent > 0 {
        entries.extend(names.iter().map(|name| Entry::of(0, *name, 0)));
    }
    script.world_on(&image_of(kind, blocks_of(kind), &entries), [9, 9, 9], [0; 16]);
    is_sound(script);
    for at in [0, 1, crowd / 2, crowd - 1] {
        let file = Fcb::of(names[at]).record(128 * extent);
        script.call(0, 15, file).ok();
        script.call(0, 33, file).ok();
    }
    script.stage.damaged();
    for (at, later) in [(0, 1), (0, crowd - 1), (1, crowd / 2), (crowd - 2, crowd - 1)] {
        put(script, last, plain(at).attribute(2));
        tells(script, 7, last);
        put(script, last, plain(crowd).block_of(kind, 1, block(at)));
        tells(script, 6, last);
        put(script, last, plain(at).extent(extent + 1));
        is_sound(script);
        empty(script, last);
        put(script, later, plain(at));
        tells(script, 7, later);
        put(script, later, own(later).extent(extent + 2));
        match extent {
            0 => tells(script, 8, later),
            _ => is_sound(script),
        }
        put(script, later, own(later));
        is_sound(script);
    }
    script.stage.repaired();
}

/// Four files whose records 0 and 256 have blocks, and the first one's name under another user, whose record 251 falls
/// into their slot.
fn items(script: &mut Script) {
    let kind = script.kind;
    let slot = script.random.below(SLOTS);
    let names = names_in(slot, (0, 0), b"", 4, script.random);
    let mut entries = Vec::new();
    for (name, block) in names.iter().zip([2, 4, 6, 8]) {
        entries.push(Entry::of(0, *name, 0).block_of(kind, 0, block));
        entries.push(Entry::of(0, *name, 2).block_of(kind, 0, block + 1));
    }
    let last_number = kind.numbers_per_entry() - 1;
    entries.push(Entry::of(1, names[0], 0));
    entries.push(Entry::of(1, names[0], 1).block_of(kind, last_number, 10));
    let mut users = [0; 16];
    users[STRANGER as usize] = 1;
    script.world_on(&image_of(kind, blocks_of(kind), &entries), [64, 9, 20], users);

    let all_opens = names.iter().map(|name| (0, *name)).chain([(STRANGER, names[0])]);
    for (process, name) in all_opens.clone() {
        script.call(process, 15, Fcb::of(name).unlocked()).ok();
    }
    let mut locks = Vec::new();
    for (id, (process, name)) in (0..).zip(all_opens) {
        let records: &[u32] = if process == 0 { &[0, 256] } else { &[251] };
        for &record in records {
            script
                .call(process, 42, Fcb::of(name).record(record))
                .id(id, 0)
                .ok();
            locks.push(lock_item(process as u8, name, record));
        }
    }
    let rival = Fcb::of(names[3]);
    script.call(2, 15, rival.unlocked()).ok();
    script.call(2, 42, rival.record(256)).id(14, 0).gives(8, 0);
    script.call(2, 34, rival.record(256)).gives(8, 0);
    refuse_twins(script, &names, &locks);
    for (id, name) in (0..).zip(&names) {
        script.call(0, 43, Fcb::of(*name).record(256)).id(id, 0).ok();
    }
    script.call(2, 42, rival.record(256)).id(14, 0).ok();
}

/// Each lock twice and each file open twice; then a lock of a record of its own, which is sound.
fn refuse_twins(script: &mut Script, names: &[[u8; 11]], locks: &[[u8; 20]]) {
    let list = script.stage.list().to_vec();
    let opens = |name: &[u8; 11]| [open_item(0, *name, 1), open_item(3, *name, 0)];
    let twins = names.iter().flat_map(opens).chain(locks.iter().copied());
    let own = lock_item(0, names[0], 1);
    script.stage.damaged();
    for (item, a, h) in twins.map(|item| (item, 255, 12)).chain([(own, 0, 0)]) {
        let mut with = list.clone();
        put_item(&mut with, 60, item);
        script.stage.set_list(&with);
        script.call(0, 46, Fcb([0; 36])).gives(a, h);
    }
    script.stage.set_list(&list);
    script.stage.repaired();
}
