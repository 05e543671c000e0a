//! Bad directories, with the entry and the reason that the image check must tell: each reason in the
//! first entry that can have it, in the last and between; two of them in one entry and in two.

use crate::build::{empty_image_of, put_entry, Entry, Fcb};
use crate::named::{Play, Script};
use crate::step::Step;
use reference::kind::Kind;

/// Played on drives of both kinds.
pub const CASES: [(&str, Play); 5] = [
    ("each reason in each part of the directory", each_reason),
    ("two reasons in one entry", two_reasons_in_one_entry),
    (
        "an earlier reason in a later entry",
        earlier_reason_in_a_later_entry,
    ),
    ("8 comes last of all", eight_last),
    ("ranges before repeats, repeats inside an entry", block_numbers),
];

/// The entry whose block and extent others repeat. It stands in entry 1, so that entry 0 is free.
const ANCHOR: &str = "ANCHOR.DAT";
const ANCHOR_SLOT: usize = 1;
const FILE: &str = "FILE.DAT";
const OTHER: &str = "OTHER.DAT";

/// The data blocks of these drives are `number(2)` to `number(9)`, and the second kind has more.
const BLOCKS: usize = 10;

fn blocks_of(kind: Kind) -> usize {
    match kind {
        Kind::First => BLOCKS,
        Kind::Second => 300,
    }
}

/// One of the last blocks of the drive; on one of the second kind the number has a high byte.
fn number(kind: Kind, block: usize) -> u16 {
    (blocks_of(kind) - BLOCKS + block) as u16
}

fn anchor(kind: Kind) -> Entry {
    Entry::named(ANCHOR).count(8).block_of(kind, 1, number(kind, 2))
}

/// The entry made bad for this reason. A repeat of the anchor's extent comes before the others.
fn spoilt(kind: Kind, entry: Entry, reason: u32) -> Entry {
    match reason {
        2 => entry.user(16),
        3 => entry.with(4, b'?'),
        4 => entry.count(129),
        5 => entry.block_of(kind, 3, number(kind, BLOCKS)),
        6 => entry.block_of(kind, 5, number(kind, 2)),
        7 => Entry(std::array::from_fn(|at| match at {
            1..12 => anchor(kind).0[at],
            _ => entry.0[at],
        })),
        _ => entry.extent(1),
    }
}

fn good(kind: Kind) -> Entry {
    Entry::named(FILE).count(8).block_of(kind, 0, number(kind, 3))
}

/// A drive with the anchor and nothing else.
fn begin(script: &mut Script) {
    let kind = script.kind;
    let mut image = empty_image_of(kind, blocks_of(kind));
    put_entry(&mut image, ANCHOR_SLOT, anchor(kind));
    script.world_on(&image, [9, 9, 9], [0; 16]);
    script.stage.damaged();
}

pub fn put(script: &mut Script, slot: usize, entry: Entry) {
    script.stage.serve(Step::PatchImage {
        at: 32 * slot,
        bytes: entry.0.to_vec(),
    });
}

pub fn empty(script: &mut Script, slot: usize) {
    put(script, slot, Entry([0xE5; 32]));
}

pub fn tells(script: &mut Script, reason: u32, slot: usize) {
    script.check(reason + 256 * slot as u32);
    script.call(0, 46, Fcb([0; 36])).gives(255, 1);
}

pub fn is_sound(script: &mut Script) {
    script.check(0);
    script.call(0, 46, Fcb([0; 36])).ok();
}

/// Entries in the lower and, if there is one, in the upper half.
fn slots(kind: Kind) -> &'static [usize] {
    match kind {
        Kind::First => &[0, 2, 32, 62, 63],
        Kind::Second => &[0, 2, 63, 64, 126, 127],
    }
}

fn each_reason(script: &mut Script) {
    let kind = script.kind;
    begin(script);
    is_sound(script);
    for &slot in slots(kind) {
        // Behind the bad entry stand a good one and one that is bad for all reasons but 7.
        let behind = (slot + 2).min(kind.entries());
        for reason in 2..=8 {
            for with_others in [false, true] {
                if with_others && behind < kind.entries() && reason != 8 {
                    let worst = (2..=6).fold(Entry::named(OTHER), |entry, of| spoilt(kind, entry, of));
                    put(script, behind, worst);
                }
                put(script, slot, spoilt(kind, good(kind), reason));
                // A repeat is charged to the later entry: to the anchor if it is that.
                match (slot, reason) {
                    (0, 6 | 7) => tells(script, reason, ANCHOR_SLOT),
                    _ => tells(script, reason, slot),
                }
                if behind < kind.entries() {
                    empty(script, behind);
                }
                put(script, slot, good(kind));
                is_sound(script);
            }
        }
        for (at, byte) in [(12, 32), (14, 64), (12, 255), (14, 255), (15, 255)] {
            put(script, slot, good(kind).with(at, byte));
            tells(script, 4, slot);
        }
        // A number twice inside the entry, which is the first that names it.
        let twice = number(kind, 7);
        put(
            script,
            slot,
            good(kind).block_of(kind, 2, twice).block_of(kind, 6, twice),
        );
        tells(script, 6, slot);
        empty(script, slot);
        is_sound(script);
    }
}

fn two_reasons_in_one_entry(script: &mut Script) {
    let kind = script.kind;
    begin(script);
    for slot in [2, kind.entries() - 1] {
        for first in 2..=6 {
            for second in first + 1..=7 {
                let twice_bad = spoilt(kind, spoilt(kind, good(kind), second), first);
                put(script, slot, twice_bad);
                tells(script, first, slot);
            }
        }
        empty(script, slot);
    }
    is_sound(script);
}

fn earlier_reason_in_a_later_entry(script: &mut Script) {
    let kind = script.kind;
    begin(script);
    let last = kind.entries() - 1;
    for told in 3..=7 {
        for later in 2..told {
            put(script, 5, spoilt(kind, good(kind), told));
            for slot in [6, last] {
                let free = Entry::named(OTHER).block_of(kind, 0, number(kind, 4));
                put(script, slot, spoilt(kind, free, later));
                tells(script, told, 5);
                empty(script, slot);
            }
        }
    }
    empty(script, 5);
    is_sound(script);
}

fn eight_last(script: &mut Script) {
    let kind = script.kind;
    let last = kind.entries() - 1;
    begin(script);
    let of = |extent: u32| Entry::named(OTHER).extent(extent);
    put(script, 0, of(40));
    for reason in 2..=7 {
        for slot in [2, last] {
            put(script, slot, spoilt(kind, good(kind), reason));
            tells(script, reason, slot);
            empty(script, slot);
        }
    }
    tells(script, 8, 0);
    // The lowest entry of all such files, not that of the lowest extent or of the first name.
    put(script, 9, of(1));
    put(script, 4, Entry::named("AAA").extent(7));
    tells(script, 8, 0);
    put(script, 10, of(0));
    tells(script, 8, 4);
    put(script, 3, Entry::named("AAA").extent(9));
    tells(script, 8, 3);
    // Extent 0 under another user or of a name that differs does not count, in an empty entry neither.
    put(script, 11, Entry::named("AAA").user(1));
    put(script, 12, Entry::named("AAAA"));
    put(script, 13, Entry::named("AAA").user(0xE5));
    tells(script, 8, 3);
    put(script, last, Entry::named("AAA").attribute(2));
    is_sound(script);
}

fn block_numbers(script: &mut Script) {
    let kind = script.kind;
    begin(script);
    let with = |numbers: &[(usize, u16)]| {
        let entry = Entry::named(FILE);
        numbers.iter().fold(entry, |entry, (index, block)| {
            entry.block_of(kind, *index, *block)
        })
    };
    let (three, four) = (number(kind, 3), number(kind, 4));
    // All numbers are tried for their range before one is for a repeat.
    put(script, 2, with(&[(0, three), (1, three), (2, 1)]));
    tells(script, 5, 2);
    put(
        script,
        2,
        with(&[(0, number(kind, 2)), (7, number(kind, BLOCKS))]),
    );
    tells(script, 5, 2);
    put(script, 2, with(&[(0, three), (1, three)]));
    tells(script, 6, 2);
    // 1 is the directory's and out of range; nobody has named it.
    put(script, 2, with(&[(6, 1)]));
    tells(script, 5, 2);
    // Neither the anchor nor its number is bad when a later entry repeats it.
    put(script, 2, with(&[(0, three)]));
    put(script, 3, Entry::named(OTHER).block_of(kind, 0, four));
    put(
        script,
        4,
        Entry::named("THIRD")
            .block_of(kind, 4, four)
            .block_of(kind, 5, three),
    );
    tells(script, 6, 4);
    // What an empty entry names nobody has named.
    put(script, 3, Entry::named(OTHER).block_of(kind, 0, four).user(0xE5));
    put(script, 4, Entry::named("THIRD").block_of(kind, 4, four));
    is_sound(script);
    // A repeated extent, with blocks of its own.
    put(
        script,
        5,
        Entry::named(FILE).attribute(1).block_of(kind, 0, number(kind, 9)),
    );
    tells(script, 7, 5);
    put(script, 5, Entry::named(FILE).extent(32));
    is_sound(script);
}
