//! Named cases of the searches: what they match, in which order they find, and where they go on.

use crate::build::{empty_image_of, name, put_entry, Entry, Fcb, POSITIONS};
use crate::named::{Play, Script};
use crate::step::Step;
use reference::kind::Kind;

/// Played on drives of both kinds.
pub const CASES: [(&str, Play); 7] = [
    ("searches list every entry once, in rising order", listings),
    ("a mark in each place of a search's name", marks),
    ("what a search takes for the same name", same_names),
    ("a search finds at each place of a record", places),
    ("where a search goes on", positions),
    ("Next reads the directory as it then stands", changing_directory),
    ("each position from 0 to the end is sound", sound_positions),
];

const NOBODY: Fcb = Fcb([0; 36]);

fn everything() -> Fcb {
    Fcb::of([b'?'; 11])
}

/// The fewest blocks that a drive has, with these entries in these places.
fn image_with(kind: Kind, entries: &[(usize, Entry)]) -> Vec<u8> {
    let mut image = empty_image_of(kind, kind.fewest_blocks());
    for (slot, entry) in entries {
        put_entry(&mut image, *slot, *entry);
    }
    image
}

impl Script<'_> {
    fn search_world(&mut self, entries: &[(usize, Entry)]) {
        let mut users = [0; 16];
        users[7] = 12;
        self.world_on(&image_with(self.kind, entries), [9, 9, 9], users);
    }

    /// A 17 and then 18s with the same FCB find just these entries, and then none.
    fn lists(&mut self, process: u32, fcb: Fcb, slots: &[usize]) {
        for (number, &slot) in slots.iter().enumerate() {
            let function = if number == 0 { 17 } else { 18 };
            self.call(process, function, fcb).fill(0xA6).finds(slot);
        }
        let function = if slots.is_empty() { 17 } else { 18 };
        self.call(process, function, fcb).fill(0xA6).finds_none();
        self.call(process, 18, fcb).fill(0xA6).finds_none();
    }

    fn has_position(&mut self, process: usize, wanted: usize) {
        let position = self.stage.list()[POSITIONS][process];
        if usize::from(position) != wanted {
            self.complain(&format!(
                "process {process} has position {position}, not {wanted}"
            ));
        }
    }

    /// By hand, so that no history speaks of it.
    fn puts_position(&mut self, process: usize, position: usize) {
        self.stage.begin();
        self.stage.serve(Step::PatchList {
            at: POSITIONS.start + process,
            bytes: vec![position as u8],
        });
    }
}

/// FILE with extents 0, 1 and 32, one byte 12 being 0 twice; others of the same user and of user 12.
fn several_files(kind: Kind) -> Vec<(usize, Entry)> {
    let last = kind.entries() - 1;
    vec![
        (0, Entry::named("FILE.DAT").extent(32).count(3)),
        (2, Entry::named("OTHER.DAT").attribute(3).read_only()),
        (3, Entry::named("FILE.DAT").user(12)),
        (4, Entry::named("FILE.DAT").extent(1).attribute(1)),
        (9, Entry::named("FILE").with(13, 0x77)),
        (10, Entry::named("FILE.DAT").attribute(11).count(128)),
        (33, Entry::named("FILE").extent(2_047).count(128)),
        (last - 2, Entry::named("ZERO.DAT").user(12)),
        (last - 1, Entry::named("OTHER.DAT").extent(1)),
        (last, Entry::named("LAST.DAU")),
    ]
}

fn listings(script: &mut Script) {
    let last = script.kind.entries() - 1;
    script.search_world(&several_files(script.kind));
    let all = everything().all_extents();
    for process in [0, 15] {
        script.lists(process, all, &[0, 2, 4, 9, 10, 33, last - 1, last]);
        script.lists(process, everything(), &[2, 9, 10, last]);
    }
    script.lists(7, all, &[3, last - 2]);
    script.lists(7, everything(), &[3, last - 2]);
    let file = Fcb::named("FILE.DAT");
    script.lists(0, file, &[10]);
    script.lists(0, file.all_extents(), &[0, 4, 10]);
    script.lists(0, Fcb::named("????.DAT").all_extents(), &[0, 4, 10]);
    script.lists(0, Fcb::named("????????.DAT"), &[2, 10]);
    script.lists(0, Fcb::named("????????.DA?"), &[2, 10, last]);
    script.lists(0, Fcb::named("FILE.???"), &[9, 10]);
    script.lists(0, Fcb::named("FILE.???").all_extents(), &[0, 4, 9, 10, 33]);
    script.lists(0, Fcb::named("NONE"), &[]);
    script.lists(7, Fcb::named("OTHER.DAT").all_extents(), &[]);
    // Neither the drive's other name nor the count nor what stands behind byte 12 matters.
    let mut dirty = Fcb([0xFF; 36]);
    dirty.0[..13].copy_from_slice(&all.0[..13]);
    script.call(0, 17, dirty.with(0, 1)).count(16).fill(0xE5).finds(0);
    script.call(0, 18, dirty.with(0, 1)).count(9).fill(0).finds(2);
    // Opens and locks do not matter, and none is made.
    script.call(1, 15, Fcb::named("FILE.DAT")).ok();
    script.call(2, 15, Fcb::named("OTHER.DAT").read_only()).ok();
    script.lists(0, all, &[0, 2, 4, 9, 10, 33, last - 1, last]);
    script.lists(1, Fcb::named("OTHER.DAT"), &[2]);
    script.list_has(2, [0; 20]);
    // An empty directory, and one that is full of one file.
    script.search_world(&[]);
    script.lists(0, all, &[]);
    let full: Vec<(usize, Entry)> = (0..=last)
        .map(|slot| (slot, Entry::named("FILE.DAT").extent((last - slot) as u32)))
        .collect();
    script.search_world(&full);
    script.lists(0, all, &(0..=last).collect::<Vec<_>>());
    script.lists(0, everything(), &[last]);
}

/// By hand the same search begins at the first entry, as Next.
fn marks(script: &mut Script) {
    let first = *b"ABCDEFGHIJK";
    for at in 0..11 {
        let mut second = first;
        second[at] = b'~';
        let mut third = second;
        third[(at + 1) % 11] = b'~';
        let entries = [first, second, third].map(|name| Entry::of(0, name, 0));
        script.search_world(&[(1, entries[0]), (6, entries[1]), (7, entries[2])]);
        for mark in [b'?', b'?' | 128] {
            let fcb = Fcb::of(first).with(1 + at, mark);
            script.lists(3, fcb, &[1, 6]);
            script.puts_position(3, 0);
            script.call(3, 18, fcb).finds(1);
            script.call(3, 18, fcb).finds(6);
            script.call(3, 18, fcb).finds_none();
            let both = fcb.with(1 + (at + 1) % 11, mark);
            script.lists(3, both, &[1, 6, 7]);
        }
        script.lists(3, Fcb::of(first), &[1]);
        script.lists(3, Fcb::of(second), &[6]);
    }
}

fn same_names(script: &mut Script) {
    let high = name("FILE.DAT").map(|byte| byte | 128);
    script.search_world(&[
        (0, Entry::of(0, high, 1)),
        (1, Entry::named("FILE.DAT")),
        (2, Entry::named("file.dat")),
        (3, Entry::named("FILE.D T")),
        (4, Entry::of(0, name("FILE.DAT"), 32)),
        (5, Entry::of(0, *b"FILE*   D*T", 0)),
        (6, Entry::of(0, *b"~}|{!#$%&'(", 0)),
        (7, Entry::of(0, name("FILE.DAT"), 31)),
    ]);
    let file = Fcb::named("FILE.DAT");
    for fcb in [file, Fcb::of(high), file.unlocked().read_only()] {
        script.lists(0, fcb, &[1]);
        script.lists(0, fcb.all_extents(), &[0, 1, 4, 7]);
    }
    // Byte 12 is "?" or it is not: whatever else it holds, extent 0 alone is admitted.
    for other in [1, 31, b'?' | 128, b'?' - 1, 64, 255] {
        script.lists(0, file.with(12, other), &[1]);
    }
    script.lists(0, file.with(12, 0).with(14, b'?').with(13, b'?'), &[1]);
    script.lists(0, Fcb::named("file.dat"), &[2]);
    script.lists(0, Fcb::named("FILE.D?T"), &[1, 3]);
    script.lists(0, Fcb::named("FILE?.D?T"), &[1, 3, 5]);
    script.lists(0, Fcb::named("FILE*.D*T"), &[5]);
    script.lists(0, Fcb::of(*b"~}|{!#$%&'("), &[6]);
    // Illegal names are no refusal; they match what they match.
    for illegal in [
        "",
        " ILE.DAT",
        "FILE\u{1f}",
        "FILE.D\u{7f}T",
        "\0\0\0\0\0\0\0\0.\0\0\0",
    ] {
        script.lists(0, Fcb::named(illegal), &[]);
    }
    script.lists(0, Fcb::of([0xE5; 11]), &[]);
    // Byte 0 is the drive's, and no mark there finds all users'.
    for drive in [2, b'?', 0x80, 0xE5, 0xFF] {
        for function in [17, 18] {
            script
                .call(0, function, everything().with(0, drive))
                .gives(255, 4);
        }
    }
}

/// An extent 0 and a later extent at each of the four places, low, high and at both ends.
fn places(script: &mut Script) {
    let last = script.kind.entries() - 1;
    for at in [
        0,
        1,
        2,
        3,
        31,
        last / 2,
        last / 2 + 1,
        last / 2 + 2,
        last - 2,
        last - 1,
        last,
    ] {
        let beside = if at == last { 5 } else { last };
        for extent in [0, 1, 32, 2_047] {
            let mut entries = vec![(at, Entry::named("SOUGHT").extent(extent).count(9))];
            if extent > 0 {
                entries.push((beside, Entry::named("SOUGHT").user(0)));
            }
            script.search_world(&entries);
            let mut found: Vec<usize> = entries.iter().map(|(slot, _)| *slot).collect();
            found.sort_unstable();
            let first_extent = if extent == 0 { at } else { beside };
            let fcb = Fcb::named("SO??HT");
            script.lists(4, fcb, &[first_extent]);
            script.lists(4, fcb.all_extents(), &found);
            for (fcb, slot) in [(fcb, first_extent), (fcb.all_extents(), at)] {
                script.puts_position(4, slot);
                script.call(4, 18, fcb).finds(slot);
            }
            script.puts_position(4, at + 1);
            let behind = found.iter().find(|slot| **slot > at);
            match behind {
                Some(slot) => script.call(4, 18, fcb.all_extents()).finds(*slot),
                None => script.call(4, 18, fcb.all_extents()).finds_none(),
            }
        }
    }
}

fn positions(script: &mut Script) {
    let end = script.kind.entries();
    let all = everything().all_extents();
    script.search_world(&several_files(script.kind));
    for process in 0..16 {
        script.has_position(process, end);
    }
    // Next without a First, and First again.
    script.call(5, 18, all).finds_none();
    script.has_position(5, end);
    script.call(5, 17, all).finds(0);
    script.has_position(5, 1);
    script.call(5, 17, all).finds(0);
    script.call(5, 18, all).finds(2);
    script.call(5, 17, all).finds(0);
    // Each process has its own.
    script.call(6, 17, everything()).finds(2);
    script.call(7, 17, all).finds(3);
    script.call(5, 18, all).finds(2);
    script.call(6, 18, everything()).finds(9);
    script.call(5, 18, all).finds(4);
    script.has_position(5, 5);
    script.has_position(6, 10);
    script.has_position(7, 4);
    // A refusal leaves it.
    for function in [17, 18] {
        script.call(5, function, all.with(0, 2)).gives(255, 4);
        script.call(5, function, all).count(17).gives(255, 13);
        script.call(5, function, all).lengths(35, 2_048).gives(255, 13);
        script.call(5, function, all).kind(2).gives(255, 13);
        script.has_position(5, 5);
    }
    // The pattern is that of the Next itself, and so is what byte 12 admits.
    script.call(5, 18, everything()).finds(9);
    script
        .call(5, 18, Fcb::named("OTHER.DAT").all_extents())
        .finds(end - 2);
    script
        .call(5, 18, Fcb::named("FILE.DAT").all_extents())
        .finds_none();
    script.call(5, 18, all).finds_none();
    // No match ends a search that was under way, of First too.
    script.call(6, 17, Fcb::named("NONE")).finds_none();
    script.has_position(6, end);
    // No other call of the process moves it.
    script.call(5, 17, all).finds(0);
    script.call(5, 22, Fcb::named("NEW").unlocked()).ok();
    script.call(5, 34, Fcb::named("NEW")).ok();
    script.call(5, 16, Fcb::named("NEW")).ok();
    script.call(5, 19, Fcb::named("NEW")).ok();
    script.call(5, 46, NOBODY).ok();
    script.has_position(5, 1);
    script.call(5, 18, all).finds(2);
    // 143 ends the caller's own search and no other; so with items to take away.
    script.call(5, 17, all).finds(0);
    script.call(6, 17, all).finds(0);
    script.call(5, 143, NOBODY).ok();
    script.has_position(5, end);
    script.has_position(6, 1);
    script.call(5, 18, all).finds_none();
    script.call(6, 15, Fcb::named("FILE.DAT")).ok();
    script.call(6, 143, NOBODY).ok();
    script.has_position(6, end);
    script.call(6, 15, Fcb::named("FILE.DAT")).ok();
    script.call(6, 143, NOBODY).ok();
    script.call(6, 143, NOBODY).ok();
    script.has_position(7, 4);
    // So does a Start, which is refused or not.
    script.starts([9, 9, 65], &[0; 16], false);
    script.has_position(7, 4);
    script.starts([9, 9, 9], &[0; 16], true);
    for process in 0..16 {
        script.has_position(process, end);
    }
    script.call(7, 18, all).finds_none();
}

fn changing_directory(script: &mut Script) {
    let all = everything().all_extents();
    let files = ["A", "B", "C", "D"].map(Entry::named);
    script.search_world(&[(1, files[0]), (3, files[1]), (5, files[2]), (6, files[3])]);
    script.call(0, 17, all).finds(1);
    script.call(9, 17, all).finds(1);
    // Deleted behind it and before it.
    script.call(2, 19, Fcb::named("B")).ok();
    script.call(0, 18, all).finds(5);
    script.call(2, 19, Fcb::named("A")).ok();
    script.call(9, 18, all).finds(5);
    // Made in the lowest empty entries, 0, 1 and 2: before it, so not found; then one behind it.
    for made in ["E", "F", "G"] {
        script.call(2, 22, Fcb::named(made)).ok();
        script.call(2, 16, Fcb::named(made)).ok();
    }
    script.call(0, 18, all).finds(6);
    script.call(0, 17, all).finds(0);
    script.call(0, 18, all).finds(1);
    script.call(0, 18, all).finds(2);
    script.call(2, 22, Fcb::named("H").unlocked()).ok();
    script.call(0, 18, all).finds(3);
    // Renamed into the pattern and out of it.
    let with_x = Fcb::named("X???????");
    script.call(0, 17, with_x).finds_none();
    script.call(0, 17, all).finds(0);
    script.call(2, 23, Fcb::named("D").new_name(name("XD"))).ok();
    script.call(0, 18, with_x).finds(6);
    script.call(0, 17, with_x).finds(6);
    script.call(2, 23, Fcb::named("XD").new_name(name("D"))).ok();
    script.call(0, 17, with_x).finds_none();
    // An extent that a write has taken, with its count.
    script.call(0, 17, Fcb::named("H").all_extents()).finds(3);
    script.call(2, 34, Fcb::named("H").record(130)).ok();
    script.call(0, 18, Fcb::named("H").all_extents()).finds(4);
    script.image_has(4 * 32 + 12, &[1, 0, 0, 3]);
    // The found one is deleted: the search goes on behind where it stood.
    script.call(0, 17, Fcb::named("C")).finds(5);
    script.call(3, 19, Fcb::named("C")).ok();
    script.call(0, 18, all).finds(6);
    script.call(0, 18, all).finds_none();
    // What a search goes on after: nothing, another's search.
    script.call(0, 17, all).finds(0);
    script.call(1, 17, all).finds(0);
    script.call(0, 18, all).finds(1);
    script.call(0, 18, all).finds(2);
}

/// Of all sixteen processes, of those too that never call.
fn sound_positions(script: &mut Script) {
    let end = script.kind.entries();
    script.search_world(&several_files(script.kind));
    let edges = [0, 1, 63, 64, 65, 66, 127, 128, 129, 130, 0xE5, 255];
    let any: Vec<usize> = (0..=255).collect();
    for process in 0..16 {
        let tried = if process == 9 { &any[..] } else { &edges };
        for &position in tried {
            script.puts_position(process, position);
            let asked = script.call(3, 46, NOBODY);
            match position <= end {
                true => asked.ok(),
                false => asked.gives(255, 12),
            }
        }
        script.puts_position(process, end);
    }
    for position in [end + 1, 255] {
        script.puts_position(15, position);
        for function in [17, 18] {
            script.call(0, function, everything()).gives(255, 12);
            script.call(15, function, everything().with(0, 9)).gives(255, 12);
        }
        script.call(15, 143, NOBODY).gives(255, 12);
        script.has_position(15, position);
    }
}
