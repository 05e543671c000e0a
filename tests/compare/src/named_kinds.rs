//! Cases that one kind of drive has, or that set one against the other: the lengths, the block
//! numbers of two bytes, the upper half of 128 entries, and books told as what they are not.

use crate::book::Book;
use crate::build::{empty_image_of, image_of, name, put_entry, Entry, Fcb};
use crate::coverage::FUNCTIONS;
use crate::faults::vector_length;
use crate::named::{Play, Script};
use reference::kind::Kind;

pub const CASES: [(Kind, &str, Play); 10] = [
    (Kind::First, "256 and 257 blocks", most_blocks),
    (Kind::First, "2 and 3 blocks", fewest_blocks),
    (Kind::First, "a run takes the last two blocks", last_two_blocks),
    (Kind::First, "a book told as another", told_as_another),
    (Kind::Second, "a book told as another", told_as_another),
    (Kind::Second, "256 and 257, 4,096 and 4,097 blocks", lengths),
    (Kind::Second, "block numbers of two bytes", wide_numbers),
    (
        Kind::Second,
        "numbers out of range and repeated",
        numbers_out_of_range,
    ),
    (Kind::Second, "entries 64 to 127", upper_entries),
    (
        Kind::Second,
        "as many blocks as the directory can name",
        nameable_blocks,
    ),
];

const FILE: &str = "FILE.DAT";
const OTHER: &str = "OTHER.DAT";

/// Numbers that tell no kind.
const UNKNOWN_KINDS: [u32; 6] = [2, 3, 255, 256, 257, u32::MAX];

fn shared() -> Fcb {
    Fcb::named(FILE).unlocked()
}

/// A world on this image, whatever its length is.
fn world(script: &mut Script, image: &[u8]) {
    script.world_on(image, [9, 9, 9], [0; 16]);
}

fn most_blocks(script: &mut Script) {
    for (blocks, sound) in [(256, true), (257, false)] {
        world(script, &empty_image_of(Kind::First, blocks));
        script.check(if sound { 0 } else { 1 });
        for (function, fcb) in [
            (46, shared()),
            (22, shared()),
            (34, shared()),
            (40, shared().record(262_143)),
        ] {
            match sound {
                true => script.call(0, function, fcb).ok(),
                false => script.call(0, function, fcb).gives(255, 1),
            }
        }
    }
    // All blocks but the last are taken; the last is 255.
    let mut entries = vec![Entry::named(FILE)];
    let mut blocks = 2..255;
    for extent in 0..16 {
        let mut entry = Entry::of(0, name(OTHER), extent);
        for (index, block) in (0..16).zip(&mut blocks) {
            entry = entry.block(index, block);
        }
        entries.push(entry);
    }
    world(script, &image_of(Kind::First, 256, &entries));
    script.call(0, 46, shared()).fill(0xEE).tells(8);
    script.call(0, 15, shared()).ok();
    script.call(0, 40, shared().record(3)).fill(0x44).ok();
    script.image_has(16, &[255]);
    script.call(0, 34, shared().record(8)).gives(2, 0);
    script.call(0, 46, shared()).fill(0xEE).tells(0);
    script.call(0, 33, shared().record(3)).ok();
    script.call(0, 42, shared()).count(8).ok();
    script.call(1, 19, Fcb::named(OTHER)).ok();
    script.call(1, 46, shared()).fill(0xEE).tells(8 * 253);
    script.look(0, &name(FILE), 3, 255 * 1024 + 3 * 128);
}

fn fewest_blocks(script: &mut Script) {
    world(script, &empty_image_of(Kind::First, 2));
    script.check(1);
    script.call(0, 46, shared()).gives(255, 1);
    world(script, &empty_image_of(Kind::First, 3));
    script.check(0);
    script.call(0, 22, shared()).ok();
    script.call(0, 34, shared()).ok();
    script.call(0, 34, shared().record(8)).gives(2, 0);
    script.call(0, 46, shared()).fill(0xEE).tells(0);
    world(script, &[]);
    script.check(1);
    script.call(0, 46, shared()).gives(255, 1);
}

fn last_two_blocks(script: &mut Script) {
    for (function, rest) in [(34, 0xE5), (40, 0)] {
        // Blocks 2 and 3 are free. Records 5 to 7 take the one, 8 to 15 the other; 16 gets none.
        world(script, &empty_image_of(Kind::First, 4));
        script.call(0, 22, shared()).ok();
        let call = script.call(0, function, shared().record(5));
        call.count(16).rising(0x40).gives(2, 16 * 11);
        script.image_has(15, &[16, 2, 3, 0]);
        script.image_has(2048, &[rest; 5 * 128]);
        for (i, byte) in (5..16).zip(0x40..) {
            script.image_has(2048 + 128 * i, &[byte; 128]);
        }
    }
}

/// A call that is told the other kind is refused for the vector's length; with a vector that the
/// other kind has, for the image's.
fn told_the_other_kind(script: &mut Script, functions: &[u32]) {
    let (other, vector) = (script.kind.other(), script.stage.vector().to_vec());
    for function in functions {
        let call = script.call(0, *function, shared());
        call.kind(other.number()).gives(255, 13);
    }
    script.stage.damaged();
    script.stage.set_vector(&vec![0xC0; vector_length(other)]);
    for function in functions {
        let call = script.call(0, *function, shared());
        call.kind(other.number()).gives(255, 1);
    }
    script.stage.set_vector(&vector);
    script.stage.repaired();
}

/// Every function, on a sound book, is told the other kind and then none.
fn told_as_another(script: &mut Script) {
    let kind = script.kind.number();
    let book = Book::of(script.kind, 6).with(&[(Entry::named(FILE).count(1), &[(0, 2)])]);
    script.world(&book, [9, 9, 9]);
    script.call(0, 15, shared()).ok();
    script.check(0);
    script.check_told(1 - kind, 1);
    told_the_other_kind(script, &FUNCTIONS);
    for function in FUNCTIONS {
        for unknown in UNKNOWN_KINDS {
            script.call(0, function, shared()).kind(unknown).gives(255, 13);
        }
    }
    for unknown in UNKNOWN_KINDS {
        script.check_told(unknown, 1);
        script.look_told(unknown, 0, &name(FILE), 0, 0);
        script.starts_told(unknown, [9, 9, 9], &[0; 16], false);
    }
    script.look(0, &name(FILE), 0, book.record_at(2, 0));
    script.look_told(1 - kind, 0, &name(FILE), 0, 0);
    script.call(0, 33, shared()).ok();
}

fn lengths(script: &mut Script) {
    let right = [257 * 2048, 258 * 2048, 1_027 * 2048, 4_096 * 2048];
    let of_the_first_kind = [3 * 1024, 3 * 2048, 256 * 1024];
    let of_none = [
        0,
        257 * 1024,
        255 * 2048,
        256 * 2048,
        257 * 2048 - 1,
        257 * 2048 + 1,
        257 * 2048 + 1024,
        4_096 * 2048 + 1024,
        4_097 * 2048,
    ];
    for length in right {
        let free = (length / 2048 - 2) as u32;
        world(script, &vec![0xE5; length]);
        script.check(0);
        script.check_told(0, 1);
        script.call(0, 46, shared()).fill(0xEE).tells(16 * free);
        told_the_other_kind(script, &[46]);
        script.call(0, 22, shared()).ok();
        script.call(0, 40, shared().record(262_143)).ok();
        script.call(0, 46, shared()).fill(0xEE).tells(16 * (free - 1));
    }
    for length in of_the_first_kind.into_iter().chain(of_none) {
        world(script, &vec![0xE5; length]);
        script.check(1);
        script.check_told(0, u32::from(!of_the_first_kind.contains(&length)));
        script.look(0, &name(FILE), 0, 0);
        for function in [22, 33, 46, 143] {
            script.call(0, function, shared()).gives(255, 1);
        }
    }
}

/// Numbers whose bytes, taken alone or in the wrong order, are other blocks of the drive.
fn wide_numbers(script: &mut Script) {
    let numbers = [2, 256, 257, 0x0302, 1_023, 1_024, 0x0E0F, 4_095];
    let mut entry = Entry::named(FILE).count(128);
    for (index, block) in numbers.into_iter().enumerate() {
        entry = entry.wide_block(index, block);
    }
    let mut image = image_of(Kind::Second, 4_096, &[entry]);
    for (byte, block) in (1..).zip(numbers) {
        let at = 2048 * usize::from(block);
        image[at..at + 2048].fill(byte);
    }
    world(script, &image);
    script.call(0, 15, shared()).ok();
    script.call(0, 46, shared()).tells(16 * (4_094 - 8));
    for (index, block) in (0..).zip(numbers) {
        let (first, last) = (16 * index, 16 * index + 15);
        let byte = index as u8 + 1;
        let at = 2048 * usize::from(block);
        script.look(0, &name(FILE), first, at);
        script.look(0, &name(FILE), last, at + 15 * 128);
        let whole = shared().record(first);
        script
            .call(0, 33, whole)
            .count(16)
            .rising(0xC0)
            .reads(0, 0, &[byte; 16]);
        script.call(0, 41, shared().record(last)).records(byte, 0x60).ok();
        script.image_has(at + 15 * 128, &[0x60; 128]);
        script.call(0, 34, whole).count(15).rising(0x70).ok();
        script.image_has(at, &[0x70; 128]);
        script.image_has(at + 14 * 128, &[0x7E; 128]);
        script.call(0, 42, shared().record(last)).ok();
        script.call(0, 40, whole).count(16).rising(0x80).ok();
        script.image_has(at + 15 * 128, &[0x8F; 128]);
    }
    // The lowest free block is 3; nothing of the block numbers' bytes is in its way.
    script.call(0, 40, shared().record(128)).fill(0x99).ok();
    script.image_has(32 + 15, &[1, 3, 0, 0]);
    script.image_has(3 * 2048, &[0x99; 128]);
    script.image_has(3 * 2048 + 128, &[0; 15 * 128]);
}

/// Each number beside the drive's blocks, at the first and the last place of entry 1's map.
fn numbers_out_of_range(script: &mut Script) {
    let blocks = 258;
    let beside = |number: u16, index: usize| {
        let entry = Entry::named(FILE).wide_block(index, number);
        let other = Entry::named(OTHER).wide_block(3, 257);
        image_of(Kind::Second, blocks, &[other, entry])
    };
    for index in [0, 7] {
        for (number, code) in [
            (0, 0),
            (1, 5),
            (2, 0),
            (255, 0),
            (256, 0),
            (257, 6),
            (258, 5),
            (259, 5),
            (512, 5),
            (513, 5),
            (4_095, 5),
            (0x1002, 5),
            (0xF002, 5),
            (0xFF02, 5),
            (u16::MAX, 5),
        ] {
            world(script, &beside(number, index));
            match code {
                0 => {
                    script.check(0);
                    script.call(0, 46, shared()).ok();
                }
                _ => {
                    script.check(code + 256);
                    script.call(0, 46, shared()).gives(255, 1);
                }
            }
        }
    }
    let twice = Entry::named(FILE).wide_block(1, 256).wide_block(6, 256);
    world(script, &image_of(Kind::Second, blocks, &[twice]));
    script.check(6);
    // The same bytes at other places are other numbers: 0002, 0200 and 0202.
    let alike = Entry::named(FILE).wide_block(0, 2).wide_block(1, 0x0200);
    let image = image_of(Kind::Second, 600, &[alike.wide_block(2, 0x0202)]);
    world(script, &image);
    script.check(0);
    script.call(0, 46, shared()).tells(16 * (598 - 3));
}

fn upper_entries(script: &mut Script) {
    // Extent 0 stands last of all, and the entries below 64 belong to others.
    let mut image = empty_image_of(Kind::Second, 300);
    for slot in 0..64 {
        put_entry(&mut image, slot, Entry::of(9, name("FILLER"), slot as u32));
    }
    put_entry(&mut image, 127, Entry::named(FILE).count(16).wide_block(0, 299));
    world(script, &image);
    script.check(0);
    script.call(0, 15, shared()).ok();
    script.call(0, 33, shared().record(15)).ok();
    script.call(0, 46, shared()).tells(16 * (298 - 1));
    script.call(0, 22, Fcb::named(OTHER)).ok();
    script.image_has(64 * 32, &[0, b'O']);
    script.call(0, 34, shared().record(128)).fill(0x31).ok();
    script.image_has(65 * 32 + 12, &[1, 0, 0, 1, 2, 0]);
    script.call(0, 16, shared()).ok();
    script.call(0, 23, shared().new_name(name("RENAMED"))).ok();
    script.image_has(127 * 32 + 1, b"RENAMED ");
    script.call(0, 19, Fcb::named("RENAMED")).ok();
    script.image_has(127 * 32, &[0xE5]);
    script.image_has(65 * 32, &[0xE5]);
    script.call(0, 46, shared()).tells(16 * 298);
    // With one entry left, 127, a Make takes it, and the next one finds none.
    for slot in 66..127 {
        put_entry(&mut image, slot, Entry::of(9, name("FILLER"), slot as u32));
    }
    for slot in 64..66 {
        put_entry(&mut image, slot, Entry::of(9, name("FILLER"), slot as u32));
    }
    image[127 * 32] = 0xE5;
    world(script, &image);
    script.call(0, 22, shared()).ok();
    script.image_has(127 * 32, &[0, b'F']);
    script.call(0, 22, Fcb::named(OTHER)).gives(255, 0);
    script.call(0, 34, shared().record(128)).gives(5, 0);
    script.call(0, 34, shared().record(127)).ok();
}

/// 128 entries of eight numbers name 1,024 blocks: all of a drive of 1,026, and never all of one
/// of 1,027.
fn nameable_blocks(script: &mut Script) {
    for blocks in [1_026, 1_027] {
        let more = blocks - 1_026;
        let mut entries = vec![Entry::named(FILE)];
        let mut numbers = 2..;
        for slot in 0..127 {
            let mut entry = Entry::of(0, name(OTHER), slot);
            for (index, block) in (0..8).zip(&mut numbers) {
                entry = entry.wide_block(index, block);
            }
            entries.push(entry);
        }
        world(script, &image_of(Kind::Second, blocks, &entries));
        script.check(0);
        script.call(0, 15, shared()).ok();
        script.call(0, 46, shared()).tells(16 * (8 + more as u32));
        // The eight records take the blocks 1,018 to 1,025, and the maps are full.
        for (index, block) in (0..8).zip(1_018u16..) {
            let call = script.call(0, 40, shared().record(16 * index + 3));
            call.fill(index as u8).ok();
            script.image_has(16 + 2 * index as usize, &block.to_le_bytes());
        }
        script.call(0, 46, shared()).tells(16 * more as u32);
        script.call(0, 34, shared().record(128)).gives(5, 0);
        script
            .call(0, 40, shared().record(120))
            .count(16)
            .gives(5, 16 * 8);
        script.look(0, &name(FILE), 127, 1_025 * 2048 + 15 * 128);
    }
}
