//! Named cases of the allocation vector: its bits, what calls make of them, and vectors that disagree.

use crate::build::{empty_image_of, image_of, name, Entry, Fcb};
use crate::coverage::FUNCTIONS;
use crate::damage::break_vector;
use crate::faults::{vector_length, VectorRule};
use crate::named::{Play, Script};
use crate::step::Step;
use reference::kind::Kind;

/// Played on drives of both kinds.
pub const CASES: [(&str, Play); 6] = [
    ("the bits of a vector", bits),
    ("building a vector", building),
    ("calls keep the vector", calls_keep_it),
    ("runs keep the vector", runs_keep_it),
    ("every block's bit is set and cleared", every_block),
    ("a vector that disagrees, for each call", disagreeing),
];

const FILE: &str = "FILE.DAT";
const OTHER: &str = "OTHER.DAT";

fn file() -> Fcb {
    Fcb::named(FILE).unlocked()
}

fn other() -> Fcb {
    Fcb::named(OTHER).unlocked()
}

/// The vector of a drive with these data blocks used, written out bit by bit.
fn vector_with(kind: Kind, used: &[usize]) -> Vec<u8> {
    let is_set = |block: usize| block < 2 || used.contains(&block);
    (0..vector_length(kind))
        .map(|byte| (0..8).fold(0, |bits, place| 2 * bits + u8::from(is_set(8 * byte + place))))
        .collect()
}

impl Script<'_> {
    /// Exactly these data blocks are used, by the vector.
    fn vector_has(&mut self, used: &[usize]) {
        let wanted = vector_with(self.kind, used);
        if self.stage.vector() != wanted {
            let fault = format!("the vector does not tell {used:?}");
            self.complain(&fault);
        }
    }

    fn builds(&mut self, kind: u32, a: u8, h: u8) {
        let before = self.stage.vector().to_vec();
        let told = self.told(kind);
        let reply = self.stage.serve(Step::Build { told });
        let answer = reply.map(|reply| reply.answer);
        if answer != Some(u32::from(a) + 256 * u32::from(h)) {
            self.complain(&format!("building for kind {kind} gave {answer:?}, not {a}/{h}"));
        }
        if a != 0 && self.stage.vector() != before {
            self.complain("building was refused and changed the vector");
        }
    }

    /// By hand; from here on no history speaks of it.
    fn puts_vector(&mut self, vector: &[u8]) {
        self.stage.damaged();
        self.stage.set_vector(vector);
    }
}

/// An image of so many blocks with one file that has these.
fn image_using(kind: Kind, blocks: usize, used: &[u16]) -> Vec<u8> {
    let entries: Vec<Entry> = (0..)
        .zip(used.chunks(kind.numbers_per_entry()))
        .map(|(extent, numbers)| {
            let entry = Entry::named(FILE).extent(extent);
            let numbers = numbers.iter().enumerate();
            numbers.fold(entry, |entry, (index, block)| entry.block_of(kind, index, *block))
        })
        .collect();
    match used {
        [] => empty_image_of(kind, blocks),
        _ => image_of(kind, blocks, &entries),
    }
}

fn some_blocks(kind: Kind) -> &'static [u16] {
    match kind {
        Kind::First => &[2, 3, 7, 8, 9, 15, 16, 31, 32, 127, 128, 254, 255],
        Kind::Second => &[
            2, 7, 8, 255, 256, 257, 511, 1_023, 1_024, 2_047, 2_048, 4_094, 4_095,
        ],
    }
}

/// Each block alone, all of some together, and the whole drive.
fn bits(script: &mut Script) {
    let kind = script.kind;
    let (fewest, most) = (kind.fewest_blocks(), kind.most_blocks());
    let empty_and_built = |script: &mut Script, blocks: usize, used: &[u16]| {
        script.world_on(&image_using(kind, blocks, used), [9, 9, 9], [0; 16]);
        script.call(0, 46, file()).ok();
        let used: Vec<usize> = used.iter().map(|block| usize::from(*block)).collect();
        script.vector_has(&used);
    };
    empty_and_built(script, fewest, &[]);
    empty_and_built(script, most, &[]);
    empty_and_built(script, fewest, &[fewest as u16 - 1]);
    for block in some_blocks(kind) {
        let blocks = fewest.max(usize::from(*block) + 1);
        empty_and_built(script, blocks, &[*block]);
    }
    empty_and_built(script, most, some_blocks(kind));
    // A number that no entry names any more is free, whatever stands in the empty entry.
    let mut image = image_using(kind, fewest, &[2]);
    image[0] = 0xE5;
    script.world_on(&image, [9, 9, 9], [0; 16]);
    script.call(0, 46, file()).ok();
    script.vector_has(&[]);
}

fn building(script: &mut Script) {
    let (kind, number) = (script.kind, script.kind.number());
    let (right, wrong) = (vector_length(kind), vector_length(kind.other()));
    let sound = image_using(kind, kind.fewest_blocks(), &[2]);
    script.world_on(&sound, [9, 9, 9], [0; 16]);
    script.stage.damaged();
    for fill in [0, 0xFF, 0xA5] {
        script.puts_vector(&vec![fill; right]);
        script.builds(number, 0, 0);
        script.vector_has(&[2]);
    }
    for length in [0, 1, right - 1, right + 1, 2 * right, wrong] {
        script.puts_vector(&vec![0x5A; length]);
        script.builds(number, 255, 13);
    }
    // The other kind's length is right, its image not.
    script.puts_vector(&vec![0x5A; wrong]);
    script.builds(kind.other().number(), 255, 1);
    script.puts_vector(&vec![0x5A; right]);
    for unknown in [2, 255, 256, 257, 1 << 31, u32::MAX] {
        script.builds(unknown, 255, 13);
    }
    for image in [&sound[..sound.len() - 1], &[0x77; 4_096], &[]] {
        script.stage.set_image(image, 0xE5);
        script.builds(number, 255, 1);
        script.puts_vector(&vec![0x5A; right - 1]);
        script.builds(number, 255, 13);
        script.puts_vector(&vec![0x5A; right]);
        script.builds(number, 255, 1);
    }
    let mut unsound = sound.clone();
    unsound[14] = 64;
    script.stage.set_image(&unsound, 0xE5);
    script.builds(number, 255, 1);
}

fn calls_keep_it(script: &mut Script) {
    let (kind, size) = (script.kind, script.kind.records_per_block());
    let blocks = kind.fewest_blocks().max(12);
    script.world_on(&empty_image_of(kind, blocks), [9, 9, 9], [0; 16]);
    script.call(1, 22, file()).ok();
    script.vector_has(&[]);
    script.call(1, 34, file().record(3)).ok();
    script.vector_has(&[2]);
    script.call(1, 34, file().record(4)).ok();
    script.vector_has(&[2]);
    script.call(1, 40, file().record(128)).ok();
    script.vector_has(&[2, 3]);
    script.call(1, 41, file().record(3)).ok();
    script.call(2, 22, other()).ok();
    for (record, block) in [(0, 4), (size, 5), (4_096, 6), (262_143, 7)] {
        script.call(2, 34, other().record(record)).ok();
        script.vector_has(&(2..=block).collect::<Vec<usize>>());
    }
    script.call(1, 42, file().record(3)).ok();
    script.call(1, 43, file().record(3)).ok();
    script.call(0, 35, file()).ok();
    script.call(0, 17, file()).ok();
    script.call(0, 33, file()).gives(10, 0);
    script.vector_has(&[2, 3, 4, 5, 6, 7]);
    // The entries go, and with them the blocks; the lowest free ones are taken again.
    script.call(1, 19, file()).ok();
    script.vector_has(&[4, 5, 6, 7]);
    script.call(2, 34, other().record(128)).ok();
    script.vector_has(&[2, 4, 5, 6, 7]);
    script.call(2, 16, other()).ok();
    script.call(2, 23, other().new_name(name(FILE))).ok();
    script.vector_has(&[2, 4, 5, 6, 7]);
    script.call(0, 46, file()).tells((blocks as u32 - 7) * size);
    script.call(3, 15, file().read_only()).ok();
    script.call(3, 143, file()).ok();
    script.call(3, 19, file()).ok();
    script.vector_has(&[]);
}

/// A run that takes blocks keeps its vector record by record, also where it stops.
fn runs_keep_it(script: &mut Script) {
    let (kind, size) = (script.kind, script.kind.records_per_block());
    let blocks = kind.fewest_blocks();
    let taken: Vec<u16> = (5..blocks as u16).collect();
    let image = match kind {
        Kind::First => empty_image_of(kind, 5),
        Kind::Second => image_using(kind, blocks, &taken),
    };
    let others: Vec<usize> = match kind {
        Kind::First => Vec::new(),
        Kind::Second => taken.iter().map(|block| usize::from(*block)).collect(),
    };
    let with = |own: &[usize]| [own, &others].concat();
    for function in [34, 40] {
        script.world_on(&image, [9, 9, 9], [0; 16]);
        script.call(1, 22, other()).ok();
        let run = other().record(size - 2);
        script.call(1, function, run).count(4).ok();
        script.vector_has(&with(&[2, 3]));
        // The last block is taken, then none is free: two records done.
        let last = other().record(2 * size);
        script.call(1, function, last).count(2).ok();
        script.vector_has(&with(&[2, 3, 4]));
        script.call(1, 19, other()).ok();
        script.vector_has(&with(&[]));
        script.call(1, 22, other()).ok();
        let two_extents = other().record(128 * 3 - 2);
        script.call(1, function, two_extents).count(4).ok();
        script.vector_has(&with(&[2, 3]));
        let stopped = other().record(4 * 128 + size - 1);
        script.call(1, function, stopped).count(9).gives(2, 16);
        script.vector_has(&with(&[2, 3, 4]));
        let nowhere = other().record(1_000);
        script.call(1, function, nowhere).count(9).gives(2, 0);
        script.vector_has(&with(&[2, 3, 4]));
        script.call(0, 46, other()).tells(0);
    }
}

/// All blocks of a drive, one after the other.
fn every_block(script: &mut Script) {
    let (kind, size) = (script.kind, script.kind.records_per_block());
    let blocks = match kind {
        Kind::First => 256,
        Kind::Second => 300,
    };
    for function in [34, 40] {
        script.world_on(&empty_image_of(kind, blocks), [9, 9, 9], [0; 16]);
        script.call(1, 22, file()).ok();
        for block in 2..blocks {
            let record = size * (block as u32 - 2);
            script.call(1, function, file().record(record)).ok();
            if block % 37 == 2 || block + 1 == blocks {
                script.vector_has(&(2..=block).collect::<Vec<usize>>());
            }
        }
        let record = size * blocks as u32;
        script.call(1, function, file().record(record)).gives(2, 0);
        script.call(1, 46, file()).tells(0);
        script.call(1, 19, file()).ok();
        script.vector_has(&[]);
    }
}

/// Each bit that is wrong, behind what is refused first and before what is refused later.
fn disagreeing(script: &mut Script) {
    let (kind, number) = (script.kind, script.kind.number());
    let image = image_using(kind, kind.fewest_blocks() + 2, &[3]);
    script.world_on(&image, [9, 9, 9], [0; 16]);
    script.call(1, 15, file()).ok();
    let (vector, list) = (script.stage.vector().to_vec(), script.stage.list().to_vec());
    let wrong_drive = file().with(0, 2);
    for rule in VectorRule::ALL {
        let Some(damaged) = break_vector(rule, kind, &vector, &image, script.random) else {
            script.complain(&format!("{rule:?} cannot be broken"));
            continue;
        };
        script.stage.coverage.note_vector_rule(kind, rule);
        script.puts_vector(&damaged);
        for function in FUNCTIONS {
            script.call(1, function, file()).count(2).gives(255, 14);
            script.call(1, function, wrong_drive).gives(255, 14);
            script.call(16, function, wrong_drive).gives(255, 13);
        }
        script.puts_vector(&vector);
    }
    let mut low_bit_first = vector.clone();
    low_bit_first
        .iter_mut()
        .for_each(|byte| *byte = byte.reverse_bits());
    for wrong in [vec![0; vector.len()], vec![0xFF; vector.len()], low_bit_first] {
        script.puts_vector(&wrong);
        script.call(1, 46, file()).gives(255, 14);
        script.call(1, 143, file()).gives(255, 14);
        script.stage.serve(Step::PatchList {
            at: 0,
            bytes: vec![65],
        });
        script.call(1, 46, wrong_drive).gives(255, 12);
        script.stage.set_list(&list);
    }
    for length in [0, vector.len() - 1, vector.len() + 1, vector_length(kind.other())] {
        script.puts_vector(&vec![0; length]);
        for function in FUNCTIONS {
            script.call(1, function, wrong_drive).gives(255, 13);
        }
        script
            .call(1, 46, file())
            .kind(kind.other().number())
            .gives(255, other_answer(length, kind));
    }
    script.puts_vector(&vector);
    script.builds(number, 0, 0);
    script.stage.repaired();
    script.call(1, 16, file()).ok();
}

/// A vector of the other kind's length is right for a call that is told this kind, and its image is not.
fn other_answer(length: usize, kind: Kind) -> u8 {
    match length == vector_length(kind.other()) {
        true => 1,
        false => 13,
    }
}
