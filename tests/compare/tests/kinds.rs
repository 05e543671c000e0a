//! Two kinds of drive: what the second one is, that neither is read as the other, and that the
//! comparison sees through engines which are wrong about it.

mod common;

use common::{split, World, KNOWN, OK};
use compare::build::{empty_image, empty_image_of, image_of, name, put_entry, Entry, Fcb, LIST, POSITIONS};
use compare::comparison::{keep_case, on_reference, read_case, Comparison};
use compare::deed::Deed;
use compare::engine::{Engine, Reference};
use compare::faults::{block_of, image_faults, reason_number, ImageRule};
use compare::generate::Generator;
use compare::stage::Made;
use compare::step::{Step, Told};
use reference::calls::{Buffers, Numbers};
use reference::kind::Kind;
use std::collections::BTreeSet;
use std::ops::Range;

const UNKNOWN_KINDS: [u32; 7] = [2, 3, 255, 256, 257, 1 << 31, u32::MAX];

fn file() -> Fcb {
    Fcb::named("FILE.DAT").unlocked()
}

/// A file with the blocks 256, 2 and 299 at the places 0, 1 and 7 of its map.
fn large_image() -> Vec<u8> {
    let entry = Entry::named("FILE.DAT").count(20).with(13, 5);
    let entry = entry.wide_block(0, 256).wide_block(1, 2).wide_block(7, 299);
    let mut image = image_of(Kind::Second, 300, &[entry]);
    for (block, byte) in [(256, 0x10), (2, 0x30), (299, 0x50)] {
        let records = image[2048 * block..2048 * (block + 1)].chunks_mut(128);
        for (record, byte) in records.zip(byte..) {
            record.fill(byte);
        }
    }
    image
}

fn opened() -> World {
    let mut world = World::large(large_image());
    world.must(0, 15, file());
    world
}

fn free_records(world: &mut World) -> u32 {
    world.must(0, 46, Fcb([9; 36]));
    u32::from_le_bytes([world.dma[0], world.dma[1], world.dma[2], 0])
}

#[test]
fn lengths_of_both_kinds() {
    for blocks in [257, 258, 1_027, 4_096] {
        let image = empty_image_of(Kind::Second, blocks);
        assert_eq!(
            (reference::check(1, 0, &image), reference::check(0, 0, &image)),
            (0, 1)
        );
        let mut world = World::large(image);
        assert_eq!(free_records(&mut world), 16 * (blocks as u32 - 2));
    }
    for blocks in [3, 4, 64, 255, 256] {
        let image = empty_image(blocks);
        assert_eq!(
            (reference::check(1, 0, &image), reference::check(0, 0, &image)),
            (1, 0)
        );
    }
    for length in [
        256 * 2048,
        257 * 2048 - 1,
        257 * 2048 + 1,
        257 * 2048 + 1024,
        4_097 * 2048,
        257 * 1024,
    ] {
        let image = vec![0xE5; length];
        assert_eq!(
            (reference::check(1, 0, &image), reference::check(0, 0, &image)),
            (1, 1)
        );
        assert_eq!(World::large(image).ask(0, 46, Fcb([0; 36])).go(), (255, 1));
    }
}

#[test]
fn no_length_is_of_both_kinds() {
    for blocks in 1..=5_000 {
        for length in [1_024 * blocks, 2_048 * blocks] {
            let of_first = Kind::First.blocks_of(length).is_some();
            let of_second = Kind::Second.blocks_of(length).is_some();
            assert!(!(of_first && of_second), "{length}");
        }
    }
}

#[test]
fn a_book_told_as_the_other_kind() {
    for function in KNOWN {
        let mut world = World::large(large_image());
        world.list[0] = 0;
        world.kind = 0;
        let wrong_drive = file().with(0, 9);
        assert_eq!(world.ask(0, function, wrong_drive).go(), (255, 1));
        let mut world = World::empty(4);
        world.list[0] = 0;
        world.kind = 1;
        assert_eq!(world.ask(0, function, wrong_drive).go(), (255, 1));
    }
}

#[test]
fn unknown_kinds() {
    for kind in UNKNOWN_KINDS {
        for image in [large_image(), empty_image(4), Vec::new()] {
            for function in KNOWN.into_iter().chain([0, 14, 271]) {
                let mut world = World::new(image.clone());
                world.kind = kind;
                assert_eq!(world.ask(99, function, file()).count(0).go(), (255, 13));
            }
            assert_eq!(reference::check(kind, 0, &image), 1);
            assert_eq!(reference::look(kind, 0, 0, &name("FILE.DAT"), 0, &image), None);
        }
        let mut list = vec![0xAA; LIST];
        let answer = reference::start(kind, 9, 9, 9, 0, &[0; 16], &mut list);
        assert_eq!(split(answer), (255, 13));
        assert_eq!(list, [0xAA; LIST]);
    }
}

#[test]
fn start_differs_in_the_positions_alone() {
    let mut lists = [vec![0xAA; LIST], vec![0x55; LIST]];
    for (kind, list) in (0..).zip(&mut lists) {
        assert_eq!(reference::start(kind, 3, 2, 1, 0, &[7; 16], list), 0);
    }
    assert_eq!(lists[0][..1299], lists[1][..1299]);
    assert_eq!(lists[0][1299..1315], [64; 16]);
    assert_eq!(lists[1][1299..1315], [128; 16]);
    assert_eq!(lists[0][1315..], lists[1][1315..]);
}

/// The list has no mark of its kind: 64 is no end there, and 128 is none here.
#[test]
fn a_list_started_for_the_other_kind() {
    let entries = [(63, "BEFORE"), (64, "AT.64"), (127, "LAST")];
    let mut image = empty_image_of(Kind::Second, 257);
    for (slot, text) in entries {
        put_entry(&mut image, slot, Entry::named(text));
    }
    let all = Fcb::of([b'?'; 11]);
    let mut world = World::large(image);
    world.list[1299..1315].fill(64);
    assert_eq!(world.ask(3, 18, all).go(), (0, 0));
    assert_eq!(world.dma[1..6], *b"AT   ");
    assert_eq!(world.list[1299 + 3], 65);
    assert_eq!(world.ask(3, 18, all).go(), (3, 0));
    assert_eq!(world.list[1299 + 3], 128);
    assert_eq!(world.ask(3, 18, all).go(), (255, 0));
    assert_eq!(world.ask(4, 143, all).go(), OK);
    assert_eq!(world.list[1299 + 4], 128);
    for position in [65, 127, 128] {
        let mut world = World::empty(3);
        world.list[1299 + 9] = position;
        assert_eq!(world.ask(0, 46, all).go(), (255, 12));
    }
}

#[test]
fn open_gives_the_map_bytes_as_they_stand() {
    let world = opened();
    assert_eq!(world.fcb[12..16], [0, 0, 0, 20]);
    assert_eq!(world.fcb[16..20], [0, 1, 2, 0]);
    assert_eq!(world.fcb[20..30], [0; 10]);
    assert_eq!(world.fcb[30..32], [0x2B, 1]);
}

#[test]
fn records_lie_sixteen_to_a_block() {
    let mut world = opened();
    for (record, byte) in [
        (0, 0x10),
        (15, 0x1F),
        (16, 0x30),
        (31, 0x3F),
        (112, 0x50),
        (127, 0x5F),
    ] {
        assert_eq!(world.ask(0, 33, file().record(record)).go(), OK);
        assert_eq!(world.dma[..128], [byte; 128], "record {record}");
    }
    for record in [32, 47, 48, 111] {
        assert_eq!(world.ask(0, 33, file().record(record)).go(), (1, 0));
    }
    let look = |record| reference::look(1, 0, 0, &name("FILE.DAT"), record, &world.image);
    assert_eq!(look(15), Some(256 * 2048 + 15 * 128));
    assert_eq!(look(16), Some(2 * 2048));
    assert_eq!(look(32), None);
    assert_eq!(look(127), Some(299 * 2048 + 15 * 128));
}

#[test]
fn a_run_over_the_end_of_a_block() {
    let mut world = opened();
    assert_eq!(world.ask(0, 33, file().record(10)).count(16).go(), OK);
    let read: Vec<u8> = world.dma.chunks(128).map(|record| record[0]).collect();
    assert_eq!(
        read,
        [0x1A, 0x1B, 0x1C, 0x1D, 0x1E, 0x1F, 0x30, 0x31, 0x32, 0x33, 0x34, 0x35, 0x36, 0x37, 0x38, 0x39]
    );
    assert_eq!(world.ask(0, 33, file().record(20)).count(16).go(), (1, 16 * 12));
}

#[test]
fn a_new_block_is_the_lowest_free_one_and_40_clears_the_other_fifteen() {
    for (function, rest) in [(34, 0xE5), (40, 0)] {
        let mut world = opened();
        let mut wanted = world.clone();
        wanted.image[15] = 38;
        wanted.image[20..22].copy_from_slice(&[3, 0]);
        let block = &mut wanted.image[3 * 2048..4 * 2048];
        block.fill(rest);
        block[5 * 128..6 * 128].fill(0x77);
        assert_eq!(world.ask(0, function, file().record(37)).fill(0x77).go(), OK);
        assert!(world.image == wanted.image && world.list == wanted.list);
    }
}

#[test]
fn a_number_above_255_is_taken_when_the_lower_ones_are() {
    let mut entries = vec![Entry::named("FILE.DAT")];
    let mut taken = 2..300;
    for extent in 0..32 {
        let mut entry = Entry::of(3, name("OTHER"), extent);
        for (index, block) in (0..8).zip(&mut taken) {
            entry = entry.wide_block(index, block);
        }
        entries.push(entry);
    }
    // 2 to 257 are taken.
    let mut world = World::large(image_of(Kind::Second, 300, &entries));
    world.must(0, 15, file());
    assert_eq!(free_records(&mut world), 16 * 42);
    world.must(0, 34, file().record(16));
    assert_eq!(world.entry(0)[16..20], [0, 0, 2, 1]);
    assert_eq!(free_records(&mut world), 16 * 41);
}

#[test]
fn locks_have_blocks_of_sixteen() {
    let mut world = opened();
    assert_eq!(world.ask(0, 42, file()).count(16).go(), OK);
    assert_eq!(world.ask(0, 42, file().record(17)).count(16).go(), (1, 0));
    // The same list beside the same book told as the first kind: the image comes first.
    world.kind = 0;
    assert_eq!(world.ask(0, 43, file()).count(16).go(), (255, 1));
}

/// The bad entry, if a rule is broken, is the last of those that are used.
fn assert_faults(image: Vec<u8>, rules: &[ImageRule]) {
    let wanted: BTreeSet<ImageRule> = rules.iter().copied().collect();
    assert_eq!(image_faults(Kind::Second, &image), wanted);
    let last = (0..128).rev().find(|slot| image[32 * slot] != 0xE5);
    let answer = match rules {
        [] => 0,
        [rule, ..] => reason_number(*rule) + 256 * last.unwrap() as u32,
    };
    assert_eq!(reference::check(1, 0, &image), answer);
    let answer = World::large(image).ask(0, 46, Fcb([0; 36])).go();
    assert_eq!(answer, if rules.is_empty() { OK } else { (255, 1) });
}

#[test]
fn numbers_out_of_range() {
    for index in 0..8 {
        let with = |block| {
            let entry = Entry::named("A").wide_block(index, block);
            image_of(Kind::Second, 258, &[entry])
        };
        for block in [0, 2, 255, 256, 257] {
            assert_faults(with(block), &[]);
        }
        for block in [
            1,
            258,
            259,
            511,
            512,
            4_095,
            4_096,
            0x1002,
            0x0201,
            0xFF02,
            u16::MAX,
        ] {
            assert_faults(with(block), &[ImageRule::MapRange]);
        }
    }
    let last = |block| image_of(Kind::Second, 4_096, &[Entry::named("A").wide_block(7, block)]);
    assert_faults(last(4_095), &[]);
    assert_faults(last(4_096), &[ImageRule::MapRange]);
}

#[test]
fn numbers_twice() {
    let one = Entry::named("A").wide_block(0, 256).wide_block(5, 256);
    assert_faults(image_of(Kind::Second, 300, &[one]), &[ImageRule::BlockTwice]);
    // Between an entry of the lower and the last one of the upper half.
    let mut image = image_of(Kind::Second, 300, &[Entry::named("A").wide_block(2, 299)]);
    put_entry(&mut image, 127, Entry::named("B").wide_block(4, 299));
    assert_faults(image.clone(), &[ImageRule::BlockTwice]);
    put_entry(&mut image, 127, Entry::named("B").wide_block(4, 43));
    assert_faults(image, &[]);
}

#[test]
fn every_entry_to_127_is_read() {
    for slot in [0, 63, 64, 65, 126, 127] {
        let mut image = empty_image_of(Kind::Second, 257);
        put_entry(&mut image, slot, Entry::named("FILE.DAT").user(16));
        assert_faults(image.clone(), &[ImageRule::User]);
        put_entry(&mut image, slot, Entry::named("FILE.DAT"));
        let mut world = World::large(image);
        world.must(0, 15, file());
        world.must(0, 34, file().record(15));
        assert_eq!(world.entry(slot)[15..19], [16, 2, 0, 0]);
    }
    let mut image = empty_image_of(Kind::Second, 257);
    image[4096] = 99;
    assert_faults(image, &[]);
}

/// What an engine can take for the rules of the second kind.
#[derive(Clone, Copy, Debug, PartialEq, Eq)]
enum Wrong {
    UnknownKindIs1,
    KindIsTheLengths,
    KindIsAByte,
    StartForgetsTheKind,
    Takes4097Blocks,
    Takes256Blocks,
    EightRecordsToABlock,
    ClearsSevenRecords,
    ReadsTheLowByte,
    ReadsTheHighByteFirst,
    ReadsSixteenNumbers,
    StoresTheLowByte,
    OpenGivesSixteenNumbers,
    Checks64Entries,
    ChecksTheLowByte,
    ChecksTwelveBits,
    LooksAtTheLowByte,
    LookTakesUnknownKinds,
    WritesFarAway,
    StartWrites64,
    NoMatchLeaves64,
    TerminateLeaves64,
    Searches64Entries,
}

const ALL_WRONG: [Wrong; 23] = [
    Wrong::UnknownKindIs1,
    Wrong::KindIsTheLengths,
    Wrong::KindIsAByte,
    Wrong::StartForgetsTheKind,
    Wrong::Takes4097Blocks,
    Wrong::Takes256Blocks,
    Wrong::EightRecordsToABlock,
    Wrong::ClearsSevenRecords,
    Wrong::ReadsTheLowByte,
    Wrong::ReadsTheHighByteFirst,
    Wrong::ReadsSixteenNumbers,
    Wrong::StoresTheLowByte,
    Wrong::OpenGivesSixteenNumbers,
    Wrong::Checks64Entries,
    Wrong::ChecksTheLowByte,
    Wrong::ChecksTwelveBits,
    Wrong::LooksAtTheLowByte,
    Wrong::LookTakesUnknownKinds,
    Wrong::WritesFarAway,
    Wrong::StartWrites64,
    Wrong::NoMatchLeaves64,
    Wrong::TerminateLeaves64,
    Wrong::Searches64Entries,
];

impl Wrong {
    fn kind(self, kind: u32, image: &[u8]) -> u32 {
        match self {
            Wrong::UnknownKindIs1 => kind.min(1),
            Wrong::KindIsTheLengths if kind < 2 => u32::from(image.len() >= 257 * 2048),
            Wrong::KindIsAByte => kind % 256,
            _ => kind,
        }
    }

    /// The part of the image that the engine takes for the whole of it.
    fn part(self, kind: u32, image: &[u8]) -> Range<usize> {
        match self {
            Wrong::Takes4097Blocks if kind == 1 && image.len() == 4_097 * 2048 => 0..4_096 * 2048,
            _ => 0..image.len(),
        }
    }
}

/// The reference, but for one thing.
struct WrongEngine(Wrong);

/// A call that was done, to be spoilt.
struct Spoilt<'a> {
    numbers: Numbers,
    before: &'a [u8],
    buffers: Buffers<'a>,
}

impl Spoilt<'_> {
    fn record(&self) -> u32 {
        let fcb = &self.buffers.fcb;
        u32::from_le_bytes([fcb[33], fcb[34], fcb[35], 0])
    }

    fn block(&self, image: &[u8]) -> u16 {
        let user = self.buffers.list[3 + self.numbers.process as usize];
        let name = &self.buffers.fcb[1..12];
        block_of(Kind::Second, user, name, self.record(), image)
    }

    /// A 33 that has read the first record from this block.
    fn read_from(&mut self, block: u16) {
        let at = 2048 * usize::from(block) + 128 * (self.record() % 16) as usize;
        if let Some(bytes) = self.buffers.image.get(at..at + 128) {
            self.buffers.dma[..128].copy_from_slice(bytes);
        }
    }

    /// A 40 that has cleared no more than the eight records round its own.
    fn clear_seven(&mut self) {
        let block = self.block(self.buffers.image);
        if self.block(self.before) != 0 || self.numbers.count > 1 {
            return;
        }
        let half = usize::from(self.record() % 16 < 8);
        let at = 2048 * usize::from(block) + 1024 * half;
        self.buffers.image[at..at + 1024].copy_from_slice(&self.before[at..at + 1024]);
    }

    /// Block numbers that were taken lose their high bytes.
    fn store_low_bytes(&mut self) {
        for at in (0..4096).filter(|at| at % 32 >= 16 && at % 2 == 1) {
            if self.buffers.image[at] != self.before[at] {
                self.buffers.image[at] = 0;
            }
        }
    }

    fn position(&mut self) -> &mut u8 {
        &mut self.buffers.list[POSITIONS][self.numbers.process as usize]
    }

    fn spoil(&mut self, wrong: Wrong) {
        let block = self.block(self.buffers.image);
        match (wrong, self.numbers.function) {
            (Wrong::EightRecordsToABlock, 46) => {
                let dma = &mut self.buffers.dma;
                let records = u32::from_le_bytes([dma[0], dma[1], dma[2], 0]);
                dma[..3].copy_from_slice(&(records / 2).to_le_bytes()[..3]);
            }
            (Wrong::ClearsSevenRecords, 40) => self.clear_seven(),
            (Wrong::ReadsTheLowByte, 33) => self.read_from(block % 256),
            (Wrong::ReadsTheHighByteFirst, 33) => self.read_from(block.swap_bytes()),
            (Wrong::ReadsSixteenNumbers, 33) => {
                let [low, high] = block.to_le_bytes();
                let number = if self.record() % 16 < 8 { low } else { high };
                self.read_from(number.into());
            }
            (Wrong::StoresTheLowByte, 34 | 40) => self.store_low_bytes(),
            (Wrong::OpenGivesSixteenNumbers, 15) => {
                let map = &mut self.buffers.fcb[16..32];
                for i in 0..8 {
                    map[i] = map[2 * i];
                }
                map[8..].fill(0);
            }
            (Wrong::NoMatchLeaves64, 17 | 18) | (Wrong::TerminateLeaves64, 143) => {
                let position = self.position();
                if *position == 128 {
                    *position = 64;
                }
            }
            (Wrong::Searches64Entries, 17 | 18) => {
                let position = self.position();
                if *position > 64 {
                    *position = 128;
                }
            }
            (Wrong::WritesFarAway, 46) => {
                if let Some(byte) = self.buffers.image.last_mut() {
                    *byte ^= 1;
                }
            }
            _ => {}
        }
    }
}

impl Engine for WrongEngine {
    fn start(&mut self, kind: u32, numbers: [u32; 4], users: &mut [u8], list: &mut [u8]) -> u32 {
        let kind = match self.0 {
            Wrong::StartForgetsTheKind if kind > 1 => 0,
            Wrong::StartWrites64 if kind == 1 => 0,
            _ => kind,
        };
        Reference::default().start(kind, numbers, users, list)
    }

    fn check(&mut self, told: Told, image: &mut [u8]) -> u32 {
        let part = self.0.part(told.kind, image);
        let kind = self.0.kind(told.kind, image);
        let told = Told { kind, ..told };
        let answer = Reference::default().check(told, &mut image[part]);
        if kind != 1 || answer < 2 {
            return answer;
        }
        let mut copy = image.to_vec();
        match self.0 {
            Wrong::Checks64Entries => copy[2048..4096].fill(0xE5),
            Wrong::ChecksTheLowByte => mask_high_bytes(&mut copy, 0),
            Wrong::ChecksTwelveBits => mask_high_bytes(&mut copy, 0x0F),
            _ => {}
        }
        reference::check(kind, told.rule, &copy)
    }

    fn look(&mut self, told: Told, user: u32, name: &mut [u8], record: u32, image: &mut [u8]) -> u32 {
        let kind = match self.0 {
            Wrong::LookTakesUnknownKinds if told.kind > 1 => 1,
            _ => self.0.kind(told.kind, image),
        };
        let told = Told { kind, ..told };
        let at = Reference::default().look(told, user, name, record, image);
        match self.0 {
            Wrong::LooksAtTheLowByte if kind == 1 => at % (256 * 2048),
            _ => at,
        }
    }

    fn vector(&mut self, told: Told, image: &mut [u8], vector: &mut [u8]) -> u32 {
        Reference::default().vector(told, image, vector)
    }

    fn call(&mut self, numbers: Numbers, buffers: Buffers) -> u32 {
        let Buffers {
            fcb,
            dma,
            list,
            image,
            vector,
        } = buffers;
        if self.0 == Wrong::Takes256Blocks && numbers.kind == 1 && image.len() == 256 * 2048 {
            return 0;
        }
        let part = self.0.part(numbers.kind, image);
        let kind = self.0.kind(numbers.kind, image);
        let before = image.to_vec();
        let told = Numbers { kind, ..numbers };
        let lent = Buffers {
            fcb: &mut *fcb,
            dma: &mut *dma,
            list: &mut *list,
            image: &mut image[part],
            vector: &mut *vector,
        };
        let answer = Reference::default().call(told, lent);
        if numbers.kind == 1 && Deed::of_call(numbers, answer).is_accepted() {
            let buffers = Buffers {
                fcb,
                dma,
                list,
                image,
                vector,
            };
            let mut spoilt = Spoilt {
                numbers,
                before: &before,
                buffers,
            };
            spoilt.spoil(self.0);
        }
        answer
    }
}

/// The high bytes of all block numbers of two bytes keep only these bits.
fn mask_high_bytes(image: &mut [u8], bits: u8) {
    for entry in image[..4096].chunks_mut(32).filter(|entry| entry[0] != 0xE5) {
        for at in (17..32).step_by(2) {
            entry[at] &= bits;
        }
    }
}

fn unseen<'a>(runs: impl Iterator<Item = &'a [Made]> + Clone) -> Vec<Wrong> {
    let is_unseen = |wrong: &Wrong| {
        let mut engine = WrongEngine(*wrong);
        let mut comparison = Comparison::new(&mut engine);
        !runs.clone().any(|made| comparison.run(made).is_some())
    };
    ALL_WRONG.into_iter().filter(is_unseen).collect()
}

#[test]
fn the_named_cases_see_every_wrong_engine() {
    let mut cases = Generator::new(11).named();
    cases.retain(|(case, _)| case.ends_with("kind 1"));
    assert_eq!(unseen(cases.iter().map(|(_, made)| &made[..])), []);
}

#[test]
fn chance_sees_every_wrong_engine() {
    let mut generator = Generator::new(12);
    let sessions: Vec<_> = (0..160).map(|_| generator.session_of(Kind::Second)).collect();
    assert_eq!(unseen(sessions.iter().map(|made| &made[..])), []);
}

/// What only the comparison of the whole image sees is found again step by step.
#[test]
fn a_write_far_away_is_traced_to_its_step() {
    let folder = std::env::temp_dir().join(format!("mpm-far-away-{}", std::process::id()));
    let mut generator = Generator::new(13);
    let mut engine = WrongEngine(Wrong::WritesFarAway);
    let mut comparison = Comparison::new(&mut engine);
    let (made, difference) = std::iter::repeat_with(|| generator.session_of(Kind::Second))
        .find_map(|made| comparison.run(&made).map(|difference| (made, difference)))
        .unwrap();
    assert_eq!(made[difference.index].step, Step::Whole);
    keep_case(&folder, &made, &difference).unwrap();
    for file in ["single.case", "trace.case"] {
        let again = on_reference(read_case(&folder.join(file)).unwrap());
        assert!(Comparison::new(&mut Reference::default()).run(&again).is_none());
        let mut engine = WrongEngine(Wrong::WritesFarAway);
        let found = Comparison::new(&mut engine).run(&again).unwrap();
        assert_eq!(again[found.index].step, Step::Whole);
        let culprit = &again[found.index - 1].step;
        assert!(
            matches!(culprit, Step::Call { numbers, .. } if numbers.function == 46),
            "{file}"
        );
    }
    std::fs::remove_dir_all(&folder).unwrap();
}
