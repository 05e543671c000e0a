//! The allocation vector: its bits, what calls leave of it, the order of its refusals, the routine that
//! builds it; and engines that are wrong about it in one place, all of which the comparison sees.

mod common;

use common::{right_vector, split, World, KNOWN, OK};
use compare::build::{empty_image_of, image_of, name, put_entry, Entry, Fcb};
use compare::comparison::Comparison;
use compare::deed::Deed;
use compare::engine::{Engine, Reference};
use compare::faults::{image_faults, vector_faults, vector_of, VectorRule};
use compare::generate::Generator;
use compare::stage::Made;
use compare::step::Told;
use reference::calls::{Buffers, Numbers};
use reference::kind::Kind;

const BAD_CALL: u32 = 255 + 256 * 13;
const BAD_IMAGE: u32 = 255 + 256;
const BAD_LIST: u32 = 255 + 256 * 12;
const BAD_VECTOR: u32 = 255 + 256 * 14;
const BAD_DRIVE: u32 = 255 + 256 * 4;

fn file() -> Fcb {
    Fcb::named("FILE.DAT").unlocked()
}

fn length(kind: Kind) -> usize {
    match kind {
        Kind::First => 32,
        Kind::Second => 512,
    }
}

fn build(kind: Kind, image: &[u8]) -> Vec<u8> {
    let mut vector = vec![0xA5; length(kind)];
    assert_eq!(reference::vector(kind.number(), 0, image, &mut vector), 0);
    vector
}

fn world(kind: Kind, image: Vec<u8>) -> World {
    World::of_kind(kind.number(), image, [9, 9, 9], [0; 16])
}

#[test]
fn the_high_bit_of_byte_0_is_block_0() {
    let entry = Entry::named("FILE.DAT").block(0, 3).block(5, 8).block(15, 255);
    let vector = build(Kind::First, &image_of(Kind::First, 256, &[entry]));
    assert_eq!(vector[..2], [0b1101_0000, 0b1000_0000]);
    assert_eq!(vector[31], 1);
    assert!(vector[2..31].iter().all(|&byte| byte == 0));
    let entry = Entry::named("FILE.DAT")
        .wide_block(0, 256)
        .wide_block(7, 4_095)
        .wide_block(3, 14);
    let vector = build(Kind::Second, &image_of(Kind::Second, 4_096, &[entry]));
    assert_eq!(vector[..3], [0b1100_0000, 0b0000_0010, 0]);
    assert_eq!((vector[32], vector[511]), (0b1000_0000, 1));
    assert_eq!(vector.iter().map(|byte| byte.count_ones()).sum::<u32>(), 5);
}

#[test]
fn bits_from_n_on_are_clear() {
    for (kind, blocks) in [
        (Kind::First, 3),
        (Kind::First, 9),
        (Kind::Second, 257),
        (Kind::Second, 1_027),
    ] {
        let mut image = empty_image_of(kind, blocks);
        let last = Entry::named("FILE.DAT").block_of(kind, 0, blocks as u16 - 1);
        put_entry(&mut image, 0, last);
        let vector = build(kind, &image);
        let bits = |block: usize| vector[block / 8] >> (7 - block % 8) & 1;
        assert_eq!(bits(blocks - 1), 1);
        assert!((blocks..8 * length(kind)).all(|block| bits(block) == 0));
    }
}

#[test]
fn an_empty_entry_names_nothing() {
    for kind in Kind::ALL {
        let mut image = empty_image_of(kind, kind.fewest_blocks());
        let gone = Entry::named("GONE").block_of(kind, 0, 2).user(0xE5);
        put_entry(&mut image, 5, gone);
        assert_eq!(build(kind, &image)[0], 0xC0);
    }
}

#[test]
fn building_refuses_a_wrong_length_before_an_unsound_image() {
    for kind in Kind::ALL {
        let sound = empty_image_of(kind, kind.fewest_blocks());
        let mut unsound = sound.clone();
        unsound[0] = 16;
        let cut = sound[..sound.len() - 1].to_vec();
        for image in [&sound, &unsound, &cut, &Vec::new()] {
            for wrong in [0, 1, length(kind) - 1, length(kind) + 1, length(kind.other())] {
                let mut vector = vec![0x5A; wrong];
                let answer = reference::vector(kind.number(), 0, image, &mut vector);
                assert_eq!((answer, vector), (BAD_CALL, vec![0x5A; wrong]));
            }
            for unknown in [2, 256, 257, u32::MAX] {
                let mut vector = vec![0x5A; length(kind)];
                let answer = reference::vector(unknown, 0, image, &mut vector);
                assert_eq!((answer, vector), (BAD_CALL, vec![0x5A; length(kind)]));
            }
        }
        for image in [&unsound, &cut, &Vec::new()] {
            let mut vector = vec![0x5A; length(kind)];
            let answer = reference::vector(kind.number(), 0, image, &mut vector);
            assert_eq!((answer, vector), (BAD_IMAGE, vec![0x5A; length(kind)]));
        }
        let other = kind.other();
        let mut vector = vec![0x5A; length(other)];
        assert_eq!(
            reference::vector(other.number(), 0, &sound, &mut vector),
            BAD_IMAGE
        );
    }
}

/// One bit of each block of a small drive that has 256, whatever it stands for.
#[test]
fn every_bit_is_judged_for_every_call() {
    let entry = Entry::named("FILE.DAT").block(0, 3).block(1, 100);
    for blocks in [101, 256] {
        let image = image_of(Kind::First, blocks, &[entry]);
        let right = vector_of(Kind::First, &image);
        for block in 0..256 {
            let mut world = world(Kind::First, image.clone());
            let mut wrong = right.clone();
            wrong[block / 8] ^= 128 >> (block % 8);
            world.own_vector = Some(wrong);
            for function in KNOWN {
                assert_eq!(world.ask(0, function, file()).go(), (255, 14), "block {block}");
            }
        }
    }
}

#[test]
fn the_order_of_the_general_refusals() {
    for kind in Kind::ALL {
        let image = image_of(kind, kind.fewest_blocks(), &[Entry::named("FILE.DAT")]);
        for function in KNOWN {
            let without_drive = [46, 143].contains(&function);
            let mut world = world(kind, image.clone());
            let bad_drive = file().with(0, 9);
            let answer = world.ask(0, function, bad_drive).go();
            assert_eq!(answer == (255, 4), !without_drive);
            world.own_vector = Some(vec![0; length(kind)]);
            assert_eq!(world.ask(0, function, bad_drive).go(), (255, 14));
            world.list[1] = 0;
            assert_eq!(world.ask(0, function, bad_drive).go(), (255, 12));
            world.image[1] = 0;
            assert_eq!(world.ask(0, function, bad_drive).go(), (255, 1));
            for wrong in [0, length(kind) - 1, length(kind) + 1, length(kind.other())] {
                world.own_vector = Some(vec![0; wrong]);
                assert_eq!(world.ask(0, function, bad_drive).go(), (255, 13));
            }
        }
    }
}

/// Told the other kind, a book is refused for its vector first, and with one of that kind for its image.
#[test]
fn a_book_told_as_another() {
    for kind in Kind::ALL {
        let mut world = world(kind, empty_image_of(kind, kind.fewest_blocks()));
        world.own_vector = Some(build(kind, &world.image));
        world.kind = kind.other().number();
        assert_eq!(world.ask(0, 46, file()).go(), (255, 13));
        world.own_vector = Some(vec![0xC0; length(kind.other())]);
        assert_eq!(world.ask(0, 46, file()).go(), (255, 1));
    }
}

/// The vector goes from call to call as the calls leave it; `go` holds it against the image each time.
fn go_on(world: &mut World, process: u32, function: u32, fcb: Fcb, count: u32) -> (u32, u32) {
    let answer = world.ask(process, function, fcb).count(count).go();
    world.own_vector = Some(world.vector.clone());
    answer
}

#[test]
fn blocks_are_taken_and_given_back() {
    for (kind, size) in [(Kind::First, 8), (Kind::Second, 16)] {
        let mut world = world(kind, empty_image_of(kind, kind.fewest_blocks().max(12)));
        let other = Fcb::named("OTHER").unlocked();
        assert_eq!(go_on(&mut world, 0, 22, file(), 1), OK);
        assert_eq!(world.vector[..2], [0xC0, 0]);
        assert_eq!(go_on(&mut world, 0, 34, file(), 1), OK);
        assert_eq!(world.vector[..2], [0xE0, 0]);
        assert_eq!(go_on(&mut world, 1, 22, other, 1), OK);
        assert_eq!(go_on(&mut world, 1, 40, other.record(size - 1), 2), OK);
        assert_eq!(world.vector[..2], [0xF8, 0]);
        assert_eq!(go_on(&mut world, 0, 40, file().record(5 * 128 - 1), 2), OK);
        assert_eq!(world.vector[..2], [0xFE, 0]);
        assert_eq!(go_on(&mut world, 1, 34, other.record(2 * size), 1), OK);
        assert_eq!(go_on(&mut world, 1, 34, other.record(262_143), 1), OK);
        assert_eq!(world.vector[..2], [0xFF, 0x80]);
        assert_eq!(go_on(&mut world, 0, 19, file(), 1), OK);
        assert_eq!(world.vector[..2], [0b1101_1001, 0x80]);
        assert_eq!(go_on(&mut world, 1, 34, other.record(200), 1), OK);
        assert_eq!(world.vector[..2], [0b1111_1001, 0x80]);
        assert_eq!(go_on(&mut world, 1, 16, other, 1), OK);
        assert_eq!(go_on(&mut world, 1, 23, other.new_name(name("FILE.DAT")), 1), OK);
        assert_eq!(world.vector[..2], [0b1111_1001, 0x80]);
        assert_eq!(go_on(&mut world, 1, 19, file(), 1), OK);
        assert_eq!(world.vector[..2], [0xC0, 0]);
    }
}

#[test]
fn a_run_that_stops_keeps_what_it_took() {
    let mut world = world(Kind::First, empty_image_of(Kind::First, 4));
    assert_eq!(go_on(&mut world, 0, 22, file(), 1), OK);
    assert_eq!(go_on(&mut world, 0, 34, file().record(7), 16), (2, 16 * 9));
    assert_eq!(world.vector[..2], [0xF0, 0]);
    assert_eq!(go_on(&mut world, 0, 34, file().record(64), 16), (2, 0));
    assert_eq!(world.vector[..2], [0xF0, 0]);
}

#[test]
fn free_space_is_what_the_vector_leaves() {
    for (kind, size) in [(Kind::First, 8), (Kind::Second, 16)] {
        let blocks = kind.fewest_blocks() + 6;
        let mut world = world(kind, empty_image_of(kind, blocks));
        assert_eq!(go_on(&mut world, 0, 22, file(), 1), OK);
        for taken in 1..7 {
            assert_eq!(go_on(&mut world, 0, 34, file().record(size * taken), 1), OK);
            assert_eq!(go_on(&mut world, 0, 46, file(), 1), OK);
            let set: u32 = world.vector.iter().map(|byte| byte.count_ones()).sum();
            let figure = u32::from_le_bytes([world.dma[0], world.dma[1], world.dma[2], 0]);
            assert_eq!((set, figure), (2 + taken, size * (blocks as u32 - set)));
        }
    }
}

/// What an engine can make of the vector that is not so.
#[derive(Clone, Copy, Debug, PartialEq, Eq)]
enum Wrong {
    LowBitFirst,
    BitsFromNOnSet,
    DeleteLeavesABit,
    DeleteLeavesAllBits,
    WriteSetsAnotherBit,
    WriteSetsNoBit,
    StoppedRunSetsNoBit,
    RunSetsOneBit,
    RenameClearsBits,
    RefusalTakesABlock,
    RefusalRepairs,
    JudgedBeforeTheList,
    JudgedAfterTheDrive,
    LengthJudgedAfterTheImage,
    TakesALongVector,
    TakesTheOtherKindsLength,
    NotJudged,
    NotJudgedFor46,
    NotJudgedFor143,
    DirectoryNotJudged,
    UsedBlocksNotJudged,
    FreeBlocksNotJudged,
    BitsFromNOnNotJudged,
    BuildKeepsOldBits,
    BuildForgetsTheDirectory,
    BuildReadsEmptyEntries,
    BuildSetsBitsFromNOn,
    BuildClearsAtRefusal,
    BuildJudgesTheImageFirst,
    BuildTakesUnknownKinds,
    BuildCutsTheKind,
    BuildTakesALongVector,
}

const ALL_WRONG: [Wrong; 32] = [
    Wrong::LowBitFirst,
    Wrong::BitsFromNOnSet,
    Wrong::DeleteLeavesABit,
    Wrong::DeleteLeavesAllBits,
    Wrong::WriteSetsAnotherBit,
    Wrong::WriteSetsNoBit,
    Wrong::StoppedRunSetsNoBit,
    Wrong::RunSetsOneBit,
    Wrong::RenameClearsBits,
    Wrong::RefusalTakesABlock,
    Wrong::RefusalRepairs,
    Wrong::JudgedBeforeTheList,
    Wrong::JudgedAfterTheDrive,
    Wrong::LengthJudgedAfterTheImage,
    Wrong::TakesALongVector,
    Wrong::TakesTheOtherKindsLength,
    Wrong::NotJudged,
    Wrong::NotJudgedFor46,
    Wrong::NotJudgedFor143,
    Wrong::DirectoryNotJudged,
    Wrong::UsedBlocksNotJudged,
    Wrong::FreeBlocksNotJudged,
    Wrong::BitsFromNOnNotJudged,
    Wrong::BuildKeepsOldBits,
    Wrong::BuildForgetsTheDirectory,
    Wrong::BuildReadsEmptyEntries,
    Wrong::BuildSetsBitsFromNOn,
    Wrong::BuildClearsAtRefusal,
    Wrong::BuildJudgesTheImageFirst,
    Wrong::BuildTakesUnknownKinds,
    Wrong::BuildCutsTheKind,
    Wrong::BuildTakesALongVector,
];

fn is_sound(kind: Kind, image: &[u8]) -> bool {
    image_faults(kind, image).is_empty()
}

fn bit(block: usize) -> u8 {
    128 >> (block % 8)
}

/// The blocks whose bits differ.
fn turned(one: &[u8], other: &[u8]) -> Vec<usize> {
    (0..8 * one.len())
        .filter(|block| (one[block / 8] ^ other[block / 8]) & bit(*block) != 0)
        .collect()
}

fn reverse(vector: &mut [u8]) {
    for byte in vector {
        *byte = byte.reverse_bits();
    }
}

/// Sets or clears the bits from the number of blocks on.
fn fill_rest(kind: Kind, image: &[u8], vector: &mut [u8], set: bool) {
    for block in image.len() / kind.block()..8 * vector.len() {
        match set {
            true => vector[block / 8] |= bit(block),
            false => vector[block / 8] &= !bit(block),
        }
    }
}

impl Wrong {
    /// Whether the engine takes a vector with these faults as it stands before this call.
    fn forgives(self, function: u32, faults: &[VectorRule]) -> bool {
        let only = |rules: &[VectorRule]| faults.iter().all(|fault| rules.contains(fault));
        match self {
            Wrong::NotJudged => true,
            Wrong::NotJudgedFor46 => function == 46,
            Wrong::NotJudgedFor143 => function == 143,
            Wrong::DirectoryNotJudged => only(&[VectorRule::Block0, VectorRule::Block1]),
            Wrong::UsedBlocksNotJudged => only(&[VectorRule::UsedBlock]),
            Wrong::FreeBlocksNotJudged => only(&[VectorRule::FreeBlock]),
            Wrong::BitsFromNOnNotJudged => only(&[VectorRule::PastTheLast]),
            _ => false,
        }
    }
}

struct WrongVector(Wrong);

/// A call on buffers of its own.
struct Own {
    fcb: Vec<u8>,
    dma: Vec<u8>,
    list: Vec<u8>,
    image: Vec<u8>,
    vector: Vec<u8>,
}

impl Own {
    fn of(buffers: &Buffers) -> Own {
        Own {
            fcb: buffers.fcb.to_vec(),
            dma: buffers.dma.to_vec(),
            list: buffers.list.to_vec(),
            image: buffers.image.to_vec(),
            vector: buffers.vector.to_vec(),
        }
    }

    fn call(&mut self, numbers: Numbers) -> u32 {
        let buffers = Buffers {
            fcb: &mut self.fcb,
            dma: &mut self.dma,
            list: &mut self.list,
            image: &mut self.image,
            vector: &mut self.vector,
        };
        Reference::default().call(numbers, buffers)
    }

    fn put(self, buffers: Buffers) {
        buffers.fcb.copy_from_slice(&self.fcb);
        buffers.dma.copy_from_slice(&self.dma);
        buffers.list.copy_from_slice(&self.list);
        buffers.image.copy_from_slice(&self.image);
        let length = buffers.vector.len().min(self.vector.len());
        buffers.vector[..length].copy_from_slice(&self.vector[..length]);
    }
}

impl WrongVector {
    /// What the engine takes for the vector before the call.
    fn taken(&self, kind: Kind, numbers: Numbers, own: &mut Own) {
        match self.0 {
            Wrong::LowBitFirst => reverse(&mut own.vector),
            Wrong::BitsFromNOnSet if is_sound(kind, &own.image) && own.vector.len() == length(kind) => {
                fill_rest(kind, &own.image, &mut own.vector, false)
            }
            Wrong::TakesALongVector if own.vector.len() > length(kind) => own.vector.truncate(length(kind)),
            Wrong::TakesTheOtherKindsLength if own.vector.len() == length(kind.other()) => {
                own.vector = right_vector(kind.number(), &own.image)
            }
            _ if own.vector.len() == length(kind) && is_sound(kind, &own.image) => {
                let faults: Vec<VectorRule> =
                    vector_faults(kind, &own.vector, &own.image).into_iter().collect();
                if self.0.forgives(numbers.function, &faults) {
                    own.vector = vector_of(kind, &own.image);
                }
            }
            _ => {}
        }
    }

    /// The answer that the engine gives for this one.
    fn answer(&self, kind: Kind, numbers: Numbers, before: &Own, answer: u32) -> u32 {
        let has_length = before.vector.len() == length(kind);
        let disagrees =
            || has_length && is_sound(kind, &before.image) && before.vector != vector_of(kind, &before.image);
        let bad_drive = before.fcb.first().is_some_and(|drive| *drive > 1);
        let of_drive = ![46, 143].contains(&numbers.function);
        match (self.0, answer) {
            (Wrong::JudgedBeforeTheList, BAD_LIST) if disagrees() => BAD_VECTOR,
            (Wrong::JudgedAfterTheDrive, BAD_VECTOR) if bad_drive && of_drive => BAD_DRIVE,
            (Wrong::LengthJudgedAfterTheImage, BAD_CALL) if !has_length => {
                self.without_length(kind, numbers, before)
            }
            _ => answer,
        }
    }

    fn without_length(&self, kind: Kind, numbers: Numbers, before: &Own) -> u32 {
        let mut own = Own {
            fcb: before.fcb.clone(),
            dma: before.dma.clone(),
            list: before.list.clone(),
            image: before.image.clone(),
            vector: right_vector(kind.number(), &before.image),
        };
        match own.call(numbers) {
            BAD_IMAGE => BAD_IMAGE,
            _ => BAD_CALL,
        }
    }

    /// What the engine makes of the vector after the call.
    fn left(&self, kind: Kind, numbers: Numbers, answer: u32, before: &Own, own: &mut Own) {
        let deed = Deed::of_call(numbers, answer);
        match self.0 {
            Wrong::LowBitFirst => reverse(&mut own.vector),
            Wrong::RefusalRepairs if answer == BAD_VECTOR => own.vector = vector_of(kind, &own.image),
            Wrong::RefusalTakesABlock if answer == 5 => {
                let free = own.vector.iter().position(|byte| *byte != 0xFF).unwrap_or(0);
                own.vector[free] |= own.vector[free] + 1;
            }
            _ if deed == Deed::Refused => own.vector = before.vector.clone(),
            Wrong::BitsFromNOnSet => fill_rest(kind, &own.image, &mut own.vector, true),
            _ => self.left_by_accepted(numbers, deed, before, own),
        }
    }

    fn left_by_accepted(&self, numbers: Numbers, deed: Deed, before: &Own, own: &mut Own) {
        if before.vector.len() != own.vector.len() {
            return;
        }
        let turned = turned(&before.vector, &own.vector);
        let is_write = [34, 40].contains(&numbers.function);
        let (Some(first), Some(last)) = (turned.first(), turned.last()) else {
            if (self.0, numbers.function) == (Wrong::RenameClearsBits, 23) {
                own.vector[0] &= 0xC0;
            }
            return;
        };
        match self.0 {
            Wrong::DeleteLeavesABit if numbers.function == 19 => own.vector[last / 8] |= bit(*last),
            Wrong::DeleteLeavesAllBits if numbers.function == 19 => own.vector = before.vector.clone(),
            Wrong::WriteSetsNoBit if is_write => own.vector = before.vector.clone(),
            Wrong::WriteSetsAnotherBit if is_write => {
                let other = (first + 1) % (8 * own.vector.len());
                own.vector[first / 8] &= !bit(*first);
                own.vector[other / 8] |= bit(other);
            }
            Wrong::StoppedRunSetsNoBit if matches!(deed, Deed::Records { all: false, .. }) => {
                own.vector = before.vector.clone()
            }
            Wrong::RunSetsOneBit if is_write => {
                own.vector = before.vector.clone();
                own.vector[first / 8] |= bit(*first);
            }
            _ => {}
        }
    }

    fn built(&self, kind: Kind, image: &[u8], before: &[u8], vector: &mut [u8]) {
        match self.0 {
            Wrong::LowBitFirst => reverse(vector),
            Wrong::BitsFromNOnSet | Wrong::BuildSetsBitsFromNOn => fill_rest(kind, image, vector, true),
            Wrong::BuildForgetsTheDirectory => vector[0] &= 0x3F,
            Wrong::BuildKeepsOldBits => {
                for (byte, old) in vector.iter_mut().zip(before) {
                    *byte |= old;
                }
            }
            Wrong::BuildReadsEmptyEntries => {
                let empty = image[..kind.directory()]
                    .chunks(32)
                    .filter(|entry| entry[0] == 0xE5);
                let numbers = empty.flat_map(|entry| kind.numbers(&entry[16..]).collect::<Vec<u16>>());
                let blocks = image.len() / kind.block();
                for block in numbers.map(usize::from).filter(|block| *block < blocks) {
                    vector[block / 8] |= bit(block);
                }
            }
            _ => {}
        }
    }
}

impl Engine for WrongVector {
    fn start(&mut self, kind: u32, numbers: [u32; 4], users: &mut [u8], list: &mut [u8]) -> u32 {
        Reference::default().start(kind, numbers, users, list)
    }

    fn check(&mut self, told: Told, image: &mut [u8]) -> u32 {
        Reference::default().check(told, image)
    }

    fn look(&mut self, told: Told, user: u32, name: &mut [u8], record: u32, image: &mut [u8]) -> u32 {
        Reference::default().look(told, user, name, record, image)
    }

    fn vector(&mut self, told: Told, image: &mut [u8], vector: &mut [u8]) -> u32 {
        let number = match self.0 {
            Wrong::BuildTakesUnknownKinds if told.kind > 1 => u32::from(vector.len() == 512),
            Wrong::BuildCutsTheKind => told.kind % 256,
            _ => told.kind,
        };
        let told = Told { kind: number, ..told };
        let before = vector.to_vec();
        let Some(kind) = Kind::told(number) else {
            return BAD_CALL;
        };
        let part = match self.0 {
            Wrong::BuildTakesALongVector => vector.len().min(length(kind)),
            _ => vector.len(),
        };
        let answer = Reference::default().vector(told, image, &mut vector[..part]);
        match answer {
            0 => self.built(kind, image, &before, &mut vector[..part]),
            BAD_IMAGE if self.0 == Wrong::BuildClearsAtRefusal => vector.fill(0),
            BAD_CALL if self.0 == Wrong::BuildJudgesTheImageFirst && !is_sound(kind, image) => {
                return BAD_IMAGE
            }
            _ => {}
        }
        answer
    }

    fn call(&mut self, numbers: Numbers, buffers: Buffers) -> u32 {
        let Some(kind) = Kind::told(numbers.kind) else {
            return Reference::default().call(numbers, buffers);
        };
        let (before, mut own) = (Own::of(&buffers), Own::of(&buffers));
        self.taken(kind, numbers, &mut own);
        let answer = own.call(numbers);
        let answer = self.answer(kind, numbers, &before, answer);
        self.left(kind, numbers, answer, &before, &mut own);
        own.put(buffers);
        answer
    }
}

fn unseen<'a>(runs: impl Iterator<Item = &'a [Made]> + Clone) -> Vec<Wrong> {
    let is_unseen = |wrong: &Wrong| {
        let mut engine = WrongVector(*wrong);
        let mut comparison = Comparison::new(&mut engine);
        !runs.clone().any(|made| comparison.run(made).is_some())
    };
    ALL_WRONG.into_iter().filter(is_unseen).collect()
}

#[test]
fn the_named_cases_see_every_wrong_vector() {
    let cases = Generator::new(31).named();
    for kind in Kind::ALL {
        let of_kind = format!("kind {}", kind.number());
        let runs = cases.iter().filter(|(case, _)| case.ends_with(&of_kind));
        assert_eq!(unseen(runs.map(|(_, made)| &made[..])), [], "{of_kind}");
    }
}

#[test]
fn chance_sees_every_wrong_vector() {
    for kind in Kind::ALL {
        let mut generator = Generator::new(32);
        let sessions: Vec<_> = (0..200).map(|_| generator.session_of(kind)).collect();
        assert_eq!(
            unseen(sessions.iter().map(|made| &made[..])),
            [],
            "kind {}",
            kind.number()
        );
    }
}

/// Without a fault, what is built around the reference here is the reference.
#[test]
fn the_wrong_engines_are_right_but_for_their_faults() {
    let mut generator = Generator::new(33);
    let mut engine = WrongVector(Wrong::JudgedBeforeTheList);
    let mut comparison = Comparison::new(&mut engine);
    for kind in Kind::ALL {
        for _ in 0..6 {
            let made = generator.session_of(kind);
            if let Some(difference) = comparison.run(&made) {
                let expected = difference.expected.map(|reply| split(reply.answer));
                assert_eq!(expected, Some((255, 12)));
            }
        }
    }
}
