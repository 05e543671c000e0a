//! Sound books by chance: none, some or all of a drive's entries used, files of one extent or many, with holes, in any
//! order of entries and blocks, and what deleted files have left behind.

use crate::build::{empty_image_of, put_entry, Entry};
use crate::random::Random;
use reference::drive::EMPTY;
use reference::kind::{Kind, ENTRY};
use std::collections::BTreeSet;

const EXTENTS: [u32; 12] = [1, 2, 3, 7, 31, 32, 33, 63, 64, 1_024, 2_016, 2_047];
const NAMES: [&[u8; 11]; 8] = [
    b"ORDERS  DAT",
    b"ORDERS  DA ",
    b"ORDER   DAT",
    b"PRICES  DAT",
    b"A          ",
    b"~~~~~~~~~~~",
    b"!       !  ",
    b"a b.c:  d*e",
];

/// How much of a drive is used.
#[derive(Clone, Copy)]
enum Filling {
    Empty,
    OneFile,
    FewFiles,
    ManyFiles,
    EveryEntry,
    EveryBlock,
}

const FILLINGS: [Filling; 8] = [
    Filling::Empty,
    Filling::OneFile,
    Filling::FewFiles,
    Filling::FewFiles,
    Filling::FewFiles,
    Filling::ManyFiles,
    Filling::EveryEntry,
    Filling::EveryBlock,
];

/// How many blocks a drive has, mostly few.
pub fn some_blocks(kind: Kind, random: &mut Random) -> usize {
    match kind {
        Kind::First => match random.below(20) {
            0 => 3,
            1 => 4,
            2 => 255,
            3 => 256,
            4 => random.between(3, 256),
            _ => random.between(5, 48),
        },
        Kind::Second => match random.below(200) {
            0 => 4_096,
            1 => 1_027,
            2 => random.between(257, 1_100),
            3..30 => 300,
            30..60 => 258,
            _ => 257,
        },
    }
}

/// A legal name without high bits: of a few that look alike, or any.
pub fn some_name(random: &mut Random) -> [u8; 11] {
    let mut name = *random.pick(&NAMES);
    if random.chance(60) {
        name[random.below(8)] = b'0' + random.below(10) as u8;
    }
    if random.chance(15) {
        name = std::array::from_fn(|_| random.pick(b" !>@AZa~"));
    }
    if name[0] == b' ' {
        name[0] = b'X';
    }
    name
}

struct Maker<'a> {
    kind: Kind,
    random: &'a mut Random,
    image: Vec<u8>,
    /// In the order in which they are taken.
    slots: Vec<usize>,
    blocks: Vec<u16>,
    files: BTreeSet<(u8, [u8; 11])>,
}

/// A sound image of this kind.
pub fn some_book(kind: Kind, random: &mut Random) -> Vec<u8> {
    let blocks = some_blocks(kind, random);
    book_of(kind, blocks, random)
}

pub fn book_of(kind: Kind, blocks: usize, random: &mut Random) -> Vec<u8> {
    let filling = random.pick(&FILLINGS);
    let mut maker = Maker::new(kind, blocks, random);
    maker.fill(filling);
    maker.image
}

impl<'a> Maker<'a> {
    fn new(kind: Kind, blocks: usize, random: &'a mut Random) -> Maker<'a> {
        let mut slots: Vec<usize> = (0..kind.entries()).rev().collect();
        let mut numbers: Vec<u16> = (2..blocks as u16).rev().collect();
        if random.chance(70) {
            random.shuffle(&mut slots);
        }
        if random.chance(70) {
            random.shuffle(&mut numbers);
        }
        Maker {
            kind,
            image: empty_image_of(kind, blocks),
            random,
            slots,
            blocks: numbers,
            files: BTreeSet::new(),
        }
    }

    fn fill(&mut self, filling: Filling) {
        self.leave_behind();
        let most = self.slots.len();
        let entries = match filling {
            Filling::Empty => 0,
            Filling::OneFile => self.random.between(1, 3),
            Filling::FewFiles => self.random.between(2, 10),
            Filling::ManyFiles | Filling::EveryBlock => self.random.between(most / 2, most),
            Filling::EveryEntry => most,
        };
        let left = most - entries;
        let dense = matches!(filling, Filling::EveryBlock);
        while self.slots.len() > left {
            let extents = match filling {
                Filling::OneFile => self.slots.len() - left,
                _ => self.random.between(1, 5).min(self.slots.len() - left),
            };
            self.make_file(extents, dense);
        }
        if dense {
            self.use_up_blocks();
        }
    }

    /// Blocks and entries of files that were deleted: the first byte is E5h, the rest as it was.
    fn leave_behind(&mut self) {
        if self.random.chance(50) {
            return;
        }
        for slot in 0..self.kind.entries() {
            if self.random.chance(40) {
                let rest = self.random.bytes(ENTRY - 1);
                self.image[ENTRY * slot + 1..ENTRY * (slot + 1)].copy_from_slice(&rest);
            }
        }
        for _ in 0..self.random.below(6) {
            if let Some(block) = self.random.pick_any(&self.blocks) {
                self.write_block(block);
            }
        }
    }

    fn make_file(&mut self, extents: usize, dense: bool) {
        let file = self.new_file();
        let mut numbers = vec![0];
        while numbers.len() < extents {
            let any = self.random.below(2_048) as u32;
            let extent = self
                .random
                .pick(&[any, EXTENTS[any as usize % 12], numbers.len() as u32]);
            if !numbers.contains(&extent) {
                numbers.push(extent);
            }
        }
        self.random.shuffle(&mut numbers);
        for extent in numbers {
            self.make_entry(file, extent, dense);
        }
    }

    fn new_file(&mut self) -> (u8, [u8; 11]) {
        loop {
            let file = (self.random.pick(&[0, 0, 0, 1, 7, 15]), some_name(self.random));
            if self.files.insert(file) {
                return file;
            }
        }
    }

    fn make_entry(&mut self, (user, name): (u8, [u8; 11]), extent: u32, dense: bool) {
        let Some(slot) = self.slots.pop() else {
            return;
        };
        let count = self.random.pick(&[0, 1, 127, 128, 64]);
        let mut entry = Entry::of(user, name, extent).count(count);
        if self.random.chance(30) {
            entry = entry.with(13, self.random.byte());
        }
        if self.random.chance(30) {
            for _ in 0..self.random.between(1, 4) {
                entry = entry.attribute(self.random.between(1, 11));
            }
        }
        let numbers = self.kind.numbers_per_entry();
        let (wanted, chance) = match self.random.below(6) {
            0 => (0, 0),
            1 => (numbers, 100),
            2 => (numbers, 50),
            _ => (self.random.between(1, 3), 60),
        };
        for index in 0..wanted {
            if dense || self.random.chance(chance) {
                entry = self.give_block(entry, index);
            }
        }
        put_entry(&mut self.image, slot, entry);
    }

    fn give_block(&mut self, entry: Entry, index: usize) -> Entry {
        let Some(block) = self.blocks.pop() else {
            return entry;
        };
        self.write_block(block);
        entry.block_of(self.kind, index, block)
    }

    /// Puts blocks into the holes of the entries until none is free or no hole left.
    fn use_up_blocks(&mut self) {
        for slot in 0..self.kind.entries() {
            let mut bytes = [0; ENTRY];
            bytes.copy_from_slice(&self.image[ENTRY * slot..ENTRY * (slot + 1)]);
            if bytes[0] == EMPTY {
                continue;
            }
            let mut entry = Entry(bytes);
            let numbers: Vec<u16> = self.kind.numbers(&bytes[16..]).collect();
            for (index, _) in numbers.iter().enumerate().filter(|(_, block)| **block == 0) {
                entry = self.give_block(entry, index);
            }
            put_entry(&mut self.image, slot, entry);
        }
    }

    /// Bytes that no other block has: at both ends, at the ends of a record, and one byte throughout.
    fn write_block(&mut self, block: u16) {
        let at = self.kind.block() * usize::from(block);
        let fill = self.random.pick(&[0, 0xE5, 0x1A, 0x55]);
        let place = at + 128 * self.random.below(self.kind.records_per_block() as usize);
        let part = &mut self.image[at..at + self.kind.block()];
        part.fill(fill);
        if self.random.chance(10) {
            return;
        }
        let last = part.len() - 8;
        part[..8].copy_from_slice(&self.random.bytes(8));
        part[last..].copy_from_slice(&self.random.bytes(8));
        self.image[place] = self.random.byte();
        self.image[place + 127] = self.random.byte();
    }
}
