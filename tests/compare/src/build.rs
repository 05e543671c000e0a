//! Hands for building FCBs, entries, items and images byte by byte.

use reference::kind::Kind;
use reference::name::HIGH_BIT;
use std::ops::Range;

pub const OPEN_MARK: [u8; 2] = [0x4F, 0x46];
pub const LOCK_MARK: [u8; 2] = [0x4C, 0x52];

/// "ORDERS.DAT" as eleven bytes, padded with blanks.
pub fn name(text: &str) -> [u8; 11] {
    let (stem, kind) = text.split_once('.').unwrap_or((text, ""));
    let mut bytes = [b' '; 11];
    for (to, from) in bytes[..8].iter_mut().zip(stem.bytes()) {
        *to = from;
    }
    for (to, from) in bytes[8..].iter_mut().zip(kind.bytes()) {
        *to = from;
    }
    bytes
}

#[derive(Clone, Copy, Debug, PartialEq, Eq)]
pub struct Fcb(pub [u8; 36]);

impl Fcb {
    pub fn of(name: [u8; 11]) -> Fcb {
        let mut bytes = [0; 36];
        bytes[1..12].copy_from_slice(&name);
        Fcb(bytes)
    }

    pub fn named(text: &str) -> Fcb {
        Fcb::of(name(text))
    }

    pub fn with(mut self, at: usize, byte: u8) -> Fcb {
        self.0[at] = byte;
        self
    }

    pub fn high_bit(mut self, at: usize) -> Fcb {
        self.0[at] |= HIGH_BIT;
        self
    }

    pub fn unlocked(self) -> Fcb {
        self.high_bit(5)
    }

    pub fn read_only(self) -> Fcb {
        self.high_bit(6)
    }

    /// A search by it admits all extents.
    pub fn all_extents(self) -> Fcb {
        self.with(12, b'?')
    }

    pub fn new_name(mut self, name: [u8; 11]) -> Fcb {
        self.0[17..28].copy_from_slice(&name);
        self
    }

    /// The low three bytes of the record.
    pub fn record(mut self, record: u32) -> Fcb {
        self.0[33..36].copy_from_slice(&record.to_le_bytes()[..3]);
        self
    }
}

#[derive(Clone, Copy, Debug, PartialEq, Eq)]
pub struct Entry(pub [u8; 32]);

impl Entry {
    pub fn of(user: u8, name: [u8; 11], extent: u32) -> Entry {
        let mut bytes = [0; 32];
        bytes[0] = user;
        bytes[1..12].copy_from_slice(&name);
        bytes[12] = (extent % 32) as u8;
        bytes[14] = (extent / 32) as u8;
        Entry(bytes)
    }

    pub fn named(text: &str) -> Entry {
        Entry::of(0, name(text), 0)
    }

    pub fn with(mut self, at: usize, byte: u8) -> Entry {
        self.0[at] = byte;
        self
    }

    pub fn user(self, user: u8) -> Entry {
        self.with(0, user)
    }

    pub fn extent(mut self, extent: u32) -> Entry {
        self.0[12] = (extent % 32) as u8;
        self.0[14] = (extent / 32) as u8;
        self
    }

    pub fn count(self, count: u8) -> Entry {
        self.with(15, count)
    }

    pub fn block(self, index: usize, block: u8) -> Entry {
        self.with(16 + index, block)
    }

    /// A block number as an entry of this kind of drive has it.
    pub fn block_of(mut self, kind: Kind, index: usize, block: u16) -> Entry {
        kind.put_number(&mut self.0[16..], index, block);
        self
    }

    /// A block number of two bytes, as on a drive of the second kind.
    pub fn wide_block(self, index: usize, block: u16) -> Entry {
        self.block_of(Kind::Second, index, block)
    }

    pub fn attribute(mut self, byte: usize) -> Entry {
        self.0[byte] |= HIGH_BIT;
        self
    }

    pub fn read_only(self) -> Entry {
        self.attribute(9)
    }
}

pub fn empty_image(blocks: usize) -> Vec<u8> {
    empty_image_of(Kind::First, blocks)
}

pub fn empty_image_of(kind: Kind, blocks: usize) -> Vec<u8> {
    vec![0xE5; kind.block() * blocks]
}

pub fn put_entry(image: &mut [u8], slot: usize, entry: Entry) {
    image[32 * slot..32 * slot + 32].copy_from_slice(&entry.0);
}

pub fn image_with(blocks: usize, entries: &[Entry]) -> Vec<u8> {
    image_of(Kind::First, blocks, entries)
}

pub fn image_of(kind: Kind, blocks: usize, entries: &[Entry]) -> Vec<u8> {
    let mut image = empty_image_of(kind, blocks);
    for (slot, entry) in entries.iter().enumerate() {
        put_entry(&mut image, slot, *entry);
    }
    image
}

pub fn open_item(process: u8, name: [u8; 11], mode: u8) -> [u8; 20] {
    item(OPEN_MARK, process, name, mode, 0)
}

pub fn lock_item(process: u8, name: [u8; 11], record: u32) -> [u8; 20] {
    item(LOCK_MARK, process, name, 1, record)
}

fn item(mark: [u8; 2], process: u8, name: [u8; 11], mode: u8, record: u32) -> [u8; 20] {
    let mut bytes = [0; 20];
    bytes[..2].copy_from_slice(&mark);
    bytes[2] = process;
    bytes[3..14].copy_from_slice(&name);
    bytes[14] = mode;
    bytes[16..].copy_from_slice(&record.to_le_bytes());
    bytes
}

/// The length of a list.
pub const LIST: usize = 1_316;

/// Where the sixteen positions stand in a list.
pub const POSITIONS: Range<usize> = 1_299..1_315;

/// Where the byte stands that chooses the rule.
pub const RULE: usize = 1_315;

pub fn place_start(place: usize) -> usize {
    19 + 20 * place
}

pub fn item_at(list: &[u8], place: usize) -> &[u8] {
    &list[place_start(place)..place_start(place) + 20]
}

pub fn put_item(list: &mut [u8], place: usize, item: [u8; 20]) {
    list[place_start(place)..place_start(place) + 20].copy_from_slice(&item);
}
