//! Drives for the named cases. A case speaks of few blocks, from 2 on. On a drive of the first kind
//! these are its blocks; on one of the second kind they are the last of 300, and all others belong
//! to a file of its own, so that every number that a case meets needs its high byte.

use crate::build::{image_of, put_entry, Entry};
use reference::kind::Kind;

const BLOCKS_OF_SECOND_KIND: usize = 300;
const OTHER_USER: u8 = 8;
const OTHER_NAME: [u8; 11] = *b"ALL ELSE   ";

#[derive(Clone)]
pub struct Book {
    kind: Kind,
    /// What is added to a block's number in the case to get its number on the drive.
    shift: u16,
    pub image: Vec<u8>,
}

impl Book {
    /// A drive with this many blocks, two of them the directory's, and no file of the case's.
    pub fn of(kind: Kind, blocks: usize) -> Book {
        let all = match kind {
            Kind::First => blocks,
            Kind::Second => BLOCKS_OF_SECOND_KIND.max(blocks),
        };
        let mut book = Book {
            kind,
            shift: (all - blocks) as u16,
            image: image_of(kind, all, &[]),
        };
        book.take_other_blocks();
        book
    }

    fn take_other_blocks(&mut self) {
        let others: Vec<u16> = (2..2 + self.shift).collect();
        let slots = (0..self.kind.entries()).rev();
        let entries = others.chunks(self.kind.numbers_per_entry());
        for ((extent, blocks), slot) in (0..).zip(entries).zip(slots) {
            let mut entry = Entry::of(OTHER_USER, OTHER_NAME, extent);
            for (index, block) in blocks.iter().enumerate() {
                entry = entry.block_of(self.kind, index, *block);
            }
            put_entry(&mut self.image, slot, entry);
        }
    }

    /// The drive with these entries in the lowest places.
    pub fn with(mut self, entries: &[(Entry, &[(usize, u16)])]) -> Book {
        for (slot, (entry, blocks)) in entries.iter().enumerate() {
            let entry = self.entry(*entry, blocks);
            put_entry(&mut self.image, slot, entry);
        }
        self
    }

    /// The entry with these blocks at these places of its map.
    pub fn entry(&self, entry: Entry, blocks: &[(usize, u16)]) -> Entry {
        blocks.iter().fold(entry, |entry, (index, block)| {
            entry.block_of(self.kind, *index, self.shift + block)
        })
    }

    pub fn block_at(&self, block: u16) -> usize {
        self.kind.block() * usize::from(self.shift + block)
    }

    pub fn record_at(&self, block: u16, place: u32) -> usize {
        self.block_at(block) + 128 * place as usize
    }

    /// All records of this block become full of this byte.
    pub fn filled(mut self, block: u16, byte: u8) -> Book {
        let at = self.block_at(block);
        self.image[at..at + self.kind.block()].fill(byte);
        self
    }

    /// The drive with no empty entry, but for this one.
    pub fn crowded(mut self, but: Option<usize>) -> Book {
        let empty: Vec<usize> = (0..self.kind.entries())
            .filter(|&slot| self.image[32 * slot] == 0xE5 && Some(slot) != but)
            .collect();
        for (extent, slot) in (0..).zip(empty) {
            put_entry(&mut self.image, slot, Entry::of(9, *b"FILLER     ", extent));
        }
        self
    }
}
