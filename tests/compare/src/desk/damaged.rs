//! Damages a book's directory as salvage may meet it, in one way or in many at a time.

use crate::build::{put_entry, Entry};
use crate::faults::extent_number;
use crate::random::Random;
use reference::drive::EMPTY;
use reference::kind::{Kind, ENTRY};

#[derive(Clone, Copy, PartialEq, Eq)]
enum Harm {
    User,
    Name,
    Ex,
    Module,
    Count,
    OutOfRange,
    NamedBefore,
    NamedInside,
    Twin,
    TwinOfABadOne,
    NoExtent0,
    BadExtent0,
    Moved,
    AnyByte,
    AnyEntry,
}

const HARMS: [Harm; 15] = [
    Harm::User,
    Harm::Name,
    Harm::Ex,
    Harm::Module,
    Harm::Count,
    Harm::OutOfRange,
    Harm::NamedBefore,
    Harm::NamedInside,
    Harm::Twin,
    Harm::TwinOfABadOne,
    Harm::NoExtent0,
    Harm::BadExtent0,
    Harm::Moved,
    Harm::AnyByte,
    Harm::AnyEntry,
];

struct Directory<'a> {
    kind: Kind,
    blocks: usize,
    image: &'a mut [u8],
    random: &'a mut Random,
}

/// Damages the directory once, a few times or all over.
pub fn damage(kind: Kind, image: &mut [u8], random: &mut Random) {
    let harms = match random.below(10) {
        0..3 => 1,
        3..7 => random.between(2, 5),
        7..9 => random.between(6, 40),
        _ => 200,
    };
    let only = random.pick(&HARMS);
    let alike = random.chance(20);
    let blocks = image.len() / kind.block();
    let mut directory = Directory {
        kind,
        blocks,
        image,
        random,
    };
    for _ in 0..harms {
        let harm = match alike {
            true => only,
            false => directory.random.pick(&HARMS),
        };
        // Where there is nothing to harm in this way, nothing is.
        let _ = directory.harm(harm);
    }
}

/// Bytes by chance, as if something else had been written there: most entries have a good first byte.
pub fn overwrite(kind: Kind, image: &mut [u8], random: &mut Random) {
    let bytes = random.bytes(kind.directory());
    image[..kind.directory()].copy_from_slice(&bytes);
    for slot in 0..kind.entries() {
        match random.below(8) {
            0 => {}
            1 => image[ENTRY * slot] = EMPTY,
            _ => make_likely(&mut image[ENTRY * slot..ENTRY * (slot + 1)], random),
        }
    }
}

/// An entry of any bytes that can stay.
fn make_likely(entry: &mut [u8], random: &mut Random) {
    entry[0] &= 1;
    entry[1..12].copy_from_slice(b"CHANCE  DAT");
    entry[8] = b'0' + random.below(4) as u8;
    entry[12] &= 3;
    entry[14] = random.pick(&[0, 0, 0, 1, 64]);
    entry[15] = random.pick(&[0, 128, 128, 129]);
}

impl Directory<'_> {
    fn entry(&self, slot: usize) -> Entry {
        let mut bytes = [0; ENTRY];
        bytes.copy_from_slice(&self.image[ENTRY * slot..ENTRY * (slot + 1)]);
        Entry(bytes)
    }

    fn put(&mut self, slot: usize, entry: Entry) -> Option<()> {
        put_entry(self.image, slot, entry);
        Some(())
    }

    fn slots(&self, is_wanted: impl Fn(&Entry) -> bool) -> Vec<usize> {
        let all = 0..self.kind.entries();
        all.filter(|slot| is_wanted(&self.entry(*slot))).collect()
    }

    /// The first and the last more often than the others.
    fn one_of(&mut self, slots: &[usize]) -> Option<usize> {
        match self.random.below(8) {
            0 => slots.first().copied(),
            1 => slots.last().copied(),
            _ => self.random.pick_any(slots),
        }
    }

    fn used(&mut self) -> Option<usize> {
        let slots = self.slots(|entry| entry.0[0] != EMPTY);
        self.one_of(&slots)
    }

    /// A place for one entry more; any where all are used.
    fn place(&mut self) -> Option<usize> {
        let mut slots = self.slots(|entry| entry.0[0] == EMPTY);
        if slots.is_empty() || self.random.chance(10) {
            slots = (0..self.kind.entries()).collect();
        }
        self.one_of(&slots)
    }

    fn set(&mut self, at: usize, bytes: &[u8]) -> Option<()> {
        let slot = self.used()?;
        self.image[ENTRY * slot + at] = self.random.pick(bytes);
        Some(())
    }

    fn harm(&mut self, harm: Harm) -> Option<()> {
        match harm {
            Harm::User => self.set(0, &[16, 17, 31, 32, 0x80, 0xE4, 0xE6, 0xFF]),
            Harm::Name => {
                let at = self.random.between(1, 11);
                self.set(at, &[0, 31, b'?', 127, 128, b'?' | 128, b' '])
            }
            Harm::Ex => self.set(12, &[32, 33, 63, 128, 255]),
            Harm::Module => self.set(14, &[16, 17, 63, 64, 65, 128, 255]),
            Harm::Count => self.set(15, &[129, 130, 192, 255]),
            Harm::OutOfRange => self.numbers_out_of_range(),
            Harm::NamedBefore => self.numbers_of_others(),
            Harm::NamedInside => self.one_number_again(),
            Harm::Twin => self.twin(),
            Harm::TwinOfABadOne => self.twin_of_a_bad_one(),
            Harm::NoExtent0 => self.no_extent_0(),
            Harm::BadExtent0 => self.bad_extent_0(),
            Harm::Moved => self.moved(),
            Harm::AnyByte => {
                let at = self.random.below(ENTRY);
                let byte = self.random.byte();
                self.set(at, &[byte])
            }
            Harm::AnyEntry => {
                let slot = self.place()?;
                let mut bytes = [0; ENTRY];
                bytes.copy_from_slice(&self.random.bytes(ENTRY));
                self.put(slot, Entry(bytes))
            }
        }
    }

    /// Some places of a map, one to all of them.
    fn places_of_map(&mut self) -> Vec<usize> {
        let numbers = self.kind.numbers_per_entry();
        let mut places: Vec<usize> = (0..numbers).collect();
        self.random.shuffle(&mut places);
        places.truncate(self.random.between(1, numbers));
        places
    }

    fn out_of_range(&mut self) -> u16 {
        let most = match self.kind {
            Kind::First => usize::from(u8::MAX),
            Kind::Second => usize::from(u16::MAX),
        };
        let number = match self.random.below(4) {
            0 => 1,
            1 => self.blocks,
            2 => most,
            _ => self.random.between(self.blocks.min(most), most),
        };
        match number > most || number < self.blocks {
            true => 1,
            false => number as u16,
        }
    }

    fn numbers_out_of_range(&mut self) -> Option<()> {
        let slot = self.used()?;
        let mut entry = self.entry(slot);
        for place in self.places_of_map() {
            let number = self.out_of_range();
            entry = entry.block_of(self.kind, place, number);
        }
        self.put(slot, entry)
    }

    /// All numbers that the entries name, those of empty ones too.
    fn named(&self) -> Vec<u16> {
        let map = |slot: usize| &self.image[ENTRY * slot + 16..ENTRY * (slot + 1)];
        let all = (0..self.kind.entries()).flat_map(|slot| self.kind.numbers(map(slot)));
        all.filter(|number| usize::from(*number) < self.blocks && *number > 1)
            .collect()
    }

    fn numbers_of_others(&mut self) -> Option<()> {
        let slot = self.used()?;
        let named = self.named();
        let mut entry = self.entry(slot);
        for place in self.places_of_map() {
            entry = entry.block_of(self.kind, place, self.random.pick_any(&named)?);
        }
        self.put(slot, entry)
    }

    fn one_number_again(&mut self) -> Option<()> {
        let slot = self.used()?;
        let number = self.random.between(2, self.blocks - 1) as u16;
        let mut entry = self.entry(slot);
        for place in self.places_of_map() {
            entry = entry.block_of(self.kind, place, number);
        }
        self.put(slot, entry)
    }

    /// The same file and extent once more, with other bytes where they do not count.
    fn twin(&mut self) -> Option<()> {
        let of = self.used()?;
        let to = self.place()?;
        let mut entry = self.entry(of);
        if self.random.chance(40) {
            entry = entry.attribute(self.random.between(1, 11));
        }
        if self.random.chance(40) {
            entry.0[16..].fill(0);
            let number = self.random.between(2, self.blocks - 1) as u16;
            entry = entry.block_of(self.kind, 0, number);
        }
        self.put(to, entry)
    }

    /// Two of the same file and extent, of which one, mostly the lower, is bad in itself.
    fn twin_of_a_bad_one(&mut self) -> Option<()> {
        let of = self.used()?;
        let to = self.place()?;
        let good = self.entry(of);
        let bad = self.as_bad(good);
        let (low, high) = (of.min(to), of.max(to));
        let (first, second) = match self.random.chance(75) {
            true => (bad, good),
            false => (good, bad),
        };
        self.put(low, first)?;
        self.put(high, second)
    }

    /// The same file and extent number with a count or an ex that is bad.
    fn as_bad(&mut self, entry: Entry) -> Entry {
        let (ex, module) = (entry.0[12], entry.0[14]);
        if module > 0 && ex < 32 && self.random.chance(50) {
            return entry.with(12, ex + 32).with(14, module - 1);
        }
        entry.count(self.random.between(129, 255) as u8)
    }

    fn an_extent_0(&mut self) -> Option<usize> {
        let slots = self.slots(|entry| entry.0[0] != EMPTY && extent_number(&entry.0) == 0);
        self.one_of(&slots)
    }

    fn no_extent_0(&mut self) -> Option<()> {
        let slot = self.an_extent_0()?;
        let entry = self.entry(slot);
        let other = self.random.between(1, 2_047) as u32;
        let changed = match self.random.chance(50) {
            true => entry.user(EMPTY),
            false => entry.extent(other),
        };
        self.put(slot, changed)
    }

    fn bad_extent_0(&mut self) -> Option<()> {
        let slot = self.an_extent_0()?;
        let entry = self.entry(slot);
        let changed = match self.random.below(3) {
            0 => entry.count(255),
            1 => entry.user(16),
            _ => entry.with(1, b'?'),
        };
        self.put(slot, changed)
    }

    /// An entry that is of another user now: of a file that there is already, or of one without the extent 0.
    fn moved(&mut self) -> Option<()> {
        self.set(0, &[0, 1, 2, 7, 15])
    }
}
