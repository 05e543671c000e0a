//! Breaks one rule of a sound directory or list, or turns one bit of a vector. A damage counts only
//! if `faults` agrees that just this rule is broken, or at least this one where it cannot be broken
//! alone.

use crate::build::{lock_item, open_item, place_start, put_item, Entry, POSITIONS, RULE};
use crate::faults::{
    self, directory_faults, list_faults, vector_rules, As, ImageRule, Item, ListRule, VectorRule,
};
use crate::random::Random;
use reference::drive::EMPTY;
use reference::kind::{Kind, ENTRY};
use reference::rule::Rule;
use std::collections::BTreeSet;

const TRIES: usize = 12;
const NOWHERE: [u8; 11] = *b"NOWHERE XYZ";

/// A directory that breaks just this rule. The length is not the directory's to break.
pub fn break_directory(
    rule: ImageRule,
    of: impl Into<As>,
    image: &[u8],
    random: &mut Random,
) -> Option<Vec<u8>> {
    let of = of.into();
    let kind = of.kind;
    let blocks = image.len() / kind.block();
    let wanted = BTreeSet::from([rule]);
    (0..TRIES).find_map(|_| {
        let mut directory = image[..kind.directory()].to_vec();
        Directory {
            kind,
            rule: of.rule,
            bytes: &mut directory,
            random,
            victim: None,
        }
        .damage(rule, blocks)?;
        (directory_faults(of, &directory, blocks) == wanted).then_some(directory)
    })
}

/// A rule for each reason that an entry can be bad for.
const REASONS: [ImageRule; 7] = [
    ImageRule::User,
    ImageRule::Name,
    ImageRule::Count,
    ImageRule::MapRange,
    ImageRule::BlockTwice,
    ImageRule::ExtentTwice,
    ImageRule::ExtentZero,
];

/// A directory with two or three rules broken, as often as not all by one entry.
pub fn break_several(of: impl Into<As>, image: &[u8], random: &mut Random) -> Vec<u8> {
    let of = of.into();
    let kind = of.kind;
    let blocks = image.len() / kind.block();
    let mut rules: Vec<ImageRule> = (0..random.between(2, 3)).map(|_| random.pick(&REASONS)).collect();
    // A repeated extent is another entry's copy, so it comes before what is wrong with it besides.
    rules.sort_unstable_by(|one, other| other.cmp(one));
    let mut bytes = image[..kind.directory()].to_vec();
    let mut directory = Directory {
        kind,
        rule: of.rule,
        bytes: &mut bytes,
        random,
        victim: None,
    };
    if directory.random.chance(50) {
        let empty = directory.random.chance(50);
        directory.victim = directory.a_slot(empty);
    }
    for rule in rules {
        let _ = directory.damage(rule, blocks);
    }
    bytes
}

struct Directory<'a> {
    kind: Kind,
    rule: Rule,
    bytes: &'a mut [u8],
    random: &'a mut Random,
    /// The entry that every damage is to change; else each changes one by chance.
    victim: Option<usize>,
}

impl Directory<'_> {
    fn slots(&self, empty: bool) -> Vec<usize> {
        let is_wanted = |slot: &usize| (self.bytes[ENTRY * slot] == EMPTY) == empty;
        (0..self.kind.entries()).filter(is_wanted).collect()
    }

    /// One of these entries; the first and the last of them more often than the others.
    fn a_slot(&mut self, empty: bool) -> Option<usize> {
        let slots = self.slots(empty);
        match self.random.below(8) {
            0 => slots.first().copied(),
            1 => slots.last().copied(),
            _ => self.random.pick_any(&slots),
        }
    }

    fn entry(&self, slot: usize) -> Entry {
        let mut bytes = [0; ENTRY];
        bytes.copy_from_slice(&self.bytes[ENTRY * slot..ENTRY * (slot + 1)]);
        Entry(bytes)
    }

    fn put(&mut self, slot: usize, entry: Entry) -> Option<()> {
        self.bytes[ENTRY * slot..ENTRY * (slot + 1)].copy_from_slice(&entry.0);
        Some(())
    }

    /// A used entry to change in its place, or a new one for an empty slot.
    fn a_victim(&mut self) -> Option<(usize, Entry)> {
        let used = self.random.chance(50);
        let slot = match self.victim {
            Some(slot) => slot,
            None if used => self.a_slot(false).or_else(|| self.a_slot(true))?,
            None => self.a_slot(true)?,
        };
        let entry = self.entry(slot);
        if entry.0[0] != EMPTY {
            return Some((slot, entry));
        }
        let user = self.random.below(16) as u8;
        Some((slot, Entry::of(user, NOWHERE, 0)))
    }

    /// A later extent of some file, in its place or in an empty slot.
    fn a_later_extent(&mut self) -> Option<(usize, Entry)> {
        if self.victim.is_some() {
            return self.a_victim();
        }
        let of = self.a_slot(false)?;
        let entry = self.entry(of);
        if self.random.chance(50) && faults::extent_number(&entry.0) != 0 {
            return Some((of, entry));
        }
        let slot = self.a_slot(true)?;
        let extents = self.rule.record_limit() as usize / 128;
        let mut later = entry.extent(self.random.between(1, extents - 1) as u32);
        later.0[16..].fill(0);
        Some((slot, later))
    }

    fn damage(&mut self, rule: ImageRule, blocks: usize) -> Option<()> {
        match rule {
            ImageRule::Length => None,
            ImageRule::User => self.bad_user(),
            ImageRule::Name => self.bad_name(),
            ImageRule::Ex => self.bad_byte_of_later_extent(12, 32),
            ImageRule::Module => self.bad_byte_of_later_extent(14, self.rule.module_limit().into()),
            ImageRule::Count => self.bad_count(),
            ImageRule::MapRange => self.bad_map(blocks),
            ImageRule::BlockTwice => self.double_block(blocks),
            ImageRule::ExtentTwice => self.double_extent(),
            ImageRule::ExtentZero => self.no_extent_zero(),
        }
    }

    fn bad_user(&mut self) -> Option<()> {
        let (slot, entry) = self.a_victim()?;
        let user = self.random.pick(&[16, 17, 31, 0x80, 0xE4, 0xE6, 0xFF]);
        self.put(slot, entry.user(user))
    }

    fn bad_name(&mut self) -> Option<()> {
        let (slot, entry) = self.a_victim()?;
        let at = self.random.between(1, 11);
        let byte = match at {
            1 if self.random.chance(50) => b' ',
            _ => self.random.pick(&[0, 31, b'?', 127]),
        };
        let high_bit = self.random.byte() & 128;
        self.put(slot, entry.with(at, byte | high_bit))
    }

    fn bad_byte_of_later_extent(&mut self, at: usize, limit: usize) -> Option<()> {
        let (slot, entry) = self.a_later_extent()?;
        let byte = match self.random.chance(50) {
            true => limit,
            false => self.random.between(limit, 255),
        };
        self.put(slot, entry.with(at, byte as u8))
    }

    fn bad_count(&mut self) -> Option<()> {
        let (slot, entry) = self.a_victim()?;
        let count = self.random.pick(&[129, 130, 0xC0, 0xFF]);
        self.put(slot, entry.count(count))
    }

    fn an_index(&mut self) -> usize {
        self.random.below(self.kind.numbers_per_entry())
    }

    /// 1, the first number past the drive's blocks, or any after it. The highest are those that a
    /// reader of too few bits takes for small ones.
    fn bad_map(&mut self, blocks: usize) -> Option<()> {
        let (slot, entry) = self.a_victim()?;
        let index = self.an_index();
        let most = match self.kind {
            Kind::First => usize::from(u8::MAX),
            Kind::Second => usize::from(u16::MAX),
        };
        let block = match self.random.below(4) {
            0 => 1,
            1 => blocks,
            2 => most - most / 256 + self.random.below(most / 256 + 1),
            _ => self.random.between(blocks.min(most), most),
        };
        let block = if block > most { 1 } else { block };
        self.put(slot, entry.block_of(self.kind, index, block as u16))
    }

    fn double_block(&mut self, blocks: usize) -> Option<()> {
        let (slot, entry) = self.a_victim()?;
        let used: Vec<u16> = faults::used_entries(self.kind, self.bytes)
            .flat_map(|used| faults::block_numbers(self.kind, used))
            .filter(|&block| block != 0)
            .collect();
        let (one, other) = (self.an_index(), self.an_index());
        let fresh = self.random.between(2, blocks - 1) as u16;
        let with = |entry: Entry, index, block| entry.block_of(self.kind, index, block);
        let damaged = match self.random.pick_any(&used) {
            Some(block) if self.random.chance(70) => with(entry, one, block),
            _ => with(with(entry, one, fresh), other, fresh),
        };
        self.put(slot, damaged)
    }

    fn double_extent(&mut self) -> Option<()> {
        let of = self.a_slot(false)?;
        let slot = match self.victim {
            Some(slot) => slot,
            None if self.random.chance(80) => self.a_slot(true)?,
            None => self.a_slot(false)?,
        };
        let mut twin = self.entry(of);
        twin.0[16..].fill(0);
        twin.0[self.random.between(1, 11)] ^= self.random.byte() & 128;
        self.put(slot, twin)
    }

    fn no_extent_zero(&mut self) -> Option<()> {
        let (slot, entry) = self.a_victim()?;
        let damaged = match self.random.chance(70) {
            true => entry.extent(self.random.pick(&[1, 2, 31, 32, 64, 511, 2047])),
            false => entry.user(EMPTY),
        };
        self.put(slot, damaged)
    }
}

/// A list that breaks this rule beside a sound image.
pub fn break_list(
    rule: ListRule,
    kind: Kind,
    list: &[u8],
    image: &[u8],
    random: &mut Random,
) -> Option<Vec<u8>> {
    (0..TRIES).find_map(|_| {
        let mut damaged = list.to_vec();
        List {
            kind,
            bytes: &mut damaged,
            image,
            random,
        }
        .damage(rule)?;
        let faults = list_faults(kind, &damaged, image);
        let alone = faults.len() == 1 || !rule.can_be_broken_alone();
        (faults.contains(&rule) && alone).then_some(damaged)
    })
}

/// A vector with one bit turned that stands for this, beside a sound image; None where no bit does.
/// The first and the last of them are turned more often than the others.
pub fn break_vector(
    rule: VectorRule,
    kind: Kind,
    vector: &[u8],
    image: &[u8],
    random: &mut Random,
) -> Option<Vec<u8>> {
    let rules = vector_rules(kind, image).into_iter().enumerate();
    let bits: Vec<usize> = rules
        .filter(|(_, stands_for)| *stands_for == rule)
        .map(|(block, _)| block)
        .collect();
    let block = match random.below(4) {
        0 => bits.first().copied(),
        1 => bits.last().copied(),
        _ => random.pick_any(&bits),
    }?;
    let mut damaged = vector.to_vec();
    damaged[block / 8] ^= 0x80 >> (block % 8);
    Some(damaged)
}

struct List<'a> {
    kind: Kind,
    bytes: &'a mut [u8],
    image: &'a [u8],
    random: &'a mut Random,
}

/// Which items to choose from.
#[derive(Clone, Copy)]
enum Sort {
    Any,
    Open,
    Lock,
}

impl List<'_> {
    fn capacity(&self) -> usize {
        usize::from(self.bytes[0])
    }

    fn place(&self, place: usize) -> [u8; 20] {
        let mut bytes = [0; 20];
        bytes.copy_from_slice(&self.bytes[place_start(place)..place_start(place) + 20]);
        bytes
    }

    fn an_item(&mut self, sort: Sort) -> Option<usize> {
        let is_wanted = |item: &Item| match sort {
            Sort::Any => true,
            Sort::Open => item.is_open(),
            Sort::Lock => item.is_lock(),
        };
        let items = faults::items(self.bytes).into_iter();
        let places: Vec<usize> = items
            .filter(|(_, item)| is_wanted(item))
            .map(|(at, _)| at)
            .collect();
        self.random.pick_any(&places)
    }

    fn an_empty_place(&mut self) -> Option<usize> {
        let empty: Vec<usize> = (0..self.capacity())
            .filter(|&place| self.place(place) == [0; 20])
            .collect();
        self.random.pick_any(&empty)
    }

    fn set(&mut self, place: usize, at: usize, byte: u8) -> Option<()> {
        self.bytes[place_start(place) + at] = byte;
        Some(())
    }

    fn put(&mut self, place: usize, item: [u8; 20]) -> Option<()> {
        put_item(self.bytes, place, item);
        Some(())
    }

    fn set_header(&mut self, at: usize, byte: u8) -> Option<()> {
        self.bytes[at] = byte;
        Some(())
    }

    fn damage(&mut self, rule: ListRule) -> Option<()> {
        match rule {
            ListRule::CapacityRange => self.bad_limit(0),
            ListRule::OpenLimitRange => self.bad_limit(1),
            ListRule::LockLimitRange => self.bad_limit(2),
            ListRule::User => self.bad_user(),
            ListRule::Mark => self.bad_mark(),
            ListRule::NameHighBit => self.name_high_bit(),
            ListRule::OpenMode => self.bad_item_byte(Sort::Open, 14, &[3, 4, 0x81, 0xFF]),
            ListRule::LockMode => self.bad_item_byte(Sort::Lock, 14, &[0, 2, 3, 0xFF]),
            ListRule::ZeroByte => self.bad_item_byte(Sort::Any, 15, &[1, 0x80, 0xFF]),
            ListRule::OpenRecord => self.open_record(),
            ListRule::BeyondCapacity => self.beyond_capacity(),
            ListRule::Process => self.bad_item_byte(Sort::Any, 2, &[16, 17, 0x80, 0xFF]),
            ListRule::NameIllegal => self.illegal_name(),
            ListRule::RecordRange => self.record_range(),
            ListRule::OneOpenPerFile => self.second_open(),
            ListRule::OpenLimit => self.lower_limit(1, Sort::Open),
            ListRule::LockLimit => self.lower_limit(2, Sort::Lock),
            ListRule::ModesBeside => self.modes_beside(),
            ListRule::OpenOnImage => self.open_of_no_file(),
            ListRule::LockHasOpen => self.lock_without_open(),
            ListRule::LockHasBlock => self.lock_without_block(),
            ListRule::LockTwice => self.second_lock(),
            ListRule::Position => self.bad_position(),
            ListRule::RuleByte => self.bad_rule(),
        }
    }

    fn bad_limit(&mut self, at: usize) -> Option<()> {
        let byte = self.random.pick(&[0, 65, 66, 128, 255]);
        self.set_header(at, byte)
    }

    fn bad_user(&mut self) -> Option<()> {
        let at = self.random.between(3, 18);
        let user = self.random.pick(&[16, 17, 0x80, 0xE5, 0xFF]);
        self.set_header(at, user)
    }

    fn bad_mark(&mut self) -> Option<()> {
        let place = self.random.below(self.capacity());
        if self.place(place) == [0; 20] {
            let at = self.random.below(20);
            let byte = self.random.pick(&[1, 0x4F, 0x4C, 0x80, 0xFF]);
            return self.set(place, at, byte);
        }
        let mark = self
            .random
            .pick(&[*b"OR", *b"LF", *b"FO", *b"RL", *b"O\0", [0, 0]]);
        self.set(place, 0, mark[0])?;
        self.set(place, 1, mark[1])
    }

    fn name_high_bit(&mut self) -> Option<()> {
        let place = self.an_item(Sort::Any)?;
        let at = self.random.between(3, 13);
        let byte = self.place(place)[at] | 128;
        self.set(place, at, byte)
    }

    fn bad_item_byte(&mut self, sort: Sort, at: usize, bytes: &[u8]) -> Option<()> {
        let place = self.an_item(sort)?;
        let byte = self.random.pick(bytes);
        self.set(place, at, byte)
    }

    fn open_record(&mut self) -> Option<()> {
        let place = self.an_item(Sort::Open)?;
        let (at, byte) = self.random.pick(&[(16, 1), (16, 255), (17, 1), (18, 3)]);
        self.set(place, at, byte)
    }

    fn beyond_capacity(&mut self) -> Option<()> {
        let place = self.an_item(Sort::Any)?;
        if place > 0 && self.random.chance(50) {
            return self.set_header(0, place as u8);
        }
        if self.capacity() > 63 {
            return None;
        }
        let item = self.place(place);
        let beyond = self.random.between(self.capacity(), 63);
        self.put(place, [0; 20])?;
        self.put(beyond, item)
    }

    fn illegal_name(&mut self) -> Option<()> {
        let place = self.an_item(Sort::Any)?;
        let at = self.random.between(3, 13);
        let byte = match at {
            3 => self.random.pick(&[0, b' ', b'?', 127]),
            _ => self.random.pick(&[0, 31, b'?', 127]),
        };
        self.set(place, at, byte)
    }

    fn record_range(&mut self) -> Option<()> {
        let place = self.an_item(Sort::Lock)?;
        let (at, byte) = self.random.pick(&[(18, 4), (18, 255), (19, 1), (19, 255)]);
        self.set(place, at, byte)
    }

    fn second_open(&mut self) -> Option<()> {
        let place = self.an_item(Sort::Open)?;
        let mut twin = self.place(place);
        if self.random.chance(30) {
            twin[14] = self.random.below(3) as u8;
        }
        let to = self.an_empty_place()?;
        self.put(to, twin)
    }

    /// Sets the limit one below what some process has.
    fn lower_limit(&mut self, at: usize, sort: Sort) -> Option<()> {
        let place = self.an_item(sort)?;
        let chosen = self.place(place);
        let same = |item: &Item| item.process() == chosen[2] && item.0[..2] == chosen[..2];
        let number = faults::items(self.bytes)
            .iter()
            .filter(|(_, item)| same(item))
            .count();
        if number < 2 {
            return None;
        }
        self.set_header(at, number as u8 - 1)
    }

    fn modes_beside(&mut self) -> Option<()> {
        let place = self.an_item(Sort::Open)?;
        let mode = self.random.below(3) as u8;
        if self.random.chance(30) {
            return self.set(place, 14, mode);
        }
        let mut beside = self.place(place);
        beside[2] = self.random.below(16) as u8;
        beside[14] = mode;
        let to = self.an_empty_place()?;
        self.put(to, beside)
    }

    fn open_of_no_file(&mut self) -> Option<()> {
        let process = self.random.below(16) as u8;
        let mode = self.random.below(3) as u8;
        if let Some(to) = self.an_empty_place().filter(|_| self.random.chance(60)) {
            return self.put(to, open_item(process, NOWHERE, mode));
        }
        let place = self.an_item(Sort::Open)?;
        let at = self.random.between(3, 13);
        self.set(place, at, b'%')
    }

    fn lock_without_open(&mut self) -> Option<()> {
        match self.random.below(3) {
            0 => {
                let place = self.an_item(Sort::Open)?;
                self.put(place, [0; 20])
            }
            1 => {
                let place = self.an_item(Sort::Open)?;
                let mode = self.random.pick(&[0, 2]);
                self.set(place, 14, mode)
            }
            _ => {
                let to = self.an_empty_place()?;
                let item = self.lock_of_some_record()?;
                self.put(to, item)
            }
        }
    }

    /// A lock of a record with a block, by any process of its user.
    fn lock_of_some_record(&mut self) -> Option<[u8; 20]> {
        let blocks = crate::history::blocks_of_groups(self.kind, self.image);
        let (group, _) = self.random.pick_any(&blocks)?;
        let process = self.random.below(16);
        if self.bytes[3 + process] != group.file.user {
            return None;
        }
        let size = self.kind.records_per_block();
        let record = size * group.number + self.random.below(size as usize) as u32;
        Some(lock_item(process as u8, group.file.name, record))
    }

    fn lock_without_block(&mut self) -> Option<()> {
        let place = self.an_item(Sort::Lock)?;
        let mut lock = self.place(place);
        let record = self.random.pick(&[8, 16, 32, 127, 128, 4096, 100_000, 262_143]);
        lock[16..].copy_from_slice(&u32::to_le_bytes(record));
        self.put(place, lock)
    }

    /// Any process's, of one that never calls too.
    fn bad_position(&mut self) -> Option<()> {
        let at = POSITIONS.start + self.random.below(POSITIONS.len());
        let one_too_many = self.kind.entries() as u8 + 1;
        let byte = self
            .random
            .pick(&[one_too_many, one_too_many, 65, 128, 129, 0xE5, 0xFF]);
        self.set_header(at, byte)
    }

    fn bad_rule(&mut self) -> Option<()> {
        let byte = self.random.pick(&[2, 3, 22, 0x80, 0xFF]);
        self.set_header(RULE, byte)
    }

    fn second_lock(&mut self) -> Option<()> {
        let place = self.an_item(Sort::Lock)?;
        let mut twin = self.place(place);
        if self.random.chance(50) {
            twin[2] = self.random.below(16) as u8;
        }
        let to = self.an_empty_place()?;
        self.put(to, twin)
    }
}
