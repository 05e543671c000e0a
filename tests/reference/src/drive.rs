//! The image as a map of files. Bytes that the map does not speak of stay in the image untouched.

use crate::kind::{Kind, ENTRY, RECORD, RECORDS_PER_EXTENT};
use crate::name::{File, Name, Pattern, HIGH_BIT, NAME_LENGTH};
use crate::rule::Rule;
use std::collections::{BTreeMap, BTreeSet};

pub const EMPTY: u8 = 0xE5;

pub const FIRST_DATA_BLOCK: usize = 2;
const ENTRIES_PER_RECORD: usize = RECORD / ENTRY;
const HIGHEST_USER: u8 = 15;
const EX_LIMIT: u8 = 32;
const UNREAD: usize = 13;
const READ_ONLY_ATTRIBUTE: usize = 8;

#[derive(Clone, Copy, Debug, PartialEq, Eq)]
pub enum Fault {
    /// A length that no kind has.
    Length,
    /// A length that the other kind has.
    OtherKind,
    /// The lowest bad entry, and what is wrong with it first.
    Entry(usize, Reason),
}

/// Why an entry is bad, in the order in which the reasons are judged.
#[derive(Clone, Copy, Debug, PartialEq, Eq)]
pub enum Reason {
    User,
    Name,
    Numbers,
    BlockOutOfRange,
    BlockNamedBefore,
    ExtentNamedBefore,
    NoExtent0,
}

impl Reason {
    /// The number that the image check gives for it.
    pub fn code(self) -> u32 {
        match self {
            Reason::User => 2,
            Reason::Name => 3,
            Reason::Numbers => 4,
            Reason::BlockOutOfRange => 5,
            Reason::BlockNamedBefore => 6,
            Reason::ExtentNamedBefore => 7,
            Reason::NoExtent0 => 8,
        }
    }
}

#[derive(Clone, Debug, PartialEq, Eq)]
pub struct Extent {
    pub slot: usize,
    pub attributes: [u8; NAME_LENGTH],
    pub count: u8,
    /// Places in the map and the blocks there, in rising order of places.
    blocks: Vec<(usize, u16)>,
}

impl Extent {
    fn block(&self, index: usize) -> Option<u16> {
        let found = self.blocks.iter().find(|(place, _)| *place == index);
        found.map(|(_, block)| *block)
    }

    /// The map's sixteen bytes on a drive of this kind.
    pub fn map(&self, kind: Kind) -> [u8; 16] {
        let mut map = [0; 16];
        for &(index, block) in &self.blocks {
            kind.put_number(&mut map, index, block);
        }
        map
    }
}

#[derive(Clone, Debug, PartialEq, Eq)]
pub struct Drive {
    kind: Kind,
    block_count: usize,
    files: BTreeMap<File, BTreeMap<u32, Extent>>,
    empty_slots: BTreeSet<usize>,
    /// In rising order.
    used_blocks: Vec<u16>,
}

pub fn extent_of(record: u32) -> u32 {
    record / RECORDS_PER_EXTENT
}

pub fn place_in_extent(record: u32) -> u32 {
    record % RECORDS_PER_EXTENT
}

/// The file and the extent of an entry that is good by this rule but for its map; None of an empty one.
pub fn file_and_extent(rule: Rule, entry: &[u8]) -> Result<Option<(File, u32)>, Reason> {
    let user = entry[0];
    if user == EMPTY {
        return Ok(None);
    }
    if user > HIGHEST_USER {
        return Err(Reason::User);
    }
    let name = Name::read(&entry[1..12]).ok_or(Reason::Name)?;
    let (ex, module, count) = (entry[12], entry[14], entry[15]);
    if ex >= EX_LIMIT || module >= rule.module_limit() || count > 128 {
        return Err(Reason::Numbers);
    }
    let extent = u32::from(ex) + u32::from(EX_LIMIT) * u32::from(module);
    Ok(Some((File { user, name }, extent)))
}

/// A number that a drive of so many blocks has for files.
pub fn is_data_block(block: u16, blocks: usize) -> bool {
    (FIRST_DATA_BLOCK..blocks).contains(&usize::from(block))
}

fn length_fault(kind: Kind, length: usize) -> Fault {
    match kind.other().blocks_of(length) {
        Some(_) => Fault::OtherKind,
        None => Fault::Length,
    }
}

impl Drive {
    /// Judged by this rule.
    pub fn read(kind: Kind, rule: Rule, image: &[u8]) -> Result<Drive, Fault> {
        let block_count = kind
            .blocks_of(image.len())
            .ok_or_else(|| length_fault(kind, image.len()))?;
        let mut drive = Drive {
            kind,
            block_count,
            files: BTreeMap::new(),
            empty_slots: BTreeSet::new(),
            used_blocks: Vec::new(),
        };
        let mut named = vec![false; block_count];
        for (slot, entry) in image[..kind.directory()].chunks_exact(ENTRY).enumerate() {
            drive
                .take_in(rule, slot, entry, &mut named)
                .map_err(|reason| Fault::Entry(slot, reason))?;
        }
        if let Some(slot) = drive.lowest_slot_without_extent_0() {
            return Err(Fault::Entry(slot, Reason::NoExtent0));
        }
        drive.used_blocks.sort_unstable();
        Ok(drive)
    }

    /// Takes an entry in; those before it are good. `named` has the blocks that they name.
    fn take_in(&mut self, rule: Rule, slot: usize, entry: &[u8], named: &mut [bool]) -> Result<(), Reason> {
        let Some((file, number)) = file_and_extent(rule, entry)? else {
            self.empty_slots.insert(slot);
            return Ok(());
        };
        let extent = Extent {
            slot,
            attributes: std::array::from_fn(|i| entry[1 + i] & HIGH_BIT),
            count: entry[15],
            blocks: self.take_in_map(&entry[16..], named)?,
        };
        let extents = self.files.entry(file).or_default();
        match extents.insert(number, extent) {
            None => Ok(()),
            Some(_) => Err(Reason::ExtentNamedBefore),
        }
    }

    /// All numbers are tried for their range before any is for a repeat.
    fn take_in_map(&mut self, map: &[u8], named: &mut [bool]) -> Result<Vec<(usize, u16)>, Reason> {
        let numbers = self.kind.numbers(map).enumerate();
        let blocks: Vec<(usize, u16)> = numbers.filter(|(_, block)| *block != 0).collect();
        if !blocks
            .iter()
            .all(|(_, block)| is_data_block(*block, self.block_count))
        {
            return Err(Reason::BlockOutOfRange);
        }
        for &(_, block) in &blocks {
            if std::mem::replace(&mut named[usize::from(block)], true) {
                return Err(Reason::BlockNamedBefore);
            }
            self.used_blocks.push(block);
        }
        Ok(blocks)
    }

    fn lowest_slot_without_extent_0(&self) -> Option<usize> {
        let headless = self.files.values().filter(|extents| !extents.contains_key(&0));
        headless
            .flat_map(|extents| extents.values().map(|extent| extent.slot))
            .min()
    }

    fn map_index(&self, record: u32) -> usize {
        (place_in_extent(record) / self.kind.records_per_block()) as usize
    }

    pub fn block_part(&self, block: u16) -> std::ops::Range<usize> {
        let at = usize::from(block) * self.kind.block();
        at..at + self.kind.block()
    }

    /// Where the record lies in the image that has this block.
    pub fn record_start(&self, block: u16, record: u32) -> usize {
        let place = record % self.kind.records_per_block();
        self.block_part(block).start + RECORD * place as usize
    }

    /// The directory's record with this entry, and the entry's place there.
    pub fn directory_record(&self, slot: usize) -> (std::ops::Range<usize>, u8) {
        let at = RECORD * (slot / ENTRIES_PER_RECORD);
        (at..at + RECORD, (slot % ENTRIES_PER_RECORD) as u8)
    }

    pub fn map(&self, extent: &Extent) -> [u8; 16] {
        extent.map(self.kind)
    }

    pub fn kind(&self) -> Kind {
        self.kind
    }

    pub fn has(&self, file: &File) -> bool {
        self.files.contains_key(file)
    }

    pub fn extent(&self, file: &File, number: u32) -> Option<&Extent> {
        self.files.get(file)?.get(&number)
    }

    pub fn entries_of(&self, file: &File) -> usize {
        self.files.get(file).map_or(0, BTreeMap::len)
    }

    /// The file's highest extent, and its records as that extent counts them.
    pub fn size(&self, file: &File) -> Option<(u32, u32)> {
        let (&highest, extent) = self.files.get(file)?.last_key_value()?;
        Some((highest, RECORDS_PER_EXTENT * highest + u32::from(extent.count)))
    }

    pub fn files(&self) -> impl Iterator<Item = File> + '_ {
        self.files.keys().copied()
    }

    /// The file's attributes are those of extent 0.
    pub fn attributes(&self, file: &File) -> [u8; NAME_LENGTH] {
        self.extent(file, 0)
            .map_or([0; NAME_LENGTH], |first| first.attributes)
    }

    /// The blocks of a file, each with its place among all that the file can have.
    pub fn blocks_of(&self, file: &File) -> Vec<(u32, u16)> {
        let per_extent = self.kind.numbers_per_entry() as u32;
        let extents = self.files.get(file).into_iter().flatten();
        let blocks = extents.flat_map(|(number, extent)| {
            let place = move |index: usize| per_extent * number + index as u32;
            extent
                .blocks
                .iter()
                .map(move |(index, block)| (place(*index), *block))
        });
        blocks.collect()
    }

    /// The lowest entry from this one on of a file of the user that the pattern fits, and its
    /// extent number: any, or extent 0 only.
    pub fn search(&self, user: u8, pattern: &Pattern, any_extent: bool, from: usize) -> Option<(usize, u32)> {
        let fitting = self
            .files
            .iter()
            .filter(|(file, _)| file.user == user && pattern.matches(file.name));
        fitting
            .flat_map(|(_, extents)| extents)
            .filter(|(number, extent)| (any_extent || **number == 0) && extent.slot >= from)
            .map(|(number, extent)| (extent.slot, *number))
            .min()
    }

    pub fn block(&self, file: &File, record: u32) -> Option<u16> {
        let extent = self.extent(file, extent_of(record))?;
        extent.block(self.map_index(record))
    }

    pub fn is_read_only(&self, file: &File) -> bool {
        self.extent(file, 0)
            .is_some_and(|first| first.attributes[READ_ONLY_ATTRIBUTE] != 0)
    }

    pub fn lowest_empty_slot(&self) -> Option<usize> {
        self.empty_slots.first().copied()
    }

    pub fn lowest_free_block(&self) -> Option<u16> {
        let data_blocks = FIRST_DATA_BLOCK as u16..self.block_count as u16;
        let mut used = self.used_blocks.iter().peekable();
        data_blocks
            .into_iter()
            .find(|block| used.next_if_eq(&block).is_none())
    }

    /// How many records the free blocks have.
    pub fn free_records(&self) -> u32 {
        let free = self.block_count - FIRST_DATA_BLOCK - self.used_blocks.len();
        free as u32 * self.kind.records_per_block()
    }

    /// The allocation vector: a bit for each block, the high one of byte 0 for block 0, set where a file uses the
    /// block or the directory lies there.
    pub fn vector(&self) -> Vec<u8> {
        let mut vector = vec![0; self.kind.vector()];
        let used = self.used_blocks.iter().map(|block| usize::from(*block));
        for block in (0..FIRST_DATA_BLOCK).chain(used) {
            vector[block / 8] |= HIGH_BIT >> (block % 8);
        }
        vector
    }

    pub fn make(&mut self, file: File) -> Option<()> {
        self.add_extent(file, 0, [0; NAME_LENGTH])
    }

    fn add_extent(&mut self, file: File, number: u32, attributes: [u8; NAME_LENGTH]) -> Option<()> {
        let extent = Extent {
            slot: self.empty_slots.pop_first()?,
            attributes,
            count: 0,
            blocks: Vec::new(),
        };
        self.files.entry(file).or_default().insert(number, extent);
        Some(())
    }

    pub fn delete(&mut self, file: &File) {
        for extent in self.files.remove(file).unwrap_or_default().into_values() {
            self.empty_slots.insert(extent.slot);
            self.used_blocks
                .retain(|used| !extent.blocks.iter().any(|(_, block)| block == used));
        }
    }

    pub fn rename(&mut self, old: &File, new: File) {
        if let Some(extents) = self.files.remove(old) {
            self.files.insert(new, extents);
        }
    }

    /// Sees to it that the record has an extent and a block; None if either is not to be had.
    pub fn provide(&mut self, file: &File, record: u32) -> Option<u16> {
        if let Some(block) = self.block(file, record) {
            return Some(block);
        }
        let number = extent_of(record);
        if self.extent(file, number).is_none() {
            let attributes = self.extent(file, 0)?.attributes;
            self.add_extent(*file, number, attributes)?;
        }
        let block = self.lowest_free_block()?;
        let place = self.used_blocks.partition_point(|used| *used < block);
        self.used_blocks.insert(place, block);
        let index = self.map_index(record);
        let extent = self.files.get_mut(file)?.get_mut(&number)?;
        extent.blocks.push((index, block));
        extent.blocks.sort_unstable();
        Some(block)
    }

    /// True if the extent's count rose.
    pub fn raise_count(&mut self, file: &File, record: u32) -> bool {
        let extents = self.files.get_mut(file);
        let Some(extent) = extents.and_then(|all| all.get_mut(&extent_of(record))) else {
            return false;
        };
        let wanted = place_in_extent(record) as u8 + 1;
        let rises = wanted > extent.count;
        extent.count = extent.count.max(wanted);
        rises
    }

    /// What stands in each entry that is used.
    fn entries(&self) -> BTreeMap<usize, (&File, u32, &Extent)> {
        let mut entries = BTreeMap::new();
        for (file, extents) in &self.files {
            for (&number, extent) in extents {
                entries.insert(extent.slot, (file, number, extent));
            }
        }
        entries
    }

    pub fn write_changes(&self, before: &Drive, image: &mut [u8]) {
        let (old, new) = (before.entries(), self.entries());
        for (slot, place) in image[..self.kind.directory()].chunks_exact_mut(ENTRY).enumerate() {
            match (old.get(&slot), new.get(&slot)) {
                (None, None) => {}
                (Some(_), None) => place[0] = EMPTY,
                (None, Some(entry)) => place.copy_from_slice(&entry_bytes(self.kind, *entry)),
                (Some(was), Some(is)) if was == is => {}
                (Some(_), Some(entry)) => write_all_but_unread(&entry_bytes(self.kind, *entry), place),
            }
        }
    }
}

fn entry_bytes(kind: Kind, (file, number, extent): (&File, u32, &Extent)) -> [u8; ENTRY] {
    let mut entry = [0; ENTRY];
    entry[0] = file.user;
    for (i, byte) in file.name.bytes().into_iter().enumerate() {
        entry[1 + i] = byte | extent.attributes[i];
    }
    entry[12] = (number % u32::from(EX_LIMIT)) as u8;
    entry[14] = (number / u32::from(EX_LIMIT)) as u8;
    entry[15] = extent.count;
    entry[16..].copy_from_slice(&extent.map(kind));
    entry
}

fn write_all_but_unread(entry: &[u8; ENTRY], place: &mut [u8]) {
    let unread = place[UNREAD];
    place.copy_from_slice(entry);
    place[UNREAD] = unread;
}
