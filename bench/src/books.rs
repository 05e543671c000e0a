//! The books that calls are timed on, and the call of each function on them.

use compare::build::{lock_item, open_item, put_entry, put_item, Entry, Fcb, LIST, POSITIONS};
use compare::faults::vector_of;
use compare::hints::{most_of_one_slot, names_in, SLOTS};
use compare::random::Random;
use reference::calls::DMA_LENGTH;
use reference::kind::{Kind, ENTRY};
use std::ops::Range;

const LOCKED_FILE: usize = 0;
const SECOND_FILE: usize = 1;
const CALLER: u8 = 1;
const STRANGER: u8 = 9;
/// The user of all processes and files.
const USER: u8 = 0;

/// How a book is filled.
#[derive(Clone, Copy, PartialEq, Eq)]
pub enum Filling {
    Empty,
    Typical,
    FullDirectory,
    FullList,
    BothFull,
    /// As both full, with names by chance that fall into one slot of the engine's: its hints save it nothing, and most
    /// names differ in their first byte, which is best for an engine without hints that stops at a difference.
    OneSlot,
}

pub const FILLINGS: [Filling; 6] = [
    Filling::Empty,
    Filling::Typical,
    Filling::FullDirectory,
    Filling::FullList,
    Filling::BothFull,
    Filling::OneSlot,
];

#[derive(Clone, Copy, PartialEq, Eq)]
pub struct Drive {
    pub kind: Kind,
    pub blocks: usize,
}

/// The drives of a kind that calls are timed on. The last one is shown, and its times are held against those of the one
/// before it.
pub fn drives(kind: Kind) -> Vec<Drive> {
    let sizes: &[usize] = match kind {
        Kind::First => &[3, 64, 256],
        Kind::Second => &[257, 4_096],
    };
    sizes.iter().map(|&blocks| Drive { kind, blocks }).collect()
}

pub fn all_drives() -> Vec<Drive> {
    Kind::ALL.into_iter().flat_map(drives).collect()
}

/// The one before the last of its kind, and the last.
pub fn beside_and_shown(kind: Kind) -> [Drive; 2] {
    let drives = drives(kind);
    [drives[drives.len() - 2], drives[drives.len() - 1]]
}

pub fn shown(kind: Kind) -> Drive {
    beside_and_shown(kind)[1]
}

pub fn kind_title(kind: Kind) -> &'static str {
    match kind {
        Kind::First => "small",
        Kind::Second => "large",
    }
}

pub const FUNCTIONS: [(u32, &str); 16] = [
    (15, "Open"),
    (16, "Close"),
    (17, "Search First"),
    (18, "Search Next"),
    (19, "Delete"),
    (22, "Make"),
    (23, "Rename"),
    (33, "Read"),
    (34, "Write"),
    (35, "Size"),
    (40, "Write, zero fill"),
    (41, "Test and Write"),
    (42, "Lock"),
    (43, "Unlock"),
    (46, "Free Space"),
    (143, "Terminate"),
];

/// The functions that take several records, and the counts that they are timed with.
pub const BY_RECORDS: [u32; 3] = [33, 34, 40];
pub const COUNTS: [u32; 5] = [1, 2, 4, 8, 16];
pub const MOST: u32 = 16;

/// Function, first record and count of a run of records.
pub type Run = (u32, u32, u32);

/// Where the runs begin that are compared and not timed: at records that are there, before a lock of another process in
/// a full list, before a missing block of either kind of drive, before a missing extent, before the last record and
/// behind it.
const FIRSTS: [u32; 7] = [0, 7, 30, 70, 120, 262_136, 262_144];

/// A list has at most so many locks of the file with the locks.
const MOST_LOCKS: u32 = 40;

impl Filling {
    pub fn title(self) -> &'static str {
        match self {
            Filling::Empty => "empty",
            Filling::Typical => "typical",
            Filling::FullDirectory => "full directory",
            Filling::FullList => "full list",
            Filling::BothFull => "both full",
            Filling::OneSlot => "one slot",
        }
    }

    pub fn describe(self, drive: Drive) -> String {
        let (files, used) = (self.files(drive.kind), owners(self, drive).len());
        match self {
            Filling::Empty => "no file, no item".to_string(),
            Filling::Typical => format!("{files} files of five blocks, 6 opens, 10 locks"),
            Filling::FullDirectory => format!("{files} files of {used} blocks, 6 opens, 10 locks"),
            Filling::FullList => format!("{files} files of five blocks, 24 opens, 40 locks"),
            Filling::BothFull => format!("{files} files of {used} blocks, 24 opens, 40 locks"),
            Filling::OneSlot => {
                format!("{files} files of {used} blocks, 24 opens, 40 locks, all names in one slot")
            }
        }
    }

    fn files(self, kind: Kind) -> usize {
        match self {
            Filling::Empty => 0,
            Filling::Typical | Filling::FullList => 12,
            Filling::FullDirectory | Filling::BothFull | Filling::OneSlot => kind.entries(),
        }
    }

    fn is_directory_full(self) -> bool {
        matches!(
            self,
            Filling::FullDirectory | Filling::BothFull | Filling::OneSlot
        )
    }

    fn is_list_full(self) -> bool {
        matches!(self, Filling::FullList | Filling::BothFull | Filling::OneSlot)
    }

    /// The file with the locks has sixteen records there.
    pub fn has_sixteen(self, drive: Drive) -> bool {
        records(drive.kind, &owners(self, drive)) >= MOST
    }
}

#[derive(Clone)]
pub struct Book {
    pub kind: Kind,
    pub list: Vec<u8>,
    pub image: Vec<u8>,
    pub vector: Vec<u8>,
    names: Vec<[u8; 11]>,
    /// How many records of the file with the locks have a block, from record 0 on.
    records: u32,
}

impl Book {
    pub fn directory(&self) -> Range<usize> {
        0..self.kind.directory()
    }

    /// Where the blocks of a file lie, as the directory tells now.
    pub fn blocks_of(&self, name: &[u8]) -> Vec<Range<usize>> {
        let is_of = |entry: &&[u8]| entry[0] == USER && &entry[1..12] == name;
        let entries = self.image[self.directory()].chunks_exact(ENTRY).filter(is_of);
        let numbers = entries.flat_map(|entry| self.kind.numbers(&entry[16..]));
        let block = self.kind.block();
        let place = |number: u16| block * usize::from(number)..block * (usize::from(number) + 1);
        numbers.filter(|&number| number != 0).map(place).collect()
    }

    pub fn blocks_of_locked_file(&self) -> Vec<Range<usize>> {
        self.blocks_of(&name(self, LOCKED_FILE))
    }
}

#[derive(Clone)]
pub struct Call {
    pub kind: u32,
    pub function: u32,
    pub process: u32,
    pub count: u32,
    pub fcb: Vec<u8>,
    pub dma: Vec<u8>,
}

pub fn book(filling: Filling, drive: Drive, random: &mut Random) -> Book {
    let files = filling.files(drive.kind);
    let names = match filling {
        Filling::OneSlot => names_in(random.below(SLOTS), (USER, 0), b"", files, random),
        _ => names(files, random),
    };
    let owners = owners(filling, drive);
    let order = order(filling, drive, owners.len(), random);
    let records = records(drive.kind, &owners);
    let image = image(drive, &names, &owners, &order, random);
    if filling == Filling::OneSlot {
        assert_eq!(
            most_of_one_slot(drive.kind, &image),
            files,
            "all entries in one slot"
        );
    }
    Book {
        kind: drive.kind,
        list: list(filling, drive.kind, &names, records),
        vector: vector_of(drive.kind, &image),
        image,
        names,
        records,
    }
}

/// Distinct names that share their first bytes, as those of one program do.
fn names(count: usize, random: &mut Random) -> Vec<[u8; 11]> {
    let digits = if count <= 100 { 2 } else { 3 };
    let stem = &"ORDERS"[..8 - digits];
    let mut numbers: Vec<usize> = (0..10usize.pow(digits as u32)).collect();
    random.shuffle(&mut numbers);
    let name = |number: &usize| compare::build::name(&format!("{stem}{number:0digits$}.DAT"));
    numbers[..count].iter().map(name).collect()
}

/// The file that each used block belongs to. The first file gets five before the others, which get all that there are
/// and that their entries can name.
fn owners(filling: Filling, drive: Drive) -> Vec<usize> {
    let (data, files) = (drive.blocks - 2, filling.files(drive.kind));
    let each = |count: usize| (0..count).flat_map(|file| [file; 5]).take(data).collect();
    if !filling.is_directory_full() {
        return each(files);
    }
    let mut owners: Vec<usize> = each(1);
    let others = files - 1;
    let more = (data - owners.len()).min(others * drive.kind.numbers_per_entry());
    owners.extend((0..more).map(|at| 1 + at % others));
    owners
}

/// The used blocks. Those of a full directory are the lowest, so that the search for a free one passes them all.
fn order(filling: Filling, drive: Drive, used: usize, random: &mut Random) -> Vec<u16> {
    let end = if filling.is_directory_full() {
        2 + used
    } else {
        drive.blocks
    };
    let mut order: Vec<u16> = (2..end).map(|block| block as u16).collect();
    random.shuffle(&mut order);
    order
}

/// How many records the file with the locks has.
fn records(kind: Kind, owners: &[usize]) -> u32 {
    kind.records_per_block() * owners.iter().filter(|&&owner| owner == LOCKED_FILE).count() as u32
}

fn image(drive: Drive, names: &[[u8; 11]], owners: &[usize], order: &[u16], random: &mut Random) -> Vec<u8> {
    let kind = drive.kind;
    let mut image = vec![0xE5; kind.block() * drive.blocks];
    let data = image.len() - kind.directory();
    image[kind.directory()..].copy_from_slice(&random.bytes(data));
    let mut entries: Vec<Entry> = names.iter().map(|&name| Entry::of(USER, name, 0)).collect();
    let mut used = vec![0; names.len()];
    for (&file, &block) in owners.iter().zip(order) {
        entries[file] = entries[file].block_of(kind, used[file], block);
        used[file] += 1;
        entries[file] = entries[file].count((kind.records_per_block() * used[file] as u32) as u8);
    }
    let mut places: Vec<usize> = (0..names.len()).collect();
    random.shuffle(&mut places);
    for (&place, &entry) in places.iter().zip(&entries) {
        put_entry(&mut image, place, entry);
    }
    image
}

/// The stranger has a search under way, which goes on at entry 0.
fn list(filling: Filling, kind: Kind, names: &[[u8; 11]], records: u32) -> Vec<u8> {
    let mut list = vec![0; LIST];
    list[..3].copy_from_slice(&[64, 64, 64]);
    list[POSITIONS].fill(kind.entries() as u8);
    list[POSITIONS][usize::from(STRANGER)] = 0;
    for (place, item) in items(filling, names, records).into_iter().enumerate() {
        put_item(&mut list, place, item);
    }
    list
}

fn items(filling: Filling, names: &[[u8; 11]], records: u32) -> Vec<[u8; 20]> {
    if names.is_empty() {
        return Vec::new();
    }
    if filling.is_list_full() {
        return full_items(names, records);
    }
    let open = |process, file: usize| open_item(process, names[file], 1);
    let mut items: Vec<_> = (1..=4).map(|process| open(process, LOCKED_FILE)).collect();
    items.extend([open(5, SECOND_FILE), open(6, 2)]);
    items.extend((0..records.min(10)).map(|record| lock_item(CALLER, names[LOCKED_FILE], record)));
    items
}

/// 64 items: a lock on each record of the first file, to 40, the first sixteen the caller's, and opens for the rest.
fn full_items(names: &[[u8; 11]], records: u32) -> Vec<[u8; 20]> {
    let locks = records.min(MOST_LOCKS);
    let opens = 64 - locks as usize;
    let open = |at: usize| open_item((at % 16) as u8, names[at / 16], 1);
    let holder = |record: u32| if record < 16 { CALLER } else { (record % 16) as u8 };
    let mut items: Vec<_> = (0..opens).map(open).collect();
    items.extend((0..locks).map(|record| lock_item(holder(record), names[LOCKED_FILE], record)));
    items
}

/// The call of that function on the book: one that is accepted wherever the book lets it be.
pub fn call(function: u32, filling: Filling, book: &Book) -> Call {
    let unheld = if filling.is_list_full() { 0 } else { 10 };
    let of = |file: usize| Fcb::of(name(book, file));
    let fresh = compare::build::name("NEWFILE.DAT");
    let (process, fcb) = match function {
        15 => (STRANGER, of(SECOND_FILE).unlocked()),
        // The first entry is found, and then a file in vain, past the whole directory.
        17 => (CALLER, Fcb::of([b'?'; 11])),
        18 => (
            STRANGER,
            Fcb::of(compare::build::name("NEWFILE?.DAT")).all_extents(),
        ),
        19 => (CALLER, of(11)),
        22 => (STRANGER, Fcb::of(fresh).unlocked()),
        23 => (CALLER, of(11).new_name(fresh)),
        33 | 34 | 41 => (CALLER, of(LOCKED_FILE).record(3)),
        40 => (CALLER, of(LOCKED_FILE).record(127)),
        42 => (CALLER, of(LOCKED_FILE).record(unheld.min(book.records))),
        _ => (CALLER, of(LOCKED_FILE)),
    };
    Call {
        kind: book.kind.number(),
        function,
        process: u32::from(process),
        count: count(function, filling, book),
        fcb: fcb.0.to_vec(),
        dma: dma(function, filling, book),
    }
}

/// So many records of the file with the locks, from the first on.
pub fn run((function, first, count): Run, filling: Filling, book: &Book) -> Call {
    Call {
        kind: book.kind.number(),
        function,
        process: u32::from(CALLER),
        count,
        fcb: Fcb::of(name(book, LOCKED_FILE)).record(first).0.to_vec(),
        dma: dma(function, filling, book),
    }
}

/// The runs that are compared.
pub fn runs() -> Vec<Run> {
    let counted = |function, first| COUNTS.map(|count| (function, first, count));
    let begun = |function| FIRSTS.into_iter().flat_map(move |first| counted(function, first));
    BY_RECORDS.into_iter().flat_map(begun).collect()
}

/// The name of a file, or one that no file has.
fn name(book: &Book, file: usize) -> [u8; 11] {
    let nobody = compare::build::name("NOBODY.DAT");
    book.names.get(file).copied().unwrap_or(nobody)
}

/// 42 and 43 take the longest run that has blocks.
fn count(function: u32, filling: Filling, book: &Book) -> u32 {
    match function {
        42 | 43 if filling != Filling::Empty => book.records.min(16),
        _ => 1,
    }
}

/// Other bytes for each record, and over them what 41, 42 and 43 ask for.
fn dma(function: u32, filling: Filling, book: &Book) -> Vec<u8> {
    let mut dma: Vec<u8> = (0..DMA_LENGTH).map(|at| (at % 251) as u8).collect();
    if function == 41 && filling != Filling::Empty {
        let name = name(book, LOCKED_FILE);
        let at =
            reference::look(book.kind.number(), 0, 0, &name, 3, &book.image).expect("record 3 has a block");
        let record = &book.image[at..at + 128];
        dma[..128].copy_from_slice(record);
        dma[128..256].copy_from_slice(record);
    }
    if function == 42 || function == 43 {
        dma[..2].copy_from_slice(&[file_id(filling), 0]);
    }
    dma
}

/// The place of the caller's open: the short list begins with process 1, the full one with process 0.
fn file_id(filling: Filling) -> u8 {
    if filling.is_list_full() {
        CALLER
    } else {
        CALLER - 1
    }
}
