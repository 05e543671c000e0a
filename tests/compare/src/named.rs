//! Cases by name, with the answers they must get: the places easiest to misread, and every row
//! of every table, so that each run has reached them all.

use crate::book::Book;
use crate::build::{lock_item, name, open_item, put_item, Entry, Fcb, LIST, POSITIONS};
use crate::coverage::{Half, FUNCTIONS};
use crate::damage::{break_directory, break_list};
use crate::faults::{reason_number, ImageRule, ListRule};
use crate::generate::half_damaged;
use crate::random::Random;
use crate::stage::{changed_dma, changed_fcb, Stage};
use crate::step::{Step, Told};
use crate::{named_entries, named_kinds, named_rules, named_searches, named_slots, named_vectors};
use reference::calls::{Numbers, DMA_LENGTH, MOST_RECORDS, RUN_FUNCTIONS};
use reference::kind::Kind;
use reference::rule::Rule;

pub type Play = fn(&mut Script);

/// A case on a drive of one kind.
pub struct Case {
    name: &'static str,
    pub kind: Kind,
    play: Play,
}

impl Case {
    pub fn title(&self) -> String {
        format!("{}, kind {}", self.name, self.kind.number())
    }
}

/// Played on drives of both kinds.
const CASES: [(&str, Play); 34] = [
    ("the session", session),
    ("open again at the open limit and with a full list", open_again),
    ("rename to itself", rename_to_itself),
    ("lock and unlock in modes 0 and 2", locks_without_effect),
    ("the lock limit counts held records of the run twice", lock_limit),
    ("2/0 leaves no trace", no_free_block),
    ("5/0 leaves no trace", no_empty_entry),
    ("40 clears the other records of a block, 34 none", zero_fill),
    ("41 raises the count", count_raised),
    ("the last record", last_record),
    ("numbers are judged whole", whole_numbers),
    ("Start's edges", start_edges),
    ("the common refusals, in order", common_refusals),
    ("each rule of a sound image", damaged_images),
    ("each rule of a sound list", damaged_lists),
    ("rows of Open", rows_of_open),
    ("rows of Make and Close", rows_of_make_and_close),
    ("rows of Delete", rows_of_delete),
    (
        "Delete of a file that only the caller has open",
        delete_of_an_open_file,
    ),
    ("rows of Rename", rows_of_rename),
    ("File Size", file_size),
    ("rows of Read", rows_of_read),
    ("rows of the writing calls", rows_of_writing),
    ("a read stops after 0 to 15 records", reads_that_stop),
    ("a write stops after 0 to 15 records", writes_that_stop),
    ("behind a refusal nothing is done", nothing_behind_a_refusal),
    ("a run takes the last block", last_block_of_a_run),
    ("a run takes the last entry", last_entry_of_a_run),
    ("40 clears a block once", zero_fill_of_a_run),
    (
        "runs over the ends of blocks, extents and modules",
        runs_over_ends,
    ),
    ("one record, whatever the count", one_record_only),
    ("rows of Lock and Unlock", rows_of_locking),
    ("Free Space and Terminate", free_space_and_terminate),
    ("Look", look),
];

pub fn cases() -> Vec<Case> {
    let both = Kind::ALL.into_iter().flat_map(|kind| {
        let cases = CASES
            .into_iter()
            .chain(named_entries::CASES)
            .chain(named_searches::CASES)
            .chain(named_vectors::CASES)
            .chain(named_rules::CASES)
            .chain(named_slots::CASES);
        cases.map(move |(name, play)| (kind, name, play))
    });
    both.chain(named_kinds::CASES)
        .map(|(kind, name, play)| Case { name, kind, play })
        .collect()
}

pub fn play(case: &Case, stage: &mut Stage, random: &mut Random) {
    stage.begin();
    let mut script = Script {
        stage,
        random,
        case: case.title(),
        kind: case.kind,
        rule: Rule::MpmII,
        book: Book::of(case.kind, case.kind.fewest_blocks()),
    };
    (case.play)(&mut script);
}

/// Plays calls on the stage and complains of answers other than the written ones.
pub struct Script<'a> {
    pub stage: &'a mut Stage,
    pub random: &'a mut Random,
    case: String,
    pub kind: Kind,
    /// The rule that its lists are started with, and that functions without a list are told.
    pub rule: Rule,
    /// The drive as it was when its world began.
    book: Book,
}

/// A call that waits for its answer.
pub struct Asked<'s, 'a> {
    script: &'s mut Script<'a>,
    numbers: Numbers,
    fcb: Vec<u8>,
    dma: Vec<u8>,
}

impl Asked<'_, '_> {
    pub fn kind(mut self, kind: u32) -> Self {
        self.numbers.kind = kind;
        self
    }

    pub fn count(mut self, count: u32) -> Self {
        self.numbers.count = count;
        self
    }

    pub fn id(mut self, low: u8, high: u8) -> Self {
        self.dma[..2].copy_from_slice(&[low, high]);
        self
    }

    pub fn fill(mut self, byte: u8) -> Self {
        self.dma.fill(byte);
        self
    }

    /// The record to be tested and the one to be written.
    pub fn records(mut self, tested: u8, written: u8) -> Self {
        self.dma[..128].fill(tested);
        self.dma[128..].fill(written);
        self
    }

    /// Each record of the DMA has a byte of its own, one more than that of the record before.
    pub fn rising(mut self, first: u8) -> Self {
        for (byte, record) in (first..).zip(self.dma.chunks_mut(128)) {
            record.fill(byte);
        }
        self
    }

    pub fn lengths(mut self, fcb: usize, dma: usize) -> Self {
        self.fcb.resize(fcb, 0);
        self.dma.resize(dma, 0);
        self
    }

    pub fn gives(self, a: u8, h: u8) {
        self.gives_and_leaves(a, h, None);
    }

    /// The DMA then begins with records of these bytes, and its rest is as it was.
    pub fn reads(self, a: u8, h: u8, records: &[u8]) {
        let mut dma = self.dma.clone();
        for (byte, record) in records.iter().zip(dma.chunks_mut(128)) {
            record.fill(*byte);
        }
        self.gives_and_leaves(a, h, Some(dma));
    }

    fn gives_and_leaves(self, a: u8, h: u8, wanted_dma: Option<Vec<u8>>) {
        let (numbers, dma) = (self.numbers, self.dma.clone());
        let reply = self.script.stage.serve(Step::Call {
            numbers,
            fcb: self.fcb,
            dma: self.dma,
        });
        let got = reply.as_ref().map(|reply| reply.answer);
        if got != Some(u32::from(a) + 256 * u32::from(h)) {
            self.script
                .complain(&format!("{numbers:?} gave {got:?}, not {a}/{h}"));
        }
        let left = reply.map(|reply| changed_dma(&dma, &reply));
        if wanted_dma.is_some() && left != wanted_dma {
            self.script
                .complain(&format!("{numbers:?} left another DMA than it should"));
        }
    }

    pub fn ok(self) {
        self.gives(0, 0);
    }

    /// A 35 that tells so many records, in bytes 33 to 35 and nowhere else.
    pub fn sizes(self, records: u32) {
        let (numbers, fcb) = (self.numbers, self.fcb.clone());
        let reply = self.script.stage.serve(Step::Call {
            numbers,
            fcb: self.fcb,
            dma: self.dma,
        });
        let mut wanted = fcb.clone();
        wanted[33..].copy_from_slice(&records.to_le_bytes()[..3]);
        let got = reply.map(|reply| (reply.answer, changed_fcb(&fcb, &reply)));
        if got.as_ref() != Some(&(0, wanted)) {
            let told = got.map(|(answer, fcb)| (answer, fcb[33..].to_vec()));
            self.script
                .complain(&format!("{numbers:?} gave {told:?}, not {records} records"));
        }
    }

    /// A search that finds this entry: its directory record is in the DMA, and the rest of that as
    /// it was.
    pub fn finds(self, slot: usize) {
        let at = 128 * (slot / 4);
        let mut dma = self.dma.clone();
        dma[..128].copy_from_slice(&self.script.stage.image()[at..at + 128]);
        self.searches((slot % 4) as u8, 0, slot + 1, dma);
    }

    /// A search that finds none, and sets the caller's position alone.
    pub fn finds_none(self) {
        let (end, dma) = (self.script.kind.entries(), self.dma.clone());
        self.searches(255, 0, end, dma);
    }

    fn searches(self, a: u8, h: u8, position: usize, wanted_dma: Vec<u8>) {
        let (numbers, dma) = (self.numbers, self.dma.clone());
        let mut wanted_list = self.script.stage.list().to_vec();
        wanted_list[POSITIONS][numbers.process as usize] = position as u8;
        let reply = self.script.stage.serve(Step::Call {
            numbers,
            fcb: self.fcb,
            dma: self.dma,
        });
        let got = reply.map(|reply| (reply.answer, changed_dma(&dma, &reply)));
        let wanted = (u32::from(a) + 256 * u32::from(h), wanted_dma);
        let answer = got.as_ref().map(|(answer, _)| *answer);
        if got != Some(wanted) || self.script.stage.list() != wanted_list {
            self.script.complain(&format!(
                "{numbers:?} gave {answer:?} and its bytes, not {a}/{h} and position {position}"
            ));
        }
    }

    /// A 46 that tells so many free records.
    pub fn tells(self, records: u32) {
        let mut dma = self.dma.clone();
        dma[..3].copy_from_slice(&records.to_le_bytes()[..3]);
        self.gives_and_leaves(0, 0, Some(dma));
    }
}

impl<'a> Script<'a> {
    pub fn world(&mut self, book: &Book, numbers: [u32; 3]) {
        self.world_of(book, numbers, [0; 16]);
    }

    pub fn world_of(&mut self, book: &Book, numbers: [u32; 3], users: [u8; 16]) {
        self.book = book.clone();
        self.world_on(&book.image, numbers, users);
    }

    pub fn world_on(&mut self, image: &[u8], numbers: [u32; 3], users: [u8; 16]) {
        self.stage.begin();
        self.stage.set_image(image, 0xE5);
        self.stage.serve(Step::List { length: 0, fill: 0 });
        self.stage.serve(Step::List {
            length: LIST,
            fill: 0xAA,
        });
        self.starts(numbers, &users, true);
    }

    pub fn starts(&mut self, numbers: [u32; 3], users: &[u8], accepted: bool) {
        self.starts_told(self.kind.number(), numbers, users, accepted);
    }

    pub fn starts_told(&mut self, kind: u32, numbers: [u32; 3], users: &[u8], accepted: bool) {
        self.starts_with_rule(kind, numbers, self.rule.number(), users, accepted);
    }

    pub fn starts_with_rule(&mut self, kind: u32, limits: [u32; 3], rule: u32, users: &[u8], accepted: bool) {
        let [capacity, open_limit, lock_limit] = limits;
        let numbers = [capacity, open_limit, lock_limit, rule];
        let reply = self.stage.serve(Step::Start {
            kind,
            numbers,
            users: users.to_vec(),
        });
        let wanted = if accepted { 0 } else { 255 + 256 * 13 };
        if reply.map(|reply| reply.answer) != Some(wanted) {
            self.complain(&format!("Start with {numbers:?}, kind {kind}"));
        }
    }

    /// An empty drive of so many blocks, two of them the directory's.
    fn empty(&self, blocks: usize) -> Book {
        Book::of(self.kind, blocks)
    }

    /// How many records a block has.
    fn size(&self) -> u32 {
        self.kind.records_per_block()
    }

    pub fn complain(&mut self, what: &str) {
        self.stage.complain(format!("{}: {what}", self.case));
    }

    /// Whatever the case has put into the image by hand, the vector follows it.
    pub fn call(&mut self, process: u32, function: u32, fcb: Fcb) -> Asked<'_, 'a> {
        self.stage.follow(self.kind, self.rule);
        let kind = self.kind.number();
        Asked {
            script: self,
            numbers: Numbers {
                kind,
                function,
                process,
                count: 1,
            },
            fcb: fcb.0.to_vec(),
            dma: vec![0; DMA_LENGTH],
        }
    }

    pub fn check(&mut self, wanted: u32) {
        self.check_told(self.kind.number(), wanted);
    }

    pub fn told(&self, kind: u32) -> Told {
        Told {
            kind,
            rule: self.rule.number(),
        }
    }

    pub fn check_told(&mut self, kind: u32, wanted: u32) {
        let told = self.told(kind);
        let reply = self.stage.serve(Step::Check { told });
        if reply.map(|reply| reply.answer) != Some(wanted) {
            self.complain(&format!("check of kind {kind} does not give {wanted}"));
        }
    }

    /// The code alone; the stage knows the entry.
    fn check_code(&mut self, wanted: u32) {
        let told = self.told(self.kind.number());
        let reply = self.stage.serve(Step::Check { told });
        if reply.map(|reply| reply.answer % 256) != Some(wanted) {
            self.complain(&format!("check does not give {wanted}"));
        }
    }

    pub fn look(&mut self, user: u32, name: &[u8], record: u32, wanted: usize) {
        self.look_told(self.kind.number(), user, name, record, wanted);
    }

    pub fn look_told(&mut self, kind: u32, user: u32, name: &[u8], record: u32, wanted: usize) {
        let told = self.told(kind);
        let reply = self.stage.serve(Step::Look {
            told,
            user,
            name: name.to_vec(),
            record,
        });
        if reply.map(|reply| reply.answer as usize) != Some(wanted) {
            self.complain(&format!("look at {record}, kind {kind}, does not give {wanted}"));
        }
    }

    /// This record of this block is full of this byte.
    fn record_has(&mut self, block: u16, place: u32, byte: u8) {
        let at = self.book.record_at(block, place);
        self.image_has(at, &[byte; 128]);
    }

    /// The entry has this count and these block numbers, and no others.
    fn entry_has(&mut self, slot: usize, count: u8, blocks: &[(usize, u16)]) {
        let wanted = self.book.entry(Entry([0; 32]).count(count), blocks);
        self.image_has(32 * slot + 15, &wanted.0[15..]);
    }

    pub fn image_has(&mut self, at: usize, bytes: &[u8]) {
        let there = &self.stage.image()[at..at + bytes.len()];
        let differing = (at..)
            .zip(there.iter().zip(bytes))
            .find(|(_, (is, wanted))| is != wanted);
        if let Some((at, (is, wanted))) = differing {
            let fault = format!("the image at {at} has {is:02X}, not {wanted:02X}");
            self.complain(&fault);
        }
    }

    pub fn list_has(&mut self, place: usize, item: [u8; 20]) {
        if crate::build::item_at(self.stage.list(), place) != item {
            self.complain(&format!("place {place} is not {item:?}"));
        }
    }
}

const FILE: &str = "FILE.DAT";
const OTHER: &str = "OTHER.DAT";
const ILLEGAL: [&str; 4] = ["", "A?.DAT", "A\u{1f}", "A\u{7f}"];

fn file() -> Fcb {
    Fcb::named(FILE)
}

fn shared() -> Fcb {
    file().unlocked()
}

fn other() -> Fcb {
    Fcb::named(OTHER)
}

/// Two files without blocks.
fn two_files(kind: Kind) -> Book {
    Book::of(kind, 6).with(&[(Entry::named(FILE), &[]), (Entry::named(OTHER), &[])])
}

/// A file with a block for its first records, one for those behind the next block's, and one for
/// the records from 4,096 on; the rest of the drive free.
fn one_file(kind: Kind, blocks: usize) -> Book {
    let first = Entry::named(FILE).count(4).attribute(2).with(13, 9);
    let later = Entry::named(FILE).extent(32).attribute(3).with(13, 8);
    Book::of(kind, blocks).with(&[(first, &[(0, 2), (2, 3)]), (later, &[(0, 4)])])
}

fn session(script: &mut Script) {
    let orders = |record: u32| Fcb::named("ORDERS.DAT").unlocked().record(record);
    let orders_name = name("ORDERS.DAT");
    let size = script.size();
    script.world(&script.empty(4), [3, 2, 2]);
    script.call(1, 22, orders(0)).ok();
    script.list_has(0, open_item(1, orders_name, 1));
    script.call(2, 15, orders(0)).ok();
    script.list_has(1, open_item(2, orders_name, 1));
    script.call(1, 34, orders(0)).ok();
    script.entry_has(0, 1, &[(0, 2)]);
    script.call(1, 42, orders(0)).ok();
    script.list_has(2, lock_item(1, orders_name, 0));
    script.call(2, 34, orders(0)).id(1, 0).gives(8, 0);
    script.call(2, 34, orders(size)).id(1, 0).ok();
    script.entry_has(0, size as u8 + 1, &[(0, 2), (1, 3)]);
    script.call(2, 42, orders(size)).id(1, 0).gives(14, 0);
    script.call(2, 34, orders(2 * size)).id(1, 0).gives(2, 0);
    script.call(1, 46, orders(0)).tells(0);
    script.call(1, 42, orders(0)).ok();
    script.call(1, 42, orders(0)).count(2).gives(12, 0);
    script.call(1, 143, orders(0)).ok();
    script.list_has(0, [0; 20]);
    script.list_has(2, [0; 20]);
    script.call(2, 42, orders(size)).id(1, 0).ok();
    script.list_has(0, lock_item(2, orders_name, size));
    script.call(2, 19, orders(0)).id(1, 0).ok();
    script.list_has(0, [0; 20]);
    script.list_has(1, [0; 20]);
    script.image_has(0, &[0xE5, b'O']);
    script.call(2, 46, orders(0)).tells(2 * size);
}

fn open_again(script: &mut Script) {
    let two_files = two_files(script.kind);
    for fcb in [file(), shared(), file().read_only(), shared().read_only()] {
        script.world(&two_files, [1, 1, 1]);
        script.call(3, 15, fcb).ok();
        let mut dirty = Fcb([0xFF; 36]);
        dirty.0[..12].copy_from_slice(&fcb.0[..12]);
        script.call(3, 15, dirty).fill(0x33).ok();
        script.call(3, 15, other()).gives(255, 10);
        script.call(4, 15, other()).gives(255, 11);
    }
    // At the open limit, with places left.
    script.world(&two_files, [9, 1, 1]);
    script.call(3, 15, shared()).ok();
    script.call(3, 15, shared().record(77)).ok();
    script.call(3, 15, file()).gives(255, 5);
    script.call(3, 15, other()).gives(255, 10);
    // With a full list, below the open limit.
    script.world(&two_files, [2, 9, 1]);
    script.call(4, 15, shared()).ok();
    script.call(3, 15, shared()).ok();
    script.call(3, 15, shared().record(77)).ok();
    script.call(3, 15, other()).gives(255, 11);
}

fn rename_to_itself(script: &mut Script) {
    script.world(&one_file(script.kind, 6), [9, 9, 9]);
    script.call(0, 23, file().new_name(name(FILE))).gives(255, 8);
    let high = name(FILE).map(|byte| byte | 128);
    script.call(0, 23, file().new_name(high)).gives(255, 8);
    script.call(0, 23, other().new_name(name(OTHER))).gives(255, 0);
    script.call(0, 15, file()).ok();
    script.call(0, 23, file().new_name(name(FILE))).gives(255, 5);
    let read_only = script.empty(6).with(&[(Entry::named(FILE).read_only(), &[])]);
    script.world(&read_only, [9, 9, 9]);
    script.call(0, 23, file().new_name(name(FILE))).gives(255, 3);
}

fn locks_without_effect(script: &mut Script) {
    let one_file = one_file(script.kind, 6);
    for fcb in [file(), file().read_only()] {
        script.world(&one_file, [1, 1, 1]);
        script.call(5, 15, fcb).ok();
        for function in [42, 43] {
            let wild = fcb.with(33, 255).with(34, 255).with(35, 255);
            script.call(5, function, wild).fill(0xFF).count(16).ok();
            script.call(5, function, fcb.record(128)).ok();
            script.call(5, function, wild).fill(0xFF).count(17).gives(255, 13);
        }
        script.list_has(1, [0; 20]);
    }
    // The mode is that of the open, not of the FCB.
    script.world(&one_file, [9, 1, 1]);
    script.call(5, 15, shared()).ok();
    script.call(5, 42, file().read_only()).id(9, 9).gives(13, 0);
}

fn lock_limit(script: &mut Script) {
    script.world(&one_file(script.kind, 6), [64, 2, 4]);
    script.call(0, 15, shared()).ok();
    script.call(0, 42, shared()).count(2).ok();
    script.call(0, 42, shared()).count(3).gives(12, 0);
    script.call(0, 42, shared()).count(2).ok();
    script.call(0, 42, shared().record(1)).count(2).ok();
    script.call(0, 42, shared()).count(2).gives(12, 0);
    script.call(0, 42, shared()).count(1).ok();
    script.call(0, 42, shared().record(7)).count(1).ok();
    script.call(0, 42, shared()).count(1).gives(12, 0);
    // Records held in another file count too.
    let book = script.empty(6).with(&[(Entry::named(FILE), &[(0, 2)])]);
    script.world(&book, [64, 2, 1]);
    script.call(0, 22, other().unlocked()).ok();
    script.call(0, 34, other()).ok();
    script.call(0, 42, other()).ok();
    script.call(0, 15, shared()).ok();
    script.call(0, 42, shared()).id(2, 0).gives(12, 0);
}

fn no_free_block(script: &mut Script) {
    let size = script.size();
    for function in [34, 40] {
        script.world(&one_file(script.kind, 5), [9, 9, 9]);
        script.call(0, 15, shared()).ok();
        script
            .call(0, function, shared().record(size))
            .fill(1)
            .gives(2, 0);
        script.call(0, function, shared().record(128)).fill(1).gives(2, 0);
        script.image_has(64, &[0xE5; 32]);
        script.call(0, function, shared().record(7)).fill(1).ok();
    }
}

fn no_empty_entry(script: &mut Script) {
    let size = script.size();
    for function in [34, 40] {
        script.world(&one_file(script.kind, 6).crowded(None), [9, 9, 9]);
        script.call(0, 15, shared()).ok();
        script.call(0, function, shared().record(128)).fill(1).gives(5, 0);
        script.call(0, 46, file()).tells(size);
        script.call(0, function, shared().record(127)).fill(1).ok();
        script.call(0, function, shared().record(128)).fill(1).gives(5, 0);
        let before_it = shared().record(127 - size);
        script.call(0, function, before_it).fill(1).gives(2, 0);
    }
}

fn zero_fill(script: &mut Script) {
    let size = script.size();
    for (function, rest) in [(34, 0xE5), (40, 0)] {
        script.world(&one_file(script.kind, 7), [9, 9, 9]);
        script.call(0, 15, shared()).ok();
        // A new block in an extent that is there, then one in a new extent, then both again.
        for (record, block) in [(size + 3, 5), (128 + size - 2, 6)] {
            let fcb = shared().record(record);
            let place = record % size;
            script.call(0, function, fcb).fill(0x77).ok();
            for i in 0..size {
                let byte = if i == place { 0x77 } else { rest };
                script.record_has(block, i, byte);
            }
            let next = shared().record(record + 1);
            script.call(0, 74 - function, next).fill(0x78).ok();
            script.record_has(block, place, 0x77);
            script.record_has(block, place + 1, 0x78);
            script.record_has(block, 0, rest);
        }
    }
}

fn count_raised(script: &mut Script) {
    script.world(&one_file(script.kind, 6).filled(2, 0x11), [9, 9, 9]);
    script.call(0, 15, shared()).ok();
    for (record, count) in [(0, 4), (3, 4), (4, 5), (7, 8), (5, 8)] {
        let fcb = shared().record(record);
        script.call(0, 41, fcb).records(0x11, 0x22).ok();
        script.entry_has(0, count, &[(0, 2), (2, 3)]);
        script.call(0, 41, fcb).records(0x11, 0x22).gives(7, 0);
        script.call(0, 41, fcb).records(0x22, 0x11).ok();
    }
}

fn last_record(script: &mut Script) {
    let size = script.size();
    script.world(&script.empty(4), [64, 9, 64]);
    let last = shared().record(262_143);
    script.call(0, 22, shared()).ok();
    script.call(0, 34, last).fill(0x66).ok();
    script.image_has(32 + 12, &[31, 0, 63]);
    script.entry_has(1, 128, &[(script.kind.numbers_per_entry() - 1, 2)]);
    script.record_has(2, size - 1, 0x66);
    script.call(0, 33, last).ok();
    script.call(0, 42, last).ok();
    script.call(0, 42, last).count(2).gives(6, 0);
    script.call(0, 43, last).count(2).gives(6, 0);
    let first_of_block = 262_144 - size;
    script
        .call(0, 42, shared().record(first_of_block))
        .count(size)
        .ok();
    let before_it = shared().record(first_of_block - 1);
    script.call(0, 42, before_it).count(2).gives(1, 0);
    for function in [33, 34, 40, 41, 42, 43] {
        script.call(0, function, shared().record(262_144)).gives(6, 0);
        script.call(0, function, shared().with(35, 255)).gives(6, 0);
    }
    script.call(0, 43, shared().record(262_128)).count(16).ok();
}

fn whole_numbers(script: &mut Script) {
    script.world(&one_file(script.kind, 6), [9, 9, 9]);
    let kind = script.kind.number();
    for beyond in [256, 65_536, 1 << 24, 1 << 31] {
        script.call(0, 15 + beyond, file()).gives(255, 13);
        script.call(beyond, 15, file()).gives(255, 13);
        script.call(0, 15, file()).count(1 + beyond).gives(255, 13);
        script.call(0, 15, file()).kind(kind + beyond).gives(255, 13);
        script.starts([5 + beyond, 5, 5], &[0; 16], false);
        script.starts([5, 5 + beyond, 5], &[0; 16], false);
        script.starts([5, 5, 5 + beyond], &[0; 16], false);
        script.starts_told(kind + beyond, [5, 5, 5], &[0; 16], false);
        script.look(beyond, &name(FILE), 0, 0);
        script.look_told(kind + beyond, 0, &name(FILE), 0, 0);
        script.check_told(kind + beyond, 1);
    }
    script.look(0, &name(FILE), 262_144, 0);
    script.look(0, &name(FILE), 1 << 24, 0);
    for function in 0..256 {
        if !FUNCTIONS.contains(&function) {
            script.call(0, function, file()).gives(255, 13);
            script.call(0, function, file()).kind(2).gives(255, 13);
        }
    }
    for count in [0, 17, 255] {
        script.call(0, 15, file()).count(count).gives(255, 13);
    }
    for count in [1, 16] {
        script.call(0, 33, file()).count(count).gives(10, 0);
    }
}

fn start_edges(script: &mut Script) {
    script.world(&script.empty(3), [9, 9, 9]);
    for number in [0, 1, 64, 65] {
        let accepted = (1..=64).contains(&number);
        script.starts([number, 9, 9], &[0; 16], accepted);
        script.starts([9, number, 9], &[15; 16], accepted);
        script.starts([9, 9, number], &[7; 16], accepted);
    }
    let mut users = [15; 16];
    users[15] = 16;
    script.starts([9, 9, 9], &users, false);
    for length in [0, 15, 17] {
        script.starts([9, 9, 9], &vec![0; length], false);
    }
    for length in [0, 1299, 1314, 1315, 1317] {
        script.stage.serve(Step::List { length, fill: 0x33 });
        script.starts([9, 9, 9], &[0; 16], false);
    }
}

fn common_refusals(script: &mut Script) {
    let wrong_drive = file().with(0, 2);
    let two_files = two_files(script.kind);
    for function in FUNCTIONS {
        script.world(&two_files, [9, 9, 9]);
        let spare = [function == 46, function == 143].contains(&true);
        match spare {
            true => script.call(0, function, wrong_drive).ok(),
            false => script.call(0, function, wrong_drive).count(16).gives(255, 4),
        }
        script.stage.damaged();
        script.stage.serve(Step::PatchList {
            at: 0,
            bytes: vec![0],
        });
        script.call(0, function, wrong_drive).count(16).gives(255, 12);
        script.stage.serve(Step::PatchImage {
            at: 0,
            bytes: vec![99],
        });
        script.call(0, function, wrong_drive).count(16).gives(255, 1);
        script.stage.serve(Step::Image { length: 5, fill: 0 });
        script.call(0, function, wrong_drive).gives(255, 1);
        let other_kind = script.kind.other();
        let length = other_kind.fewest_blocks() * other_kind.block();
        script.stage.serve(Step::Image { length, fill: 0xE5 });
        script.call(0, function, wrong_drive).gives(255, 1);
        script.call(16, function, wrong_drive).gives(255, 13);
        script.call(0, function, wrong_drive).count(0).gives(255, 13);
        script.call(0, function, wrong_drive).count(17).gives(255, 13);
        script.call(0, function, wrong_drive).kind(2).gives(255, 13);
        for (fcb, dma) in [
            (35, 2_048),
            (37, 2_048),
            (36, 128),
            (36, 256),
            (36, 2_047),
            (36, 2_049),
            (0, 0),
        ] {
            script
                .call(0, function, wrong_drive)
                .count(16)
                .lengths(fcb, dma)
                .gives(255, 13);
        }
        for length in [0, 1299, 1314, 1315, 1317] {
            script.stage.serve(Step::List { length, fill: 0 });
            script.call(0, function, wrong_drive).gives(255, 13);
        }
        script.stage.repaired();
    }
}

/// Several files, users and holders, so that every rule can be broken.
fn rich_world(script: &mut Script) {
    let book = script.empty(9).with(&[
        (Entry::named(FILE).count(16), &[(0, 2), (1, 3)]),
        (Entry::named(OTHER), &[(0, 4)]),
        (Entry::named("QUIET"), &[]),
        (Entry::of(15, name(FILE), 0), &[(0, 5)]),
        (Entry::named(OTHER).extent(5), &[(3, 6)]),
    ]);
    let mut users = [0; 16];
    users[9] = 15;
    script.world_of(&book, [12, 3, 3], users);
    let items = [
        lock_item(1, name(FILE), 7),
        open_item(2, name(FILE), 1),
        [0; 20],
        open_item(1, name(FILE), 1),
        open_item(1, name(OTHER), 0),
        lock_item(2, name(FILE), 0),
        [0; 20],
        lock_item(2, name(FILE), 15),
        open_item(9, name(FILE), 1),
        lock_item(9, name(FILE), 7),
        open_item(3, name("QUIET"), 2),
    ];
    let mut list = script.stage.list().to_vec();
    for (place, item) in items.into_iter().enumerate() {
        put_item(&mut list, place, item);
    }
    // The items were put there by hand, so no history speaks of them.
    script.stage.begin();
    script.stage.set_list(&list);
    script.call(0, 46, file()).ok();
}

/// The halves in which a drive of this kind has entries.
fn halves(kind: Kind, rule: ImageRule) -> &'static [Half] {
    match (kind, rule) {
        (Kind::First, _) | (_, ImageRule::Length) => &[Half::Lower],
        (Kind::Second, _) => &[Half::Lower, Half::Upper],
    }
}

fn damaged_images(script: &mut Script) {
    rich_world(script);
    let image = script.stage.image().to_vec();
    for rule in ImageRule::ALL {
        for half in halves(script.kind, rule) {
            damaged_image(script, &image, rule, *half);
        }
    }
    script.call(0, 46, file()).ok();
}

/// The image's beginning with this rule broken, by an entry of this half.
fn break_in_half(script: &mut Script, image: &[u8], rule: ImageRule, half: Half) -> Option<Vec<u8>> {
    const TRIES: usize = 200;
    let kind = script.kind;
    let mut damages = (0..TRIES).filter_map(|_| break_directory(rule, kind, image, script.random));
    damages.find(|damaged| half_damaged(&image[..damaged.len()], damaged) == half)
}

fn damaged_image(script: &mut Script, image: &[u8], rule: ImageRule, half: Half) {
    let damaged = match rule {
        ImageRule::Length => Some(image[..image.len() - 1].to_vec()),
        _ => break_in_half(script, image, rule, half).map(|mut directory| {
            directory.extend(&image[directory.len()..]);
            directory
        }),
    };
    let Some(damaged) = damaged else {
        script.complain(&format!("{rule:?} cannot be broken"));
        return;
    };
    script.stage.coverage.note_image_rule(script.kind, rule, half);
    script.stage.damaged();
    script.stage.set_image(&damaged, 0xE5);
    script.check_code(reason_number(rule));
    script.look(0, &name(FILE), 0, 0);
    for function in FUNCTIONS {
        script.call(1, function, file()).gives(255, 1);
    }
    script.stage.set_image(image, 0xE5);
    script.stage.repaired();
}

fn damaged_lists(script: &mut Script) {
    rich_world(script);
    let (list, image) = (script.stage.list().to_vec(), script.stage.image().to_vec());
    for rule in ListRule::ALL {
        let damaged = (0..20).find_map(|_| break_list(rule, script.kind, &list, &image, script.random));
        let Some(damaged) = damaged else {
            script.complain(&format!("{rule:?} cannot be broken"));
            continue;
        };
        script.stage.coverage.note_list_rule(script.kind, rule);
        script.stage.damaged();
        script.stage.set_list(&damaged);
        for function in FUNCTIONS {
            script.call(1, function, file()).gives(255, 12);
        }
        script.stage.set_list(&list);
        script.stage.repaired();
    }
    script.call(0, 46, file()).ok();
}

fn rows_of_open(script: &mut Script) {
    let two_files = two_files(script.kind);
    script.world(&two_files, [4, 2, 2]);
    for bad in ILLEGAL {
        script.call(0, 15, Fcb::named(bad)).gives(255, 9);
    }
    script.call(0, 15, Fcb::named("NONE")).gives(255, 0);
    script.call(0, 15, shared()).ok();
    script.call(0, 15, file()).gives(255, 5);
    script.call(0, 15, file().read_only()).gives(255, 5);
    script.call(1, 15, file()).gives(255, 5);
    script.call(1, 15, shared().read_only()).gives(255, 5);
    script.call(1, 15, shared()).ok();
    script.call(2, 15, other().read_only()).ok();
    script.call(3, 15, other().unlocked().read_only()).ok();
    script.call(4, 15, other().unlocked()).gives(255, 5);
    script.call(4, 15, other().read_only()).gives(255, 11);
    script.world(&two_files, [4, 1, 2]);
    script.call(0, 15, file()).ok();
    script.call(1, 15, file()).gives(255, 5);
    script.call(0, 15, other()).gives(255, 10);
    script.call(1, 15, other()).ok();
    script.call(0, 15, other()).gives(255, 5);
}

fn rows_of_make_and_close(script: &mut Script) {
    script.world(&two_files(script.kind), [3, 1, 1]);
    for bad in ILLEGAL {
        script.call(0, 22, Fcb::named(bad)).gives(255, 9);
        script.call(0, 16, Fcb::named(bad)).gives(255, 6);
    }
    script.call(0, 22, file()).gives(255, 8);
    script.call(0, 22, Fcb::named("NEW").read_only()).ok();
    script.call(0, 22, Fcb::named("NEW")).gives(255, 8);
    script.call(0, 22, Fcb::named("NEWER")).gives(255, 10);
    script.call(1, 22, Fcb::named("NEWER").unlocked()).ok();
    script.call(2, 15, file()).ok();
    script.call(3, 22, Fcb::named("NEWEST")).gives(255, 11);
    script.call(2, 22, Fcb::named("NEWEST")).gives(255, 10);
    script.call(3, 16, file()).gives(255, 6);
    script.call(2, 16, other()).gives(255, 6);
    script.call(2, 16, file()).ok();
    script.call(1, 34, Fcb::named("NEWER")).ok();
    script.call(1, 42, Fcb::named("NEWER")).id(1, 0).ok();
    script.call(1, 16, Fcb::named("NEWER")).ok();
    script.list_has(0, open_item(0, name("NEW"), 0));
    script.list_has(1, [0; 20]);
    script.list_has(2, [0; 20]);
    script.world(&one_file(script.kind, 6).crowded(None), [1, 1, 1]);
    script.call(0, 22, Fcb::named("NEW")).gives(255, 0);
    script.call(0, 15, file()).ok();
    script.call(1, 22, Fcb::named("NEW")).gives(255, 11);
}

fn rows_of_delete(script: &mut Script) {
    let book = script.empty(6).with(&[
        (Entry::named(FILE).read_only(), &[]),
        (Entry::named(OTHER).attribute(1), &[]),
        (Entry::named(OTHER).extent(9).read_only(), &[(0, 2)]),
        (Entry::named("THIRD"), &[]),
        (Entry::of(1, name(OTHER), 0), &[]),
    ]);
    let size = script.size();
    script.world(&book, [9, 9, 9]);
    for bad in ILLEGAL {
        script.call(0, 19, Fcb::named(bad)).gives(255, 9);
    }
    script.call(0, 19, Fcb::named("NONE")).gives(255, 0);
    script.call(0, 15, other()).ok();
    script.call(1, 19, other()).gives(255, 5);
    script.call(1, 19, file()).gives(255, 3);
    script.call(0, 15, file()).ok();
    script.call(1, 19, file()).gives(255, 5);
    script.call(0, 16, other()).ok();
    script.call(0, 46, other()).tells(3 * size);
    script.call(1, 19, other()).ok();
    script.call(0, 46, other()).tells(4 * size);
    script.call(1, 19, other()).gives(255, 0);
    script.call(1, 19, Fcb::named("THIRD")).ok();
    script.image_has(128, &[1]);
    // The caller's own open of the file that may not go stays.
    script.call(0, 19, file()).gives(255, 3);
    script.list_has(1, open_item(0, name(FILE), 0));
}

/// Delete takes the caller's open and locks with the file, in any mode, and nothing else.
fn delete_of_an_open_file(script: &mut Script) {
    let drive = one_file(script.kind, 6);
    for (fcb, mode) in [(file(), 0), (file().read_only(), 2), (shared(), 1)] {
        script.world(&drive, [9, 9, 9]);
        script.call(3, 15, fcb).ok();
        script.list_has(0, open_item(3, name(FILE), mode));
        script.call(3, 23, fcb.new_name(name("NEW"))).gives(255, 5);
        script.call(4, 19, fcb).gives(255, 5);
        script.call(3, 19, fcb).ok();
        script.list_has(0, [0; 20]);
        script.image_has(0, &[0xE5, b'F']);
        script.image_has(32, &[0xE5, b'F']);
        script.call(3, 33, fcb).gives(10, 0);
        script.call(3, 16, fcb).gives(255, 6);
        script.call(3, 19, fcb).gives(255, 0);
        // The place and the entry are to be had again.
        script.call(5, 22, shared()).ok();
        script.list_has(0, open_item(5, name(FILE), 1));
        script.image_has(0, &[0, b'F']);
    }
    // Locks in another file, and the same name of another user, stay as they are.
    let size = script.size();
    let book = script.empty(8).with(&[
        (Entry::named(FILE).count(8), &[(0, 2), (1, 3)]),
        (Entry::named(OTHER).count(8), &[(0, 4)]),
        (Entry::of(1, name(FILE), 0).count(8), &[(0, 5)]),
        (Entry::named(FILE).extent(40).count(1), &[(0, 6)]),
    ]);
    let mut users = [0; 16];
    users[7] = 1;
    script.world_of(&book, [16, 9, 9], users);
    script.call(2, 15, other().unlocked()).ok();
    script.call(2, 15, shared()).ok();
    script.call(7, 15, shared()).ok();
    script.call(2, 42, shared()).id(1, 0).count(2).ok();
    script.call(2, 42, other()).id(0, 0).count(2).ok();
    script.call(2, 42, shared().record(size + 1)).id(1, 0).ok();
    script.call(7, 42, shared()).id(2, 0).ok();
    script.call(4, 15, shared()).ok();
    // With another's open beside it, nothing goes.
    script.call(2, 19, file()).gives(255, 5);
    script.call(4, 19, file()).gives(255, 5);
    script.call(4, 16, file()).ok();
    script.call(2, 46, file()).tells(size);
    script.call(2, 19, file()).ok();
    script.list_has(0, open_item(2, name(OTHER), 1));
    script.list_has(1, [0; 20]);
    script.list_has(2, open_item(7, name(FILE), 1));
    script.list_has(3, [0; 20]);
    script.list_has(4, [0; 20]);
    script.list_has(5, lock_item(2, name(OTHER), 0));
    script.list_has(6, lock_item(2, name(OTHER), 1));
    script.list_has(7, [0; 20]);
    script.list_has(8, lock_item(7, name(FILE), 0));
    script.list_has(9, [0; 20]);
    script.image_has(64, &[1, b'F']);
    script.image_has(96, &[0xE5, b'F']);
    script.call(2, 46, file()).tells(4 * size);
    script.call(7, 33, shared()).ok();
    script.call(7, 19, shared()).ok();
    script.list_has(2, [0; 20]);
    script.list_has(8, [0; 20]);
    script.list_has(5, lock_item(2, name(OTHER), 0));
}

/// The highest extent tells the size, wherever it stands, and whoever has the file open.
fn file_size(script: &mut Script) {
    // FILE has its extents out of order: the highest, 66, stands before the others, the last entry is
    // extent 0's, and 65 has a higher count. OTHER's highest extent is without blocks and records.
    let book = script.empty(12).with(&[
        (Entry::named(FILE).extent(65).count(128), &[(0, 2)]),
        (Entry::named(FILE).extent(66).count(3).read_only(), &[]),
        (Entry::named(FILE).extent(31).count(77), &[(1, 3)]),
        (Entry::named(OTHER).count(9).read_only(), &[(0, 4), (3, 5)]),
        (Entry::named(OTHER).extent(1), &[]),
        (Entry::named("LAST").count(1), &[]),
        (Entry::named("LAST").extent(2_047).count(128), &[(0, 6)]),
        (Entry::named("NIL"), &[]),
        (Entry::named("SHORT").count(1), &[(0, 7), (1, 8)]),
        (Entry::of(1, name(FILE), 0).count(5), &[]),
        (Entry::named(FILE).count(127), &[]),
    ]);
    let mut users = [0; 16];
    users[7] = 1;
    script.world_of(&book, [9, 9, 9], users);
    for bad in ILLEGAL {
        script.call(0, 35, Fcb::named(bad)).gives(255, 9);
    }
    script.call(0, 35, Fcb::named("NONE")).gives(255, 0);
    script.call(7, 35, other()).gives(255, 0);
    let dirty = |text: &str| {
        let mut fcb = Fcb([0xFF; 36]);
        fcb.0[0] = 1;
        fcb.0[1..12].copy_from_slice(&name(text).map(|byte| byte | 128));
        fcb
    };
    let wanted = [
        (FILE, 128 * 66 + 3),
        (OTHER, 128),
        ("LAST", 262_144),
        ("NIL", 0),
        ("SHORT", 1),
    ];
    for (text, records) in wanted {
        script.call(0, 35, Fcb::named(text)).fill(0xEE).sizes(records);
        script
            .call(3, 35, dirty(text))
            .count(16)
            .fill(0xEE)
            .sizes(records);
    }
    script.call(7, 35, file()).sizes(5);
    // Open by the caller or another, in any mode, and locked: it is the same.
    script.call(1, 15, shared()).ok();
    script.call(1, 42, shared().record(128 * 65)).count(2).ok();
    script.call(1, 35, shared()).sizes(128 * 66 + 3);
    script.call(2, 35, file()).sizes(128 * 66 + 3);
    script.call(2, 15, other()).ok();
    script.call(2, 35, other()).sizes(128);
    script.call(3, 35, other()).sizes(128);
    // It grows by a record in a higher extent, and falls by no write.
    script.call(1, 34, shared().record(128 * 66 + 9)).ok();
    script.call(0, 35, file()).sizes(128 * 66 + 10);
    script.call(1, 34, shared().record(128 * 66 + 2)).ok();
    script.call(0, 35, file()).sizes(128 * 66 + 10);
    script.call(1, 19, file()).ok();
    script.call(0, 35, file()).gives(255, 0);
    script.call(7, 35, file()).sizes(5);
}

fn rows_of_rename(script: &mut Script) {
    let book = script.empty(6).with(&[
        (Entry::named(FILE).read_only(), &[]),
        (Entry::named(OTHER).attribute(1).with(13, 5), &[]),
        (Entry::named(OTHER).extent(9).read_only(), &[(0, 2)]),
        (Entry::named("THIRD"), &[]),
        (Entry::of(1, name("FOURTH"), 0), &[]),
    ]);
    let to = |fcb: Fcb, text: &str| fcb.new_name(name(text));
    script.world(&book, [9, 9, 9]);
    for bad in ILLEGAL {
        script.call(0, 23, to(Fcb::named(bad), "NEW")).gives(255, 9);
        script.call(0, 23, to(Fcb::named("NONE"), bad)).gives(255, 9);
    }
    script.call(0, 23, to(Fcb::named("NONE"), OTHER)).gives(255, 0);
    script.call(0, 15, other()).ok();
    script.call(0, 23, to(other(), "NEW")).gives(255, 5);
    script.call(1, 23, to(other(), FILE)).gives(255, 5);
    script.call(1, 23, to(file(), OTHER)).gives(255, 3);
    script.call(0, 16, other()).ok();
    script.call(1, 23, to(other(), FILE)).gives(255, 8);
    script.call(1, 23, to(other(), OTHER)).gives(255, 8);
    script.call(1, 23, to(other(), "FOURTH").with(16, 200)).ok();
    script.call(1, 23, to(Fcb::named("THIRD"), OTHER)).ok();
    script.call(1, 23, to(Fcb::named("FOURTH"), "THIRD")).ok();
}

fn rows_of_read(script: &mut Script) {
    let size = script.size();
    script.world(&one_file(script.kind, 6), [64, 9, 9]);
    script.call(0, 33, shared().record(262_144)).gives(10, 0);
    script.call(0, 33, Fcb::named("")).gives(10, 0);
    script.call(1, 15, shared()).ok();
    script.call(0, 33, shared()).count(16).gives(10, 0);
    script.call(0, 15, shared()).ok();
    script.call(1, 42, shared()).count(8).ok();
    for record in [128, 4_095, 4_224, 262_143] {
        script.call(0, 33, shared().record(record)).gives(4, 0);
    }
    for record in [size, 2 * size - 1, 3 * size, 127, 4_096 + size] {
        script.call(0, 33, shared().record(record)).gives(1, 0);
    }
    for record in [0, size - 1, 2 * size, 3 * size - 1, 4_096, 4_095 + size] {
        script.call(0, 33, shared().record(record)).fill(0xCC).ok();
    }
}

fn rows_of_writing(script: &mut Script) {
    let (kind, size) = (script.kind, script.size());
    let mut read_only = one_file(kind, 6);
    read_only.image[9] |= 128;
    for function in [34, 40, 41] {
        let wild = shared().record(262_144);
        script.world(&read_only, [9, 9, 9]);
        script.call(0, function, wild).gives(10, 0);
        script.call(0, function, shared()).count(16).gives(10, 0);
        script.call(0, 15, shared()).ok();
        script.call(0, function, wild).gives(255, 3);
        script.call(0, function, shared()).count(16).gives(255, 3);
        script.world(&one_file(kind, 6), [64, 9, 9]);
        script.call(0, 15, file().read_only()).ok();
        script.call(0, function, wild).gives(255, 3);
        script.call(0, function, shared()).count(16).gives(255, 3);
        script.call(0, 16, file()).ok();
        script.call(0, 15, shared()).ok();
        script.call(1, 15, shared()).ok();
        script.call(0, function, wild).gives(6, 0);
        script.call(1, 42, shared()).id(1, 0).count(8).ok();
        script.call(0, function, shared().record(7)).gives(8, 0);
        script.call(0, function, shared().record(0)).gives(8, 0);
        script.call(1, function, shared().record(7)).fill(0xE5).ok();
    }
    script.call(0, 41, shared().record(128)).gives(4, 0);
    script.call(0, 41, shared().record(size)).gives(1, 0);
    script
        .call(0, 41, shared().record(2 * size))
        .records(0xE4, 1)
        .gives(7, 0);
    for function in [34, 40] {
        script.world(&one_file(kind, 8), [9, 9, 9]);
        script.call(0, 15, file()).ok();
        script.call(0, function, file().record(3)).fill(9).ok();
        script.call(0, function, file().record(2 * size - 1)).fill(8).ok();
        script.call(0, function, file().record(129)).fill(7).ok();
        script.call(0, function, file().record(4_095)).fill(6).ok();
    }
}

/// The byte of which a record of `way` is full.
fn byte_of(record: u32) -> u8 {
    (record % 101) as u8
}

/// Before each of these ends `way` has sixteen records. There something is missing: a block, an
/// extent, an extent of the next module, a record number.
const NO_BLOCK: u32 = 48;
const NO_EXTENT: u32 = 128;
const NO_MODULE: u32 = 4_096;
const NO_RECORD: u32 = 262_144;
const ENDS: [u32; 4] = [NO_BLOCK, NO_EXTENT, NO_MODULE, NO_RECORD];

/// The blocks of `way`, from 2 on: the first record of each.
fn way_firsts(kind: Kind) -> Vec<u32> {
    let size = kind.records_per_block();
    ENDS.into_iter()
        .flat_map(|end| (end - MOST_RECORDS..end).step_by(size as usize))
        .collect()
}

/// How many blocks a drive needs for `way` alone, the directory's two among them.
fn way_blocks(kind: Kind) -> usize {
    2 + way_firsts(kind).len()
}

/// The map of an extent of `way`.
fn way_map(kind: Kind, extent: u32) -> Vec<(usize, u16)> {
    let size = kind.records_per_block();
    (2..)
        .zip(way_firsts(kind))
        .filter(|(_, first)| first / 128 == extent)
        .map(|(block, first)| ((first % 128 / size) as usize, block))
        .collect()
}

fn way(kind: Kind, blocks: usize) -> Book {
    let extents = [0, 31, 2_047];
    let maps = extents.map(|extent| way_map(kind, extent));
    let entry = |number: usize| Entry::named(FILE).extent(extents[number]);
    let mut book = Book::of(kind, blocks).with(&[
        (entry(0), &maps[0][..]),
        (entry(1), &maps[1][..]),
        (entry(2), &maps[2][..]),
    ]);
    for end in ENDS {
        for record in end - MOST_RECORDS..end {
            let at = way_at(&book, kind, record);
            book.image[at..at + 128].fill(byte_of(record));
        }
    }
    book
}

/// Where a record of `way` lies.
fn way_at(book: &Book, kind: Kind, record: u32) -> usize {
    let size = kind.records_per_block();
    let number = way_firsts(kind)
        .iter()
        .position(|first| (*first..first + size).contains(&record));
    book.record_at(2 + number.unwrap_or(0) as u16, record % size)
}

fn reads_that_stop(script: &mut Script) {
    script.world(&way(script.kind, way_blocks(script.kind)), [9, 9, 9]);
    script.call(0, 15, shared()).ok();
    script.call(1, 15, shared()).ok();
    script.call(1, 42, shared().record(120)).id(1, 0).count(5).ok();
    for (end, code) in [(NO_BLOCK, 1), (NO_EXTENT, 4), (NO_MODULE, 4), (NO_RECORD, 6)] {
        for done in 0..MOST_RECORDS {
            let first = shared().record(end - done);
            let bytes: Vec<u8> = (end - done..end).map(byte_of).collect();
            for count in done + 1..=MOST_RECORDS {
                let call = script.call(0, 33, first).count(count).rising(0xC0);
                call.reads(code, 16 * done as u8, &bytes);
            }
            if done > 0 {
                let call = script.call(0, 33, first).count(done).rising(0xC0);
                call.reads(0, 0, &bytes);
            }
        }
        let first = shared().record(end - 16);
        let bytes: Vec<u8> = (end - 16..end).map(byte_of).collect();
        script
            .call(0, 33, first)
            .count(16)
            .rising(0xC0)
            .reads(0, 0, &bytes);
    }
}

fn writes_that_stop(script: &mut Script) {
    let blocks = way_blocks(script.kind);
    let no_block = way(script.kind, blocks);
    let no_entry = way(script.kind, blocks + 1).crowded(None);
    let neither = way(script.kind, blocks).crowded(None);
    for function in [34, 40] {
        for (book, end, code) in [
            (&no_block, NO_BLOCK, 2),
            (&no_block, NO_EXTENT, 2),
            (&no_block, NO_MODULE, 2),
            (&no_block, NO_RECORD, 6),
            (&no_entry, NO_EXTENT, 5),
            (&no_entry, NO_MODULE, 5),
            (&neither, NO_EXTENT, 5),
            (&neither, NO_MODULE, 5),
        ] {
            stops(script, function, book, end, code);
        }
        // Another's lock on the last record that has a block; the fifteen before it are free.
        for done in 0..MOST_RECORDS {
            script.world(&no_block, [9, 9, 9]);
            script.call(0, 15, shared()).ok();
            script.call(1, 15, shared()).ok();
            script.call(1, 42, shared().record(127)).id(1, 0).ok();
            stop_after(script, function, 127, 8, done);
        }
    }
}

/// Runs towards `end`, each on a fresh image, of which 0 to 15 records are done.
fn stops(script: &mut Script, function: u32, book: &Book, end: u32, code: u8) {
    for done in 0..MOST_RECORDS {
        script.world(book, [9, 9, 9]);
        script.call(0, 15, shared()).ok();
        stop_after(script, function, end, code, done);
    }
}

fn stop_after(script: &mut Script, function: u32, end: u32, code: u8, done: u32) {
    let mut wanted = script.stage.image().to_vec();
    let first = end - done;
    let call = script.call(0, function, shared().record(first));
    call.count(16).rising(0xC0).gives(code, 16 * done as u8);
    for record in first..end {
        let at = way_at(&script.book, script.kind, record);
        wanted[at..at + 128].fill(0xC0 + (record - first) as u8);
    }
    if done > 0 {
        raise_way_counts(&mut wanted, end - 1);
    }
    if script.stage.image() != wanted {
        script.complain(&format!(
            "{function} of {done} records before {end} left another image"
        ));
    }
}

/// Raises the count of the last record's extent, which is 0 in `way`.
fn raise_way_counts(image: &mut [u8], last: u32) {
    let slot = match last / 128 {
        0 => 0,
        31 => 1,
        _ => 2,
    };
    image[32 * slot + 15] = (last % 128) as u8 + 1;
}

/// Records behind the refused one could be done, were they asked for alone.
fn nothing_behind_a_refusal(script: &mut Script) {
    let size = script.size();
    let book = one_file(script.kind, 5).filled(2, 0x11).filled(3, 0x11);
    for function in [34, 40] {
        script.world(&book, [9, 9, 9]);
        script.call(0, 15, shared()).ok();
        script.call(1, 15, shared()).ok();
        let last_four = shared().record(size - 4);
        let call = script.call(0, 33, last_four).count(16).rising(0xC0);
        call.reads(1, 16 * 4, &[0x11; 4]);
        let call = script.call(0, function, last_four).count(16);
        call.rising(0x40).gives(2, 16 * 4);
        script.record_has(2, size - 1, 0x43);
        for place in 0..size {
            script.record_has(3, place, 0x11);
        }
        script
            .call(0, function, shared().record(2 * size))
            .count(8)
            .fill(0x11)
            .ok();
        script.call(1, 42, shared().record(3)).id(1, 0).ok();
        let call = script.call(0, function, shared()).count(8);
        call.rising(0x60).gives(8, 16 * 3);
        script.record_has(2, 2, 0x62);
        script.record_has(2, 3, 0x11);
        script.record_has(2, size - 4, 0x40);
        script
            .call(0, function, shared().record(4))
            .count(4)
            .rising(0x60)
            .ok();
    }
}

fn last_block_of_a_run(script: &mut Script) {
    let size = script.size();
    for (function, rest) in [(34, 0xE5), (40, 0)] {
        // Block 2 alone is free. The last five records of the first block get it; the next none.
        script.world(&script.empty(3), [9, 9, 9]);
        script.call(0, 22, shared()).ok();
        let call = script.call(0, function, shared().record(size - 5));
        call.count(16).rising(0x40).gives(2, 16 * 5);
        script.entry_has(0, size as u8, &[(0, 2)]);
        for place in 0..size - 5 {
            script.record_has(2, place, rest);
        }
        for (place, byte) in (size - 5..size).zip(0x40..) {
            script.record_has(2, place, byte);
        }
        // At the end of an extent the next one would need an entry, and that is free.
        script.world(&script.empty(3), [9, 9, 9]);
        script.call(0, 22, shared()).ok();
        let call = script.call(0, function, shared().record(122));
        call.count(16).rising(0x40).gives(2, 16 * 6);
        script.entry_has(0, 128, &[(script.kind.numbers_per_entry() - 1, 2)]);
        script.image_has(32, &[0xE5; 32]);
        script.call(0, 46, shared()).tells(0);
        let whole_block = shared().record(128 - size);
        script.call(0, function, whole_block).count(size).ok();
    }
}

fn last_entry_of_a_run(script: &mut Script) {
    let (kind, size) = (script.kind, script.size());
    let taken = way_blocks(kind) as u16;
    for function in [34, 40] {
        // Extent 1 takes the last empty entry; for extent 2 there is none.
        script.world(&way(kind, usize::from(taken) + 4).crowded(Some(5)), [9, 9, 9]);
        script.call(0, 15, shared()).ok();
        let call = script.call(0, function, shared().record(250));
        call.count(16).rising(0x40).gives(5, 16 * 6);
        script.image_has(32 * 5 + 12, &[1, 0, 0]);
        script.entry_has(5, 128, &[(kind.numbers_per_entry() - 1, taken)]);
        script.record_has(taken, 250 % size, 0x40);
        script.record_has(taken, size - 1, 0x45);
        script.call(0, 46, shared()).tells(3 * size);
        // A run over two extents that are both missing takes an entry and a block for each.
        script.world(&script.empty(9), [9, 9, 9]);
        script.call(0, 22, shared()).ok();
        script
            .call(0, function, shared().record(4_090))
            .count(16)
            .rising(0x40)
            .ok();
        script.image_has(32 + 12, &[31, 0, 0]);
        script.entry_has(1, 128, &[(kind.numbers_per_entry() - 1, 2)]);
        script.image_has(64 + 12, &[0, 0, 1]);
        // The ten records from 4,096 on need two blocks of eight or one of sixteen.
        let map: &[(usize, u16)] = match kind {
            Kind::First => &[(0, 3), (1, 4)],
            Kind::Second => &[(0, 3)],
        };
        script.entry_has(2, 10, map);
        script.record_has(2, size - 1, 0x45);
        script.record_has(3, 0, 0x46);
        script.record_has(3 + 9 / size as u16, 9 % size, 0x4F);
    }
}

fn zero_fill_of_a_run(script: &mut Script) {
    let (kind, size) = (script.kind, script.size());
    let there = way_blocks(kind) as u16;
    let taken = there + 1;
    for (function, rest) in [(34, 0xE5), (40, 0)] {
        // One block is there with the first records, another is taken for those after them.
        let book = way(kind, usize::from(there) + 2);
        let mut map = vec![(0, there)];
        map.extend(way_map(kind, 0));
        script.world(&book.with(&[(Entry::named(FILE), &map[..])]), [9, 9, 9]);
        script.call(0, 15, shared()).ok();
        script
            .call(0, function, shared().record(size - 5))
            .count(9)
            .rising(0x40)
            .ok();
        map.push((1, taken));
        script.entry_has(0, size as u8 + 4, &map);
        for place in 0..size - 5 {
            script.record_has(there, place, 0xE5);
        }
        for (place, byte) in (size - 5..size).zip(0x40..) {
            script.record_has(there, place, byte);
        }
        for (place, byte) in (0..4).zip(0x45..) {
            script.record_has(taken, place, byte);
        }
        for place in 4..size {
            script.record_has(taken, place, rest);
        }
        // What an earlier call took is not cleared either.
        script
            .call(0, function, shared().record(size + 2))
            .count(3)
            .rising(0x60)
            .ok();
        for (place, byte) in (0..).zip([0x45, 0x46, 0x60, 0x61, 0x62, rest]) {
            script.record_has(taken, place, byte);
        }
    }
}

fn runs_over_ends(script: &mut Script) {
    for function in [34, 40] {
        for start in [0, 3, 113, 120, 121, 4_081, 4_089, 262_128] {
            script.world(&script.empty(9), [9, 9, 9]);
            script.call(0, 22, shared()).ok();
            for count in 1..=MOST_RECORDS {
                let first = shared().record(start);
                let byte = 7 * count as u8;
                let bytes: Vec<u8> = (byte..).take(count as usize).collect();
                script.call(0, function, first).count(count).rising(byte).ok();
                let call = script.call(0, 33, first).count(count).rising(0xC0);
                call.reads(0, 0, &bytes);
            }
        }
    }
}

fn one_record_only(script: &mut Script) {
    let size = script.size();
    script.world(&one_file(script.kind, 6).filled(2, 0x11), [64, 9, 9]);
    script.call(0, 15, shared()).count(16).ok();
    script.call(1, 15, shared()).count(16).ok();
    script
        .call(0, 41, shared().record(2))
        .records(0x11, 0x22)
        .count(16)
        .ok();
    script.record_has(2, 2, 0x22);
    script.record_has(2, 3, 0x11);
    script.call(0, 41, shared().record(7)).count(16).gives(7, 0);
    script.call(0, 41, shared().record(262_143)).count(16).gives(4, 0);
    // The whole run of a 42 is refused, and no bit tells of the records before.
    script.call(1, 42, shared().record(size - 3)).id(1, 0).ok();
    let last_eight = shared().record(size - 8);
    script.call(0, 42, last_eight).count(8).gives(8, 0);
    script.call(0, 42, last_eight).count(9).gives(1, 0);
    script.call(0, 42, shared().record(262_140)).count(16).gives(6, 0);
    script.call(0, 43, shared().record(262_140)).count(16).gives(6, 0);
    script.list_has(3, [0; 20]);
    for function in RUN_FUNCTIONS {
        // One record has no bits, whatever it meets.
        script.call(0, function, shared().record(262_144)).gives(6, 0);
    }
    script.call(0, 46, shared()).count(16).fill(0xAB).tells(size);
}

fn rows_of_locking(script: &mut Script) {
    let size = script.size();
    script.world(&one_file(script.kind, 6), [6, 2, 3]);
    script.call(0, 42, shared().record(262_144)).gives(10, 0);
    script.call(0, 43, shared().record(262_144)).gives(10, 0);
    script.call(0, 15, shared()).ok();
    script.call(1, 15, shared()).ok();
    for (low, high) in [(1, 0), (0, 1), (64, 0), (0, 255)] {
        for function in [42, 43] {
            script
                .call(0, function, shared().record(262_144))
                .id(low, high)
                .gives(13, 0);
        }
    }
    script.call(0, 42, shared().record(262_144)).gives(6, 0);
    script.call(0, 42, shared().record(262_143)).count(2).gives(6, 0);
    script.call(0, 42, shared().record(262_128)).count(16).gives(4, 0);
    script.call(0, 42, shared().record(size)).gives(1, 0);
    script.call(0, 42, shared().record(120)).count(16).gives(1, 0);
    script.call(0, 42, shared().record(4_090)).count(16).gives(4, 0);
    script.call(1, 42, shared().record(size - 2)).id(1, 0).ok();
    script.call(0, 42, shared().record(size - 3)).count(4).gives(1, 0);
    script.call(0, 42, shared().record(size - 8)).count(8).gives(8, 0);
    script.call(0, 42, shared()).count(4).gives(12, 0);
    script.call(0, 42, shared()).count(2).ok();
    script.call(0, 42, shared().record(1)).count(1).ok();
    let third_block = shared().record(2 * size);
    script.call(1, 42, third_block).id(1, 0).count(2).gives(14, 0);
    script.call(1, 42, third_block).id(1, 0).count(3).gives(12, 0);
    script.call(0, 43, shared().record(1)).count(16).ok();
    script.call(0, 42, shared()).count(2).ok();
    script.call(0, 43, shared()).count(2).ok();
    script.call(0, 43, shared()).count(16).ok();
    script.call(0, 43, shared().record(100_000)).count(16).ok();
    script.list_has(2, lock_item(1, name(FILE), size - 2));
    script.call(0, 42, shared().record(4)).count(2).ok();
    script.list_has(3, lock_item(0, name(FILE), 4));
    script.list_has(4, lock_item(0, name(FILE), 5));
    script.call(0, 43, shared().record(5)).ok();
    script.call(0, 43, shared().record(4)).ok();
}

fn free_space_and_terminate(script: &mut Script) {
    let size = script.size();
    script.world(&one_file(script.kind, 6), [9, 9, 9]);
    script.call(7, 46, Fcb([255; 36])).fill(0xAB).tells(size);
    script.call(7, 143, Fcb([255; 36])).fill(0xAB).ok();
    script.call(7, 15, shared()).ok();
    script.call(8, 15, shared()).ok();
    script.call(7, 42, shared()).count(3).ok();
    script.call(8, 42, shared().record(3)).id(1, 0).ok();
    script.call(7, 143, Fcb([255; 36])).fill(0xAB).ok();
    script.list_has(1, open_item(8, name(FILE), 1));
    script.list_has(5, lock_item(8, name(FILE), 3));
    script.call(8, 34, shared().record(size)).ok();
    script.call(8, 46, Fcb([2; 36])).fill(0xAB).tells(0);
}

fn look(script: &mut Script) {
    let (kind, size) = (script.kind.number(), script.size());
    let book = one_file(script.kind, 6);
    script.world(&book, [9, 9, 9]);
    let file = name(FILE);
    let high = file.map(|byte| byte | 128);
    for (record, wanted) in [
        (0, book.record_at(2, 0)),
        (size - 1, book.record_at(2, size - 1)),
        (size, 0),
        (2 * size, book.record_at(3, 0)),
        (127, 0),
        (128, 0),
        (4_096, book.record_at(4, 0)),
        (4_095 + size, book.record_at(4, size - 1)),
        (262_143, 0),
        (u32::MAX, 0),
    ] {
        script.look(0, &file, record, wanted);
        script.look(0, &high, record, wanted);
        for told in [1 - kind, 2, 255, 256 + kind, u32::MAX] {
            script.look_told(told, 0, &file, record, 0);
        }
        script.look(15, &file, record, 0);
        script.look(16, &file, record, 0);
        script.look(0, &file[..10], record, 0);
        script.look(0, &[&file[..], b" "].concat(), record, 0);
        script.look(0, &[], record, 0);
        script.look(0, &name("FILE?"), record, 0);
        script.look(0, &name(""), record, 0);
    }
}
