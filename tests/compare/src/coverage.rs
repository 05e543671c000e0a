//! Which answers, and for which reasons, have been reached; and which there are.

use crate::deed::SEARCHES;
use crate::faults::{ImageRule, Judged, ListRule, VectorRule};
use reference::answer::Answer;
use reference::calls::{MOST_RECORDS, RUN_FUNCTIONS};
use reference::kind::Kind;
use reference::rule::Rule;
use std::collections::{BTreeMap, BTreeSet};
use std::fmt::Write;

pub const FUNCTIONS: [u32; 16] = [15, 16, 17, 18, 19, 22, 23, 33, 34, 35, 40, 41, 42, 43, 46, 143];

/// Numbers that are no function stand under this one.
const UNKNOWN: u32 = u32::MAX;

/// The kind that a call was told; None for an unknown one.
type Told = Option<Kind>;

const ALL_TOLD: [Told; 3] = [Some(Kind::First), Some(Kind::Second), None];

type Row = (u8, u8, &'static str);

/// A refusal that any record of a run can meet, so after 0 to 15 others: A, and why.
type Stop = (u8, &'static str);

const COMMON: &[Row] = &[
    (255, 13, "process over 15"),
    (255, 13, "count below 1"),
    (255, 13, "count above 16"),
    (255, 13, "FCB of wrong length"),
    (255, 13, "DMA of wrong length"),
    (255, 13, "list of wrong length"),
    (255, 13, "vector of wrong length"),
    (255, 1, "image of wrong length"),
    (255, 1, "image of the other kind's length"),
    (255, 1, "unsound directory"),
    (255, 12, "unsound list"),
    (255, 14, "vector that disagrees"),
];

/// An unknown kind is told before everything else, whatever the function.
const UNKNOWN_KIND: Row = (255, 13, "unknown kind");

const DRIVE: Row = (255, 4, "not drive A");

const OPEN: &[Row] = &[
    (255, 9, "illegal name"),
    (255, 0, "no such file"),
    (255, 5, "open in another mode"),
    (255, 5, "beside another's open"),
    (255, 10, "at the open limit"),
    (255, 11, "no empty place"),
    (0, 0, "opened locked"),
    (0, 0, "opened unlocked, alone"),
    (0, 0, "opened unlocked, beside another"),
    (0, 0, "opened read-only, alone"),
    (0, 0, "opened read-only, beside another"),
    (0, 0, "open again, locked"),
    (0, 0, "open again, unlocked"),
    (0, 0, "open again, read-only"),
];

const MAKE: &[Row] = &[
    (255, 9, "illegal name"),
    (255, 8, "file exists"),
    (255, 10, "at the open limit"),
    (255, 11, "no empty place"),
    (255, 0, "no empty entry"),
    (0, 0, "made locked"),
    (0, 0, "made unlocked"),
];

const CLOSE: &[Row] = &[
    (255, 6, "not open"),
    (0, 0, "closed, no locks"),
    (0, 0, "closed with locks"),
];

/// Each at any of the four places of a directory record.
const FINDS: [&str; 3] = [
    "found, of extents 0",
    "found extent 0, of all",
    "found a later extent, of all",
];

// No refusals: these answers come with an effect, the caller's position set.
const SEARCH_FIRST: &[Row] = &[(255, 0, "no match")];

const SEARCH_NEXT: &[Row] = &[
    (255, 0, "no match"),
    (255, 0, "no match, the search was at its end"),
];

const DELETE: &[Row] = &[
    (255, 9, "illegal name"),
    (255, 0, "no such file"),
    (255, 5, "open by another"),
    (255, 5, "open by another and the caller"),
    (255, 3, "read-only attribute"),
    (255, 3, "read-only attribute, open by the caller"),
    (0, 0, "deleted one entry"),
    (0, 0, "deleted several entries"),
    (0, 0, "deleted, open locked"),
    (0, 0, "deleted, open read-only"),
    (0, 0, "deleted, open unlocked"),
    (0, 0, "deleted, open unlocked with locks"),
];

const RENAME: &[Row] = &[
    (255, 9, "illegal old name"),
    (255, 9, "illegal new name"),
    (255, 0, "no such file"),
    (255, 5, "open by the caller"),
    (255, 5, "open by another"),
    (255, 3, "read-only attribute"),
    (255, 8, "new name is the old one"),
    (255, 8, "new name exists"),
    (0, 0, "renamed one entry"),
    (0, 0, "renamed several entries"),
];

const READ: &[Row] = &[(10, 0, "not open"), (0, 0, "read")];

const READ_STOPS: &[Stop] = &[(6, "record too high"), (4, "no extent"), (1, "no block")];

// No record of a run closes the file or changes its attributes, so these come before the first.
const WRITE: &[Row] = &[
    (10, 0, "not open"),
    (255, 3, "read-only attribute"),
    (255, 3, "open read-only"),
    (0, 0, "written in place"),
    (0, 0, "written, new block"),
    (0, 0, "written, new extent"),
];

const WRITE_STOPS: &[Stop] = &[
    (6, "record too high"),
    (8, "held by another"),
    (5, "no empty entry"),
    (5, "no empty entry, no free block"),
    (2, "no free block"),
    (2, "no free block for a new extent"),
];

const SIZE: &[Row] = &[
    (255, 9, "illegal name"),
    (255, 0, "no such file"),
    (0, 0, "no records"),
    (0, 0, "size by extent 0"),
    (0, 0, "size by a later extent"),
    (0, 0, "as many records as can be"),
];

const TEST_AND_WRITE: &[Row] = &[
    (10, 0, "not open"),
    (255, 3, "read-only attribute"),
    (255, 3, "open read-only"),
    (6, 0, "record too high"),
    (8, 0, "held by another"),
    (4, 0, "no extent"),
    (1, 0, "no block"),
    (7, 0, "differs"),
    (0, 0, "written, count raised"),
    (0, 0, "written, count stays"),
];

const LOCK: &[Row] = &[
    (10, 0, "not open"),
    (0, 0, "no effect, locked mode"),
    (0, 0, "no effect, read-only mode"),
    (13, 0, "low byte not the File ID's"),
    (13, 0, "high byte not the File ID's"),
    (6, 0, "record too high"),
    (6, 0, "run passes the last record"),
    (4, 0, "no extent"),
    (1, 0, "no block"),
    (8, 0, "held by another"),
    (12, 0, "lock limit"),
    (14, 0, "too few empty places"),
    (0, 0, "locked, all new"),
    (0, 0, "locked, some held before"),
    (0, 0, "locked, all held before"),
];

const UNLOCK: &[Row] = &[
    (10, 0, "not open"),
    (0, 0, "no effect, locked mode"),
    (0, 0, "no effect, read-only mode"),
    (13, 0, "low byte not the File ID's"),
    (13, 0, "high byte not the File ID's"),
    (6, 0, "record too high"),
    (6, 0, "run passes the last record"),
    (0, 0, "unlocked, none held"),
    (0, 0, "unlocked, some held"),
    (0, 0, "unlocked, all held"),
];

const FREE_SPACE: &[Row] = &[(0, 0, "space"), (0, 0, "no space")];

const TERMINATE: &[Row] = &[
    (0, 0, "nothing to take away"),
    (0, 0, "a search ended"),
    (0, 0, "items taken away"),
    (0, 0, "items taken away and a search ended"),
];

fn own_rows(function: u32) -> &'static [Row] {
    match function {
        15 => OPEN,
        16 => CLOSE,
        17 => SEARCH_FIRST,
        18 => SEARCH_NEXT,
        19 => DELETE,
        22 => MAKE,
        23 => RENAME,
        33 => READ,
        34 | 40 => WRITE,
        35 => SIZE,
        41 => TEST_AND_WRITE,
        42 => LOCK,
        43 => UNLOCK,
        46 => FREE_SPACE,
        143 => TERMINATE,
        _ => &[],
    }
}

fn stops(function: u32) -> &'static [Stop] {
    match function {
        33 => READ_STOPS,
        34 | 40 => WRITE_STOPS,
        _ => &[],
    }
}

/// The rows of a refusal that can come after any number of records: H has sixteen times as many.
fn rows_of_stop((a, why): Stop) -> impl Iterator<Item = Row> {
    (0..MOST_RECORDS as u8).map(move |done| (a, 16 * done, why))
}

fn rows_of_finds(function: u32) -> Vec<Row> {
    match SEARCHES.contains(&function) {
        true => pairs(&[0, 1, 2, 3], &FINDS)
            .into_iter()
            .map(|(a, why)| (a, 0, why))
            .collect(),
        false => Vec::new(),
    }
}

/// All rows that a function has. Both kinds have them all: a drive of the second kind can be full
/// too, as long as its entries can name all its blocks.
fn rows(told: Told, function: u32) -> Vec<Row> {
    match (told, function) {
        (None, _) => return vec![UNKNOWN_KIND],
        (_, UNKNOWN) => return vec![(255, 13, "unknown function")],
        _ => {}
    }
    let mut rows = COMMON.to_vec();
    if function != 46 && function != 143 {
        rows.push(DRIVE);
    }
    rows.extend(own_rows(function));
    rows.extend(rows_of_finds(function));
    rows.extend(stops(function).iter().copied().flat_map(rows_of_stop));
    rows
}

fn all_rows() -> BTreeSet<Key> {
    let functions = || FUNCTIONS.into_iter().chain([UNKNOWN]);
    ALL_TOLD
        .into_iter()
        .flat_map(|told| functions().map(move |function| (told, function)))
        .flat_map(|(told, function)| {
            let keys = rows(told, function).into_iter();
            keys.map(move |(a, h, why)| (told, function, a, h, why))
        })
        .collect()
}

/// What the records of a run can take so that a later one finds none left.
#[derive(Clone, Copy, Debug, PartialEq, Eq, PartialOrd, Ord)]
pub enum Last {
    Block,
    Entry,
}

impl Last {
    pub const ALL: [Last; 2] = [Last::Block, Last::Entry];
}

/// The farthest end that the records done went over.
#[derive(Clone, Copy, Debug, PartialEq, Eq, PartialOrd, Ord)]
pub enum Span {
    OneBlock,
    Blocks,
    Extents,
    Modules,
}

impl Span {
    pub const ALL: [Span; 4] = [Span::OneBlock, Span::Blocks, Span::Extents, Span::Modules];

    fn of(kind: Kind, first: u32, last: u32) -> Span {
        let parts = |size: u32| first / size != last / size;
        let in_a_block = match kind {
            Kind::First => 8,
            Kind::Second => 16,
        };
        match (parts(4_096), parts(128), parts(in_a_block)) {
            (true, _, _) => Span::Modules,
            (false, true, _) => Span::Extents,
            (false, false, true) => Span::Blocks,
            (false, false, false) => Span::OneBlock,
        }
    }
}

/// How much of its two bytes the block number of a record needs. On a drive of the second kind an
/// engine can cut it in several ways.
#[derive(Clone, Copy, Debug, PartialEq, Eq, PartialOrd, Ord)]
pub enum Block {
    To255,
    To1023,
    From1024,
}

impl Block {
    pub const ALL: [Block; 3] = [Block::To255, Block::To1023, Block::From1024];

    fn of(block: u16) -> Block {
        match block {
            ..=255 => Block::To255,
            256..=1_023 => Block::To1023,
            _ => Block::From1024,
        }
    }
}

/// What was met at the end of a file, by the list's rule.
#[derive(Clone, Copy, Debug, PartialEq, Eq, PartialOrd, Ord)]
pub enum End {
    /// The last record was read, written or locked.
    LastDone,
    /// The number behind it got 6/0.
    NextRefused,
}

impl End {
    const ALL: [End; 2] = [End::LastDone, End::NextRefused];
}

/// Which half of the 128 entries was damaged; those of the first kind all stand in the lower one.
#[derive(Clone, Copy, Debug, PartialEq, Eq, PartialOrd, Ord)]
pub enum Half {
    Lower,
    Upper,
}

impl Half {
    pub fn of(slot: usize) -> Half {
        match slot {
            ..64 => Half::Lower,
            _ => Half::Upper,
        }
    }
}

/// What has happened between a search and the Next that goes on with it and finds.
#[derive(Clone, Copy, Debug, PartialEq, Eq, PartialOrd, Ord)]
pub enum Meanwhile {
    Nothing,
    Make,
    Delete,
    Rename,
    /// Another process's.
    Search,
}

impl Meanwhile {
    const ALL: [Meanwhile; 5] = [
        Meanwhile::Nothing,
        Meanwhile::Make,
        Meanwhile::Delete,
        Meanwhile::Rename,
        Meanwhile::Search,
    ];
}

/// What was met where a crowd falls into one slot of the engine's (`hints.rs`).
#[derive(Clone, Copy, Debug, PartialEq, Eq, PartialOrd, Ord)]
pub enum Crowd {
    /// Entries, and a call was done.
    Entries,
    /// Entries, one of which the image check has told for a block named before, for an extent named before, or for
    /// the want of its file's extent 0.
    BlockTwice,
    ExtentTwice,
    ExtentZero,
    /// Locks, and a call was done.
    Locks,
    /// Locks or opens, and the list was refused for two of one record or file.
    LockTwice,
    OpenTwice,
}

impl Crowd {
    const ALL: [Crowd; 7] = [
        Crowd::Entries,
        Crowd::BlockTwice,
        Crowd::ExtentTwice,
        Crowd::ExtentZero,
        Crowd::Locks,
        Crowd::LockTwice,
        Crowd::OpenTwice,
    ];
}

/// A "?" in a name, at this place of it, with its high bit or without.
type Mark = (usize, bool);

/// Which entry the image check has told, 0 and 1 telling entry 0, or a search found.
#[derive(Clone, Copy, Debug, PartialEq, Eq, PartialOrd, Ord)]
pub enum Place {
    Entry0,
    Lower,
    Upper,
    Last,
}

impl Place {
    fn of(kind: Option<Kind>, entry: usize) -> Place {
        match entry {
            0 => Place::Entry0,
            _ if kind.is_some_and(|kind| entry + 1 == kind.entries()) => Place::Last,
            1..64 => Place::Lower,
            _ => Place::Upper,
        }
    }

    /// Where an entry can be that is bad for this reason. An extent named before is not the first.
    fn all_of(kind: Kind, code: u32) -> &'static [Place] {
        match (kind, code) {
            (_, 0 | 1) => &[Place::Entry0],
            (Kind::First, 7) => &[Place::Lower, Place::Last],
            (Kind::First, _) => &[Place::Entry0, Place::Lower, Place::Last],
            (Kind::Second, 7) => &[Place::Lower, Place::Upper, Place::Last],
            (Kind::Second, _) => &[Place::Entry0, Place::Lower, Place::Upper, Place::Last],
        }
    }
}

/// What else was bad where the image check told an entry and a reason.
#[derive(Clone, Copy, Debug, PartialEq, Eq, PartialOrd, Ord)]
pub enum Order {
    /// The same entry has a later reason too.
    Inside(u32, u32),
    /// A later entry has an earlier reason.
    Across(u32, u32),
    /// A file lacking extent 0 has an earlier entry.
    BehindHeadless(u32),
}

/// Those of a check that has told this entry and reason.
pub fn orders(judged: &Judged) -> Vec<Order> {
    let Some((entry, told)) = judged.told().filter(|(_, told)| *told != 8) else {
        return Vec::new();
    };
    let order = |slot: usize, other: u32| match slot == entry {
        true if other > told => Some(Order::Inside(told, other)),
        false if other < told => Some(Order::Across(told, other)),
        _ => None,
    };
    let reasons = judged
        .bad
        .iter()
        .flat_map(|(slot, reasons)| reasons.iter().map(|reason| (*slot, *reason)));
    let headless = judged.headless.filter(|slot| *slot < entry);
    reasons
        .filter_map(|(slot, other)| order(slot, other))
        .chain(headless.map(|_| Order::BehindHeadless(told)))
        .collect()
}

/// An entry with a bad user, name, ex or module repeats no extent: the one before it would be bad.
/// A bad count stands beside a repeat.
fn wanted_orders() -> Vec<(Kind, Order)> {
    let pairs_of = |told: u32| (2..=7).map(move |other| (told, other));
    let mut wanted: Vec<Order> = (2..=7).map(Order::BehindHeadless).collect();
    for (told, other) in (2..=7).flat_map(pairs_of) {
        match (told, other) {
            (2 | 3, 7) => {}
            _ if told < other => wanted.push(Order::Inside(told, other)),
            _ if told > other => wanted.push(Order::Across(told, other)),
            _ => {}
        }
    }
    pairs(&Kind::ALL, &wanted)
}

/// Drives of these numbers of blocks must have served a call.
const SIZES: [(Kind, usize); 7] = [
    (Kind::First, 3),
    (Kind::First, 4),
    (Kind::First, 256),
    (Kind::Second, 257),
    (Kind::Second, 258),
    (Kind::Second, 1_027),
    (Kind::Second, 4_096),
];

type Key = (Told, u32, u8, u8, &'static str);

/// The kind of drive, the rule, the function and what was met.
type EndKey = (Kind, (Rule, (u32, End)));

#[derive(Clone, Default)]
pub struct Coverage {
    calls: BTreeMap<Key, u64>,
    /// How many records a 33, 34 or 40 has done of which nothing was refused.
    lengths: BTreeMap<(Kind, u32, u32), u64>,
    spans: BTreeMap<(Kind, u32, Span), u64>,
    lasts: BTreeMap<(Kind, u32, Last), u64>,
    /// Where the records lie that a call on a drive of the second kind has done.
    blocks: BTreeMap<(u32, Block), u64>,
    sizes: BTreeMap<(Kind, usize), u64>,
    starts: BTreeMap<(Told, u32), u64>,
    builds: BTreeMap<(Told, u32), u64>,
    checks: BTreeMap<(Told, (u32, Place)), u64>,
    orders: BTreeMap<(Kind, Order), u64>,
    looks: BTreeMap<(Told, bool), u64>,
    image_rules: BTreeMap<(Kind, ImageRule, Half), u64>,
    list_rules: BTreeMap<(Kind, ListRule), u64>,
    vector_rules: BTreeMap<(Kind, VectorRule), u64>,
    ends: BTreeMap<EndKey, u64>,
    /// The places in their bytes of the vector's bits that calls have set or cleared.
    bits: BTreeMap<(Kind, u32, usize), u64>,
    /// Where the entries stand that searches have found.
    finds: BTreeMap<(Kind, u32, Place), u64>,
    /// The marks of the names that they were found by.
    marks: BTreeMap<(Kind, u32, Mark), u64>,
    meanwhile: BTreeMap<(Kind, Meanwhile), u64>,
    crowds: BTreeMap<(Told, Crowd), u64>,
}

fn add<K: Ord>(table: &mut BTreeMap<K, u64>, key: K) {
    *table.entry(key).or_default() += 1;
}

impl Coverage {
    pub fn note_call(&mut self, told: u32, function: u32, word: u32, why: &'static str) {
        let known = if FUNCTIONS.contains(&function) {
            function
        } else {
            UNKNOWN
        };
        let answer = Answer::from_word(word).unwrap_or(Answer { a: 254, h: 254 });
        add(
            &mut self.calls,
            (Kind::told(told), known, answer.a, answer.h, why),
        );
    }

    /// A 33, 34 or 40 has done these records, and met a refusal after them or not.
    pub fn note_run(&mut self, kind: Kind, function: u32, first: u32, done: u32, refused: bool) {
        if done == 0 {
            return;
        }
        let span = Span::of(kind, first, first + done - 1);
        add(&mut self.spans, (kind, function, span));
        if !refused {
            add(&mut self.lengths, (kind, function, done));
        }
    }

    /// A 34 or 40 has taken the last block or entry and then stopped for want of another.
    pub fn note_last(&mut self, kind: Kind, function: u32, last: Last) {
        add(&mut self.lasts, (kind, function, last));
    }

    /// A call has done a record in this block of a drive of the second kind.
    pub fn note_block(&mut self, function: u32, block: u16) {
        add(&mut self.blocks, (function, Block::of(block)));
    }

    /// A drive of so many blocks has served a call.
    pub fn note_size(&mut self, kind: Kind, blocks: usize) {
        if SIZES.contains(&(kind, blocks)) {
            add(&mut self.sizes, (kind, blocks));
        }
    }

    pub fn note_start(&mut self, told: u32, word: u32) {
        add(&mut self.starts, (Kind::told(told), word));
    }

    pub fn note_build(&mut self, told: u32, word: u32) {
        add(&mut self.builds, (Kind::told(told), word));
    }

    pub fn note_check(&mut self, told: u32, answer: u32) {
        let (kind, code, entry) = (Kind::told(told), answer % 256, answer as usize / 256);
        add(&mut self.checks, (kind, (code, Place::of(kind, entry))));
    }

    /// The image check has told one of several things that are wrong.
    pub fn note_order(&mut self, kind: Kind, order: Order) {
        add(&mut self.orders, (kind, order));
    }

    pub fn note_look(&mut self, told: u32, at: u32) {
        add(&mut self.looks, (Kind::told(told), at != 0));
    }

    /// A rule of a sound image was broken, in an entry of this half.
    pub fn note_image_rule(&mut self, kind: Kind, rule: ImageRule, half: Half) {
        add(&mut self.image_rules, (kind, rule, half));
    }

    pub fn note_list_rule(&mut self, kind: Kind, rule: ListRule) {
        add(&mut self.list_rules, (kind, rule));
    }

    /// A bit of the vector was not as it should be.
    pub fn note_vector_rule(&mut self, kind: Kind, rule: VectorRule) {
        add(&mut self.vector_rules, (kind, rule));
    }

    /// A call has come to the end of what its list's rule allows.
    pub fn note_end(&mut self, kind: Kind, rule: Rule, function: u32, end: End) {
        add(&mut self.ends, (kind, (rule, (function, end))));
    }

    /// A call has set or cleared a bit at this place of its byte, 0 being the high one.
    pub fn note_bit(&mut self, kind: Kind, function: u32, place: usize) {
        add(&mut self.bits, (kind, function, place));
    }

    /// A search has found this entry by this name.
    pub fn note_found(&mut self, kind: Kind, function: u32, slot: usize, name: &[u8]) {
        add(&mut self.finds, (kind, function, Place::of(Some(kind), slot)));
        let marks = name.iter().enumerate().filter(|(_, byte)| *byte & 127 == b'?');
        for (at, byte) in marks {
            add(&mut self.marks, (kind, function, (at, *byte > 127)));
        }
    }

    /// A Next has gone on and found an entry, after this.
    pub fn note_meanwhile(&mut self, kind: Kind, what: Meanwhile) {
        add(&mut self.meanwhile, (kind, what));
    }

    /// This was met where a crowd falls into one slot.
    pub fn note_crowd(&mut self, kind: Kind, crowd: Crowd) {
        add(&mut self.crowds, (Some(kind), crowd));
    }

    pub fn calls(&self) -> u64 {
        self.calls.values().sum()
    }

    /// What is missing and what should not have come; nothing if all is well.
    pub fn complaints(&self) -> Vec<String> {
        let wanted = all_rows();
        let reached: BTreeSet<Key> = self.calls.keys().copied().collect();
        let mut complaints: Vec<String> = Vec::new();
        for key in wanted.difference(&reached) {
            complaints.push(format!("not reached: {}", describe(key)));
        }
        for key in reached.difference(&wanted) {
            complaints.push(format!("not allowed: {}", describe(key)));
        }
        complaints.extend(self.complaints_of_runs());
        complaints.extend(self.complaints_of_searches());
        complaints.extend(compare_keys("drive of a size", &self.sizes, &SIZES));
        complaints.extend(compare_keys("Start", &self.starts, &wanted_starts()));
        complaints.extend(compare_keys("building", &self.builds, &wanted_builds()));
        complaints.extend(compare_keys("image check", &self.checks, &wanted_checks()));
        complaints.extend(compare_keys("order of faults", &self.orders, &wanted_orders()));
        complaints.extend(compare_keys("Look", &self.looks, &wanted_looks()));
        let image_rules = wanted_image_rules();
        complaints.extend(compare_keys("image rule", &self.image_rules, &image_rules));
        let list_rules = pairs(&Kind::ALL, &ListRule::ALL);
        complaints.extend(compare_keys("list rule", &self.list_rules, &list_rules));
        let vector_rules = pairs(&Kind::ALL, &VectorRule::ALL);
        complaints.extend(compare_keys("vector rule", &self.vector_rules, &vector_rules));
        let ends = pairs(
            &Kind::ALL,
            &pairs(&Rule::ALL, &pairs(&[33, 34, 40, 41, 42, 43], &End::ALL)),
        );
        complaints.extend(compare_keys("end of a file", &self.ends, &ends));
        let bits = of_each(&[19, 34, 40], &[0, 1, 2, 3, 4, 5, 6, 7]);
        complaints.extend(compare_keys("bit of the vector", &self.bits, &bits));
        let crowds = pairs(&Kind::ALL.map(Some), &Crowd::ALL);
        complaints.extend(compare_keys("one slot", &self.crowds, &crowds));
        complaints
    }

    fn complaints_of_runs(&self) -> Vec<String> {
        let all_lengths: Vec<u32> = (1..=MOST_RECORDS).collect();
        let lengths = of_each(&RUN_FUNCTIONS, &all_lengths);
        let spans = of_each(&RUN_FUNCTIONS, &Span::ALL);
        let lasts = of_each(&[34, 40], &Last::ALL);
        let blocks = pairs(&[33, 34, 40, 41], &Block::ALL);
        [
            compare_keys("run of records", &self.lengths, &lengths),
            compare_keys("span of a run", &self.spans, &spans),
            compare_keys("last taken by a run", &self.lasts, &lasts),
            compare_keys("block of a record", &self.blocks, &blocks),
        ]
        .concat()
    }

    fn complaints_of_searches(&self) -> Vec<String> {
        let at_ends = of_each(&SEARCHES, &[Place::Entry0, Place::Lower, Place::Last]);
        let upper = SEARCHES.map(|function| (Kind::Second, function, Place::Upper));
        let all_places: Vec<usize> = (0..11).collect();
        let marks = of_each(&SEARCHES, &pairs(&all_places, &[false, true]));
        let meanwhile = pairs(&Kind::ALL, &Meanwhile::ALL);
        [
            compare_keys("search", &self.finds, &[&at_ends[..], &upper].concat()),
            compare_keys("mark of a search", &self.marks, &marks),
            compare_keys("search gone on after", &self.meanwhile, &meanwhile),
        ]
        .concat()
    }

    /// The table of (kind, function, A/H), with how often each was reached.
    pub fn pairs(&self) -> String {
        let mut lines = String::new();
        for told in ALL_TOLD {
            // Writing to a String cannot fail.
            let _ = writeln!(lines, "{}", title(told));
            for function in FUNCTIONS.into_iter().chain([UNKNOWN]) {
                let cells = self.cells_of(told, function);
                let _ = writeln!(lines, "{:>5}  {cells}", label(function));
            }
            let answer = |word: &u32| format!("{}/{}", word % 256, word / 256);
            let _ = writeln!(lines, "start  {}", cells(told, &self.starts, answer));
            let _ = writeln!(lines, "build  {}", cells(told, &self.builds, answer));
            let _ = writeln!(lines, "check  {}", self.cells_of_checks(told));
            let look = |found: &bool| if *found { "found" } else { "empty" }.to_string();
            let _ = writeln!(lines, " look  {}", cells(told, &self.looks, look));
            if told.is_some() {
                let crowd = |crowd: &Crowd| format!("{crowd:?}");
                let _ = writeln!(lines, "1slot  {}", cells(told, &self.crowds, crowd));
            }
        }
        lines
    }

    fn cells_of(&self, told: Told, function: u32) -> String {
        let mut counts: BTreeMap<(u8, u8), u64> = BTreeMap::new();
        for ((of_told, of, a, h, _), count) in &self.calls {
            if (*of_told, *of) == (told, function) {
                *counts.entry((*a, *h)).or_default() += count;
            }
        }
        let cells: Vec<String> = counts
            .iter()
            .map(|((a, h), count)| format!("{a}/{h}: {count}"))
            .collect();
        cells.join("  ")
    }

    /// The image check's codes, wherever the entries are that it told.
    fn cells_of_checks(&self, told: Told) -> String {
        let mut counts: BTreeMap<(Told, u32), u64> = BTreeMap::new();
        for ((of, (code, _)), count) in &self.checks {
            *counts.entry((*of, *code)).or_default() += count;
        }
        cells(told, &counts, u32::to_string)
    }

    /// The finer table: each reason and kind of success, and each rule broken.
    pub fn reasons(&self) -> String {
        let mut lines = String::new();
        for ((told, function, a, h, why), count) in &self.calls {
            let (kind, function) = (title(*told), label(*function));
            let answer = format!("{a}/{h}");
            let _ = writeln!(lines, "{kind:<12} {function:>5}  {answer:<7} {count:>9}  {why}");
        }
        lines.push_str(&counted("records", &self.lengths));
        lines.push_str(&counted("span", &self.spans));
        lines.push_str(&counted("last", &self.lasts));
        lines.push_str(&counted("block", &self.blocks));
        lines.push_str(&counted("size", &self.sizes));
        lines.push_str(&counted("check", &self.checks));
        lines.push_str(&counted("order", &self.orders));
        lines.push_str(&counted("found", &self.finds));
        lines.push_str(&counted("mark", &self.marks));
        lines.push_str(&counted("gone on after", &self.meanwhile));
        lines.push_str(&counted("image broken", &self.image_rules));
        lines.push_str(&counted("list broken", &self.list_rules));
        lines.push_str(&counted("bits wrong", &self.vector_rules));
        lines.push_str(&counted("bit", &self.bits));
        lines.push_str(&counted("end", &self.ends));
        lines
    }
}

fn title(told: Told) -> String {
    match told {
        Some(kind) => format!("kind {}", kind.number()),
        None => "unknown kind".to_string(),
    }
}

fn label(function: u32) -> String {
    match function {
        UNKNOWN => "other".to_string(),
        known => known.to_string(),
    }
}

fn describe((told, function, a, h, why): &Key) -> String {
    format!("{}, function {}, {a}/{h}, {why}", title(*told), label(*function))
}

fn counted<K: std::fmt::Debug>(what: &str, table: &BTreeMap<K, u64>) -> String {
    table
        .iter()
        .map(|(key, count)| format!("{what:<12} {count:>9}  {key:?}\n"))
        .collect()
}

fn pairs<A: Copy, B: Copy>(first: &[A], second: &[B]) -> Vec<(A, B)> {
    let with_each = |&one: &A| second.iter().map(move |&other| (one, other));
    first.iter().flat_map(with_each).collect()
}

/// All of these for each of the functions, on drives of each kind.
fn of_each<T: Copy>(functions: &[u32], all: &[T]) -> Vec<(Kind, u32, T)> {
    pairs(&Kind::ALL, &pairs(functions, all))
        .into_iter()
        .map(|(kind, (function, one))| (kind, function, one))
        .collect()
}

fn wanted_starts() -> Vec<(Told, u32)> {
    const REFUSED: u32 = 255 + 256 * 13;
    let mut wanted = pairs(&Kind::ALL.map(Some), &[0, REFUSED]);
    wanted.push((None, REFUSED));
    wanted
}

fn wanted_builds() -> Vec<(Told, u32)> {
    const REFUSED: u32 = 255 + 256 * 13;
    const UNSOUND: u32 = 255 + 256;
    let mut wanted = pairs(&Kind::ALL.map(Some), &[0, REFUSED, UNSOUND]);
    wanted.push((None, REFUSED));
    wanted
}

fn wanted_checks() -> Vec<(Told, (u32, Place))> {
    let all_codes: Vec<u32> = (0..=8).collect();
    let mut wanted = vec![(None, (1, Place::Entry0))];
    for (kind, code) in pairs(&Kind::ALL, &all_codes) {
        let places = Place::all_of(kind, code);
        wanted.extend(places.iter().map(|&place| (Some(kind), (code, place))));
    }
    wanted
}

fn wanted_looks() -> Vec<(Told, bool)> {
    let mut wanted = pairs(&Kind::ALL.map(Some), &[false, true]);
    wanted.push((None, false));
    wanted
}

/// A wrong length is no entry's fault and stands in the lower half.
fn wanted_image_rules() -> Vec<(Kind, ImageRule, Half)> {
    let lower = pairs(&Kind::ALL, &ImageRule::ALL);
    let mut wanted: Vec<_> = lower
        .into_iter()
        .map(|(kind, rule)| (kind, rule, Half::Lower))
        .collect();
    let of_entries = ImageRule::ALL
        .into_iter()
        .filter(|rule| *rule != ImageRule::Length);
    wanted.extend(of_entries.map(|rule| (Kind::Second, rule, Half::Upper)));
    wanted
}

fn cells<K>(told: Told, table: &BTreeMap<(Told, K), u64>, label: impl Fn(&K) -> String) -> String {
    let cells: Vec<String> = table
        .iter()
        .filter(|((of, _), _)| *of == told)
        .map(|((_, key), count)| format!("{}: {count}", label(key)))
        .collect();
    cells.join("  ")
}

fn compare_keys<K: Ord + Copy + std::fmt::Debug>(
    what: &str,
    reached: &BTreeMap<K, u64>,
    wanted: &[K],
) -> Vec<String> {
    let wanted: BTreeSet<K> = wanted.iter().copied().collect();
    let reached: BTreeSet<K> = reached.keys().copied().collect();
    let missing = wanted.difference(&reached).map(|key| (key, "not reached"));
    let extra = reached.difference(&wanted).map(|key| (key, "not allowed"));
    missing
        .chain(extra)
        .map(|(key, fault)| format!("{fault}: {what} {key:?}"))
        .collect()
}
