//! Which rules of "Sound image" and "Sound list" a buffer breaks, and in which bits a vector
//! disagrees with the directory, found by walking the bytes.
//! Written apart from the decoders, as a check on them and to see that a rule is broken alone.

use crate::build::{POSITIONS, RULE};
use reference::kind::Kind;
use reference::rule::Rule;
use std::collections::BTreeSet;

/// As what an image is judged. A kind alone is judged by the rule of MP/M II.
#[derive(Clone, Copy, Debug, PartialEq, Eq)]
pub struct As {
    pub kind: Kind,
    pub rule: Rule,
}

impl From<Kind> for As {
    fn from(kind: Kind) -> As {
        As {
            kind,
            rule: Rule::MpmII,
        }
    }
}

impl From<(Kind, Rule)> for As {
    fn from((kind, rule): (Kind, Rule)) -> As {
        As { kind, rule }
    }
}

fn highest_module(rule: Rule) -> u8 {
    match rule {
        Rule::MpmII => 63,
        Rule::Cpm22 => 15,
    }
}

/// The highest record that a file can have.
pub fn last_record(rule: Rule) -> u32 {
    match rule {
        Rule::MpmII => 262_143,
        Rule::Cpm22 => 65_535,
    }
}

#[derive(Clone, Copy, Debug, PartialEq, Eq, PartialOrd, Ord)]
pub enum ImageRule {
    Length,
    User,
    Name,
    Ex,
    Module,
    Count,
    MapRange,
    BlockTwice,
    ExtentTwice,
    ExtentZero,
}

impl ImageRule {
    pub const ALL: [ImageRule; 10] = [
        ImageRule::Length,
        ImageRule::User,
        ImageRule::Name,
        ImageRule::Ex,
        ImageRule::Module,
        ImageRule::Count,
        ImageRule::MapRange,
        ImageRule::BlockTwice,
        ImageRule::ExtentTwice,
        ImageRule::ExtentZero,
    ];
}

#[derive(Clone, Copy, Debug, PartialEq, Eq, PartialOrd, Ord)]
pub enum ListRule {
    CapacityRange,
    OpenLimitRange,
    LockLimitRange,
    User,
    Mark,
    NameHighBit,
    OpenMode,
    LockMode,
    ZeroByte,
    OpenRecord,
    BeyondCapacity,
    Process,
    NameIllegal,
    RecordRange,
    OneOpenPerFile,
    OpenLimit,
    LockLimit,
    ModesBeside,
    OpenOnImage,
    LockHasOpen,
    LockHasBlock,
    LockTwice,
    Position,
    RuleByte,
}

impl ListRule {
    pub const ALL: [ListRule; 24] = [
        ListRule::CapacityRange,
        ListRule::OpenLimitRange,
        ListRule::LockLimitRange,
        ListRule::User,
        ListRule::Mark,
        ListRule::NameHighBit,
        ListRule::OpenMode,
        ListRule::LockMode,
        ListRule::ZeroByte,
        ListRule::OpenRecord,
        ListRule::BeyondCapacity,
        ListRule::Process,
        ListRule::NameIllegal,
        ListRule::RecordRange,
        ListRule::OneOpenPerFile,
        ListRule::OpenLimit,
        ListRule::LockLimit,
        ListRule::ModesBeside,
        ListRule::OpenOnImage,
        ListRule::LockHasOpen,
        ListRule::LockHasBlock,
        ListRule::LockTwice,
        ListRule::Position,
        ListRule::RuleByte,
    ];

    /// A process over 15 or an illegal name leaves an open without a file on the image and a lock
    /// without an open; a record too high is not 0 for an open and has no block for a lock.
    pub fn can_be_broken_alone(self) -> bool {
        !matches!(
            self,
            ListRule::Process | ListRule::NameIllegal | ListRule::RecordRange
        )
    }
}

/// What a bit of a vector stands for that is not as it should be.
#[derive(Clone, Copy, Debug, PartialEq, Eq, PartialOrd, Ord)]
pub enum VectorRule {
    Block0,
    Block1,
    UsedBlock,
    FreeBlock,
    PastTheLast,
}

impl VectorRule {
    pub const ALL: [VectorRule; 5] = [
        VectorRule::Block0,
        VectorRule::Block1,
        VectorRule::UsedBlock,
        VectorRule::FreeBlock,
        VectorRule::PastTheLast,
    ];
}

pub fn is_legal_name(name: &[u8]) -> bool {
    let first_is_blank = name[0] & 127 == 32;
    !first_is_blank
        && name.iter().all(|byte| {
            let low = byte & 127;
            low >= 32 && low != 127 && low != b'?'
        })
}

fn same_name(one: &[u8], other: &[u8]) -> bool {
    one.iter().zip(other).all(|(a, b)| a & 127 == b & 127)
}

fn directory_length(kind: Kind) -> usize {
    match kind {
        Kind::First => 64 * 32,
        Kind::Second => 128 * 32,
    }
}

pub fn used_entries(kind: Kind, image: &[u8]) -> impl Iterator<Item = &[u8]> + Clone {
    image[..directory_length(kind)]
        .chunks(32)
        .filter(|entry| entry[0] != 0xE5)
}

/// The block numbers of an entry, 0 meaning none.
pub fn block_numbers(kind: Kind, entry: &[u8]) -> Vec<u16> {
    let map = entry[16..32].iter().map(|&byte| u16::from(byte));
    match kind {
        Kind::First => map.collect(),
        Kind::Second => {
            let (low, high) = (map.clone().step_by(2), map.skip(1).step_by(2));
            low.zip(high).map(|(low, high)| low + 256 * high).collect()
        }
    }
}

fn is_same_file(one: &[u8], other: &[u8]) -> bool {
    one[0] == other[0] && same_name(&one[1..12], &other[1..12])
}

pub fn extent_number(entry: &[u8]) -> usize {
    usize::from(entry[12]) + 32 * usize::from(entry[14])
}

fn entry_faults(of: As, entry: &[u8], blocks: usize) -> Vec<ImageRule> {
    let mut faults = Vec::new();
    let mut note = |broken: bool, rule: ImageRule| {
        if broken {
            faults.push(rule);
        }
    };
    note(entry[0] > 15, ImageRule::User);
    note(!is_legal_name(&entry[1..12]), ImageRule::Name);
    note(entry[12] > 31, ImageRule::Ex);
    note(entry[14] > highest_module(of.rule), ImageRule::Module);
    note(entry[15] > 128, ImageRule::Count);
    let wild = |&block: &u16| block == 1 || usize::from(block) >= blocks;
    note(
        block_numbers(of.kind, entry).iter().any(wild),
        ImageRule::MapRange,
    );
    faults
}

fn has_double_block(kind: Kind, image: &[u8]) -> bool {
    let mut seen = BTreeSet::new();
    used_entries(kind, image)
        .flat_map(|entry| block_numbers(kind, entry))
        .any(|block| block != 0 && !seen.insert(block))
}

fn has_twins(kind: Kind, image: &[u8]) -> bool {
    let twins =
        |one: &[u8], other: &[u8]| is_same_file(one, other) && extent_number(one) == extent_number(other);
    let entries: Vec<&[u8]> = used_entries(kind, image).collect();
    (1..entries.len()).any(|i| entries[i..].iter().any(|other| twins(entries[i - 1], other)))
}

fn lacks_extent_zero(kind: Kind, image: &[u8]) -> bool {
    let begins = |one: &[u8], other: &[u8]| is_same_file(one, other) && extent_number(other) == 0;
    let entries: Vec<&[u8]> = used_entries(kind, image).collect();
    !entries
        .iter()
        .all(|one| entries.iter().any(|other| begins(one, other)))
}

/// How many blocks an image of this length has, if this kind has such images.
fn blocks_of(kind: Kind, length: usize) -> Option<usize> {
    let (block, range) = match kind {
        Kind::First => (1_024, 3..=256),
        Kind::Second => (2_048, 257..=4_096),
    };
    range.into_iter().find(|blocks| block * blocks == length)
}

pub fn image_faults(of: impl Into<As>, image: &[u8]) -> BTreeSet<ImageRule> {
    let of = of.into();
    match blocks_of(of.kind, image.len()) {
        None => BTreeSet::from([ImageRule::Length]),
        Some(blocks) => directory_faults(of, image, blocks),
    }
}

/// The faults of a directory, which may be the beginning of an image, on a drive of so many blocks.
pub fn directory_faults(of: impl Into<As>, directory: &[u8], blocks: usize) -> BTreeSet<ImageRule> {
    let of = of.into();
    let kind = of.kind;
    let mut faults: BTreeSet<ImageRule> = used_entries(kind, directory)
        .flat_map(|entry| entry_faults(of, entry, blocks))
        .collect();
    let whole = [
        (has_double_block(kind, directory), ImageRule::BlockTwice),
        (has_twins(kind, directory), ImageRule::ExtentTwice),
        (lacks_extent_zero(kind, directory), ImageRule::ExtentZero),
    ];
    faults.extend(whole.iter().filter(|(broken, _)| *broken).map(|(_, rule)| *rule));
    faults
}

pub fn vector_length(kind: Kind) -> usize {
    match kind {
        Kind::First => 32,
        Kind::Second => 512,
    }
}

pub fn bit_is_set(vector: &[u8], block: usize) -> bool {
    vector[block / 8] & [0x80, 0x40, 0x20, 0x10, 8, 4, 2, 1][block % 8] != 0
}

/// What each bit of the image's vector stands for; the image must be sound.
pub fn vector_rules(kind: Kind, image: &[u8]) -> Vec<VectorRule> {
    let blocks = blocks_of(kind, image.len()).expect("a length of this kind");
    let used: BTreeSet<usize> = used_entries(kind, image)
        .flat_map(|entry| block_numbers(kind, entry))
        .map(usize::from)
        .collect();
    let rule = |block: usize| match block {
        0 => VectorRule::Block0,
        1 => VectorRule::Block1,
        _ if block >= blocks => VectorRule::PastTheLast,
        _ if used.contains(&block) => VectorRule::UsedBlock,
        _ => VectorRule::FreeBlock,
    };
    (0..8 * vector_length(kind)).map(rule).collect()
}

fn is_due(rule: &VectorRule) -> bool {
    !matches!(rule, VectorRule::FreeBlock | VectorRule::PastTheLast)
}

/// The vector of a sound image.
pub fn vector_of(kind: Kind, image: &[u8]) -> Vec<u8> {
    let bits: Vec<bool> = vector_rules(kind, image).iter().map(is_due).collect();
    bits.chunks(8)
        .map(|byte| byte.iter().fold(0, |bits, bit| 2 * bits + u8::from(*bit)))
        .collect()
}

/// The rules that the vector breaks beside a sound image; it must have its length.
pub fn vector_faults(kind: Kind, vector: &[u8], image: &[u8]) -> BTreeSet<VectorRule> {
    let rules = vector_rules(kind, image).into_iter().enumerate();
    rules
        .filter(|(block, rule)| bit_is_set(vector, *block) != is_due(rule))
        .map(|(_, rule)| rule)
        .collect()
}

/// What is wrong with the entries of a directory, in document 02's numbers.
#[derive(Clone, Debug, PartialEq, Eq)]
pub struct Judged {
    /// The bad entries in rising order, each with all that is wrong with it, 2 to 7.
    pub bad: Vec<(usize, BTreeSet<u32>)>,
    /// The lowest entry of a file lacking extent 0.
    pub headless: Option<usize>,
}

impl Judged {
    /// The lowest bad entry with its first reason; 8 only where no entry has another.
    pub fn told(&self) -> Option<(usize, u32)> {
        let first = |(slot, reasons): &(usize, BTreeSet<u32>)| Some((*slot, *reasons.first()?));
        let headless = self.headless.map(|slot| (slot, 8));
        self.bad.iter().find_map(first).or(headless)
    }
}

pub fn reason_number(rule: ImageRule) -> u32 {
    match rule {
        ImageRule::Length => 1,
        ImageRule::User => 2,
        ImageRule::Name => 3,
        ImageRule::Ex | ImageRule::Module | ImageRule::Count => 4,
        ImageRule::MapRange => 5,
        ImageRule::BlockTwice => 6,
        ImageRule::ExtentTwice => 7,
        ImageRule::ExtentZero => 8,
    }
}

/// The image must have a length of this kind.
pub fn judged(of: impl Into<As>, image: &[u8]) -> Judged {
    let of = of.into();
    let kind = of.kind;
    let blocks = blocks_of(kind, image.len()).expect("a length of this kind");
    let slots = image[..directory_length(kind)].chunks(32).enumerate();
    let entries: Vec<(usize, &[u8])> = slots.filter(|(_, entry)| entry[0] != 0xE5).collect();
    let is_begun = |of: &[u8]| {
        let begins = |(_, one): &(usize, &[u8])| is_same_file(of, one) && extent_number(one) == 0;
        entries.iter().any(begins)
    };
    let mut named = BTreeSet::new();
    let mut bad = Vec::new();
    for (i, (slot, entry)) in entries.iter().enumerate() {
        let mut rules = entry_faults(of, entry, blocks);
        let numbers = block_numbers(kind, entry).into_iter();
        let repeats = numbers.filter(|block| *block != 0 && !named.insert(*block));
        if repeats.count() > 0 {
            rules.push(ImageRule::BlockTwice);
        }
        let is_twin = |(_, one): &(usize, &[u8])| {
            is_same_file(entry, one) && extent_number(entry) == extent_number(one)
        };
        if entries[..i].iter().any(is_twin) {
            rules.push(ImageRule::ExtentTwice);
        }
        if !rules.is_empty() {
            bad.push((*slot, rules.into_iter().map(reason_number).collect()));
        }
    }
    let headless = entries.iter().find(|(_, entry)| !is_begun(entry));
    Judged {
        bad,
        headless: headless.map(|(slot, _)| *slot),
    }
}

/// What the image check has to answer.
pub fn check_answer(of: impl Into<As>, image: &[u8]) -> u32 {
    let of = of.into();
    if blocks_of(of.kind, image.len()).is_none() {
        return reason_number(ImageRule::Length);
    }
    judged(of, image)
        .told()
        .map_or(0, |(slot, reason)| reason + 256 * slot as u32)
}

/// The block number of the record, 0 if it has no extent or no block.
pub fn block_of(kind: Kind, user: u8, name: &[u8], record: u32, image: &[u8]) -> u16 {
    let extent = (record / 128) as usize;
    let in_extent = (record % 128) as usize;
    let index = match kind {
        Kind::First => in_extent / 8,
        Kind::Second => in_extent / 16,
    };
    used_entries(kind, image)
        .find(|entry| entry[0] == user && same_name(&entry[1..12], name) && extent_number(entry) == extent)
        .map_or(0, |entry| block_numbers(kind, entry)[index])
}

/// What 35 has to tell of the file; None if there is none.
pub fn size_of(kind: Kind, user: u8, name: &[u8], image: &[u8]) -> Option<u32> {
    used_entries(kind, image)
        .filter(|entry| entry[0] == user && same_name(&entry[1..12], name))
        .max_by_key(|entry| extent_number(entry))
        .map(|entry| 128 * extent_number(entry) as u32 + u32::from(entry[15]))
}

fn is_found(entry: &[u8], user: u8, fcb: &[u8]) -> bool {
    let fits = |(has, asked): (&u8, &u8)| asked & 127 == b'?' || asked & 127 == has & 127;
    let admits = fcb[12] == b'?' || extent_number(entry) == 0;
    entry[0] == user && admits && entry[1..12].iter().zip(&fcb[1..12]).all(fits)
}

/// The entry that a search by this FCB has to find, from an entry on.
pub fn searched(kind: Kind, user: u8, fcb: &[u8], from: u8, image: &[u8]) -> Option<usize> {
    let entries = image[..directory_length(kind)].chunks(32).enumerate();
    entries
        .skip(from.into())
        .find(|(_, entry)| is_found(entry, user, fcb))
        .map(|(slot, _)| slot)
}

/// What a search leaves in its caller's position that has found this entry, or none.
pub fn position_behind(kind: Kind, found: Option<usize>) -> u8 {
    found.map_or(last_position(kind), |slot| slot as u8 + 1)
}

/// Where the record lies, if it is in this block.
pub fn record_at(kind: Kind, block: u16, record: u32) -> usize {
    let (block, record) = (usize::from(block), record as usize);
    match kind {
        Kind::First => 1_024 * block + 128 * (record % 8),
        Kind::Second => 2_048 * block + 128 * (record % 16),
    }
}

fn has_file(kind: Kind, user: u8, name: &[u8], image: &[u8]) -> bool {
    used_entries(kind, image).any(|entry| entry[0] == user && same_name(&entry[1..12], name))
}

/// An item of the list by its bytes.
#[derive(Clone, Copy)]
pub struct Item<'a>(pub &'a [u8]);

impl Item<'_> {
    pub fn is_open(&self) -> bool {
        self.0[..2] == *b"OF"
    }

    pub fn is_lock(&self) -> bool {
        self.0[..2] == *b"LR"
    }

    pub fn process(&self) -> u8 {
        self.0[2]
    }

    pub fn name(&self) -> &[u8] {
        &self.0[3..14]
    }

    pub fn mode(&self) -> u8 {
        self.0[14]
    }

    pub fn record(&self) -> u32 {
        u32::from_le_bytes([self.0[16], self.0[17], self.0[18], self.0[19]])
    }

    pub fn user(&self, list: &[u8]) -> Option<u8> {
        (self.process() < 16).then(|| list[3 + usize::from(self.process())])
    }

    fn is_same_file(&self, other: &Item, list: &[u8]) -> bool {
        self.user(list).is_some()
            && self.user(list) == other.user(list)
            && same_name(self.name(), other.name())
    }
}

/// Place numbers and items of the places that are not empty.
pub fn items(list: &[u8]) -> Vec<(usize, Item<'_>)> {
    list[19..list.len().min(POSITIONS.start)]
        .chunks(20)
        .map(Item)
        .enumerate()
        .filter(|(_, item)| item.0.iter().any(|&byte| byte != 0))
        .collect()
}

/// The rule by which an image beside the list is judged: that of a byte above 1 is 0.
pub fn rule_beside(list: &[u8]) -> Rule {
    match list.get(RULE) {
        Some(1) => Rule::Cpm22,
        _ => Rule::MpmII,
    }
}

fn header_faults(list: &[u8]) -> Vec<ListRule> {
    let out_of_range = |at: usize| list[at] == 0 || list[at] > 64;
    let rules = [
        (out_of_range(0), ListRule::CapacityRange),
        (out_of_range(1), ListRule::OpenLimitRange),
        (out_of_range(2), ListRule::LockLimitRange),
        (list[3..19].iter().any(|&user| user > 15), ListRule::User),
        (list[RULE] > 1, ListRule::RuleByte),
    ];
    broken(&rules)
}

fn broken(rules: &[(bool, ListRule)]) -> Vec<ListRule> {
    rules
        .iter()
        .filter(|(broken, _)| *broken)
        .map(|(_, rule)| *rule)
        .collect()
}

fn form_faults(place: usize, item: Item, capacity: u8) -> Vec<ListRule> {
    broken(&[
        (place >= usize::from(capacity), ListRule::BeyondCapacity),
        (!item.is_open() && !item.is_lock(), ListRule::Mark),
    ])
}

fn item_faults(item: Item, rule: Rule) -> Vec<ListRule> {
    broken(&[
        (item.process() > 15, ListRule::Process),
        (item.name().iter().any(|&byte| byte > 127), ListRule::NameHighBit),
        (!is_legal_name(item.name()), ListRule::NameIllegal),
        (item.is_open() && item.mode() > 2, ListRule::OpenMode),
        (item.is_lock() && item.mode() != 1, ListRule::LockMode),
        (item.0[15] != 0, ListRule::ZeroByte),
        (item.is_open() && item.record() != 0, ListRule::OpenRecord),
        (item.record() > last_record(rule), ListRule::RecordRange),
    ])
}

fn open_faults(kind: Kind, open: Item, opens: &[Item], list: &[u8], image: &[u8]) -> Vec<ListRule> {
    let own = |other: &&Item| other.process() == open.process();
    let twins = opens
        .iter()
        .filter(own)
        .filter(|other| same_name(other.name(), open.name()))
        .count();
    let clash = opens.iter().any(|other| {
        other.process() != open.process()
            && open.is_same_file(other, list)
            && (other.mode() != open.mode() || open.mode() == 0)
    });
    let on_image = open
        .user(list)
        .is_some_and(|user| has_file(kind, user, open.name(), image));
    broken(&[
        (twins > 1, ListRule::OneOpenPerFile),
        (
            opens.iter().filter(own).count() > usize::from(list[1]),
            ListRule::OpenLimit,
        ),
        (clash, ListRule::ModesBeside),
        (!on_image, ListRule::OpenOnImage),
    ])
}

fn lock_faults(
    kind: Kind,
    lock: Item,
    opens: &[Item],
    locks: &[Item],
    list: &[u8],
    image: &[u8],
) -> Vec<ListRule> {
    let own = |other: &&Item| other.process() == lock.process();
    let has_open = opens
        .iter()
        .filter(own)
        .any(|open| open.is_same_file(&lock, list) && open.mode() == 1);
    let has_block = lock
        .user(list)
        .is_some_and(|user| block_of(kind, user, lock.name(), lock.record(), image) != 0);
    let twins = locks
        .iter()
        .filter(|other| lock.is_same_file(other, list) && lock.record() == other.record())
        .count();
    broken(&[
        (
            locks.iter().filter(own).count() > usize::from(list[2]),
            ListRule::LockLimit,
        ),
        (!has_open, ListRule::LockHasOpen),
        (!has_block, ListRule::LockHasBlock),
        (twins > 1, ListRule::LockTwice),
    ])
}

/// The highest position: no entry is left.
fn last_position(kind: Kind) -> u8 {
    match kind {
        Kind::First => 64,
        Kind::Second => 128,
    }
}

fn position_faults(kind: Kind, list: &[u8]) -> Vec<ListRule> {
    let too_high = list[POSITIONS].iter().any(|&byte| byte > last_position(kind));
    broken(&[(too_high, ListRule::Position)])
}

/// The list must have its length and the image must be sound.
pub fn list_faults(kind: Kind, list: &[u8], image: &[u8]) -> BTreeSet<ListRule> {
    let mut faults: BTreeSet<ListRule> = header_faults(list).into_iter().collect();
    faults.extend(position_faults(kind, list));
    let items = items(list);
    let opens: Vec<Item> = items
        .iter()
        .map(|(_, item)| *item)
        .filter(Item::is_open)
        .collect();
    let locks: Vec<Item> = items
        .iter()
        .map(|(_, item)| *item)
        .filter(Item::is_lock)
        .collect();
    for (place, item) in &items {
        faults.extend(form_faults(*place, *item, list[0]));
    }
    for item in opens.iter().chain(&locks) {
        faults.extend(item_faults(*item, rule_beside(list)));
    }
    for open in &opens {
        faults.extend(open_faults(kind, *open, &opens, list, image));
    }
    for lock in &locks {
        faults.extend(lock_faults(kind, *lock, &opens, &locks, list, image));
    }
    faults
}
