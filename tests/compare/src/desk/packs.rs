//! Packing a book: cases by chance and by name, what is wanted of them, what they have reached, and what watches over
//! the reference.

use super::books::some_book;
use super::damaged::damage;
use super::named::{blocks, Named};
use super::{on_reference, Case, Outcome, What};
use crate::build::{image_of, lock_item, open_item, put_entry, put_item, Entry, LIST, POSITIONS, RULE};
use crate::damage::break_list;
use crate::faults::{
    block_numbers, extent_number, image_faults, items, list_faults, rule_beside, used_entries, Item, ListRule,
};
use crate::random::Random;
use reference::drive::EMPTY;
use reference::kind::{Kind, ENTRY};
use std::collections::BTreeSet;

const BAD_CALL: u32 = 255 + 256 * 13;
const BAD_IMAGE: u32 = 255 + 256;
const BAD_LIST: u32 = 255 + 256 * 12;
const IN_USE: u32 = 255 + 256 * 5;

fn case(kind: u32, image: Vec<u8>, list: Vec<u8>, packed: Vec<u8>) -> Case {
    Case {
        what: What::Pack,
        kind,
        rule: 0,
        buffers: vec![image, list, packed],
    }
}

pub fn fresh_list(kind: Kind, capacity: u32, users: [u8; 16]) -> Vec<u8> {
    let mut list = vec![0xAA; LIST];
    let answer = reference::start(kind.number(), capacity, 64, 64, 0, &users, &mut list);
    assert_eq!(answer, 0, "a fresh list");
    list
}

// ---- By chance ----

pub fn some_case(kind: Kind, random: &mut Random) -> Case {
    let mut image = some_book(kind, random);
    if random.chance(10) {
        image = packed_once(kind, &image);
    }
    let mut list = some_list(kind, &image, random);
    if random.chance(6) {
        damage(kind, &mut image, random);
    }
    if random.chance(12) {
        list[RULE] = 1;
    }
    if random.chance(2) {
        list = random.bytes(LIST);
    }
    if random.chance(2) {
        list.truncate(POSITIONS.start);
    }
    let packed = vec![random.byte(); image.len()];
    case(kind.number(), image, list, packed)
}

pub fn packed_once(kind: Kind, image: &[u8]) -> Vec<u8> {
    let mut packed = vec![0; image.len()];
    let list = fresh_list(kind, 1, [0; 16]);
    let answer = reference::pack(kind.number(), image, &list, &mut packed);
    assert_eq!(answer, 0, "a sound book");
    packed
}

/// Mostly a list that holds nothing; else with opens, broken, or both. Searches may be under way.
fn some_list(kind: Kind, image: &[u8], random: &mut Random) -> Vec<u8> {
    let users = std::array::from_fn(|_| random.pick(&[0, 0, 1, 7, 15]));
    let mut list = fresh_list(kind, random.between(1, 64) as u32, users);
    if random.chance(40) {
        search(kind, &mut list, random);
    }
    let (opens, broken) = match random.below(20) {
        0 => (random.between(1, 4), false),
        1 => (random.between(1, 4), true),
        2 => (0, true),
        _ => (0, false),
    };
    for _ in 0..opens {
        open_a_file(kind, &mut list, image, random);
    }
    if !broken {
        return list;
    }
    let rules = ListRule::ALL;
    let tries = (0..4)
        .map(|_| rules[random.below(rules.len())])
        .collect::<Vec<ListRule>>();
    let damaged = tries
        .into_iter()
        .find_map(|rule| break_list(rule, kind, &list, image, random));
    damaged.unwrap_or(list)
}

/// Positions of all sorts.
fn search(kind: Kind, list: &mut [u8], random: &mut Random) {
    for position in &mut list[POSITIONS] {
        *position = random.below(kind.entries() + 1) as u8;
    }
}

/// An open by a process that has none yet, of a file of its user, and perhaps a lock.
fn open_a_file(kind: Kind, list: &mut [u8], image: &[u8], random: &mut Random) {
    let entries: Vec<&[u8]> = used_entries(kind, image).collect();
    let held = items(list).len();
    let Some(entry) = random.pick_any(&entries).filter(|_| held < usize::from(list[0])) else {
        return;
    };
    let process = random.below(16) as u8;
    let name: [u8; 11] = std::array::from_fn(|i| entry[1 + i] & 127);
    let mode = random.pick(&[0, 1, 1, 2]);
    let is_taken = |item: &Item| item.name() == name || item.process() == process;
    if items(list).iter().any(|(_, item)| is_taken(item)) {
        return;
    }
    list[3 + usize::from(process)] = entry[0];
    let place = held;
    put_item(list, place, open_item(process, name, mode));
    let index = block_numbers(kind, entry).iter().position(|number| *number != 0);
    let room = place + 1 < usize::from(list[0]);
    if let Some(index) = index.filter(|_| mode == 1 && room && random.chance(40)) {
        let record = 128 * extent_number(entry) as u32 + kind.records_per_block() * index as u32;
        put_item(list, place + 1, lock_item(process, name, record));
    }
}

// ---- By name ----

struct Packs {
    kind: Kind,
    named: Vec<Named>,
}

fn file(text: &str) -> Entry {
    Entry::named(text).count(1)
}

pub fn named(kind: Kind) -> Vec<Named> {
    let mut all = Packs {
        kind,
        named: Vec::new(),
    };
    all.books();
    all.ends();
    all.refused();
    all.positions();
    all.named
}

impl Packs {
    fn add(&mut self, title: &str, case: Case) {
        self.named.push(Named {
            title: format!("pack: {title}, kind {}", self.kind.number()),
            case,
        });
    }

    fn image(&mut self, title: &str, image: Vec<u8>) {
        let packed = vec![0xAA; image.len()];
        let list = fresh_list(self.kind, 64, std::array::from_fn(|process| process as u8));
        self.add(title, case(self.kind.number(), image, list, packed));
    }

    /// Entries at these places; each block that is named gets bytes of its own, the others FDh.
    fn entries(&self, entries: &[(usize, Entry)]) -> Vec<u8> {
        let mut image = image_of(self.kind, blocks(self.kind), &[]);
        image[self.kind.directory()..].fill(0xFD);
        for (slot, entry) in entries {
            put_entry(&mut image, *slot, *entry);
            for number in block_numbers(self.kind, &entry.0) {
                if number != 0 {
                    self.write_block(&mut image, number);
                }
            }
        }
        image
    }

    /// Each record with bytes of its own.
    fn write_block(&self, image: &mut [u8], number: u16) {
        let at = self.kind.block() * usize::from(number);
        let records = image[at..at + self.kind.block()].chunks_mut(128);
        for (i, record) in records.enumerate() {
            record.fill(number as u8 ^ (16 * i) as u8);
            record[..2].copy_from_slice(&number.to_le_bytes());
        }
    }

    fn with(&self, entry: Entry, numbers: &[(usize, u16)]) -> Entry {
        let put = |entry: Entry, (place, number): &(usize, u16)| entry.block_of(self.kind, *place, *number);
        numbers.iter().fold(entry, put)
    }

    fn books(&mut self) {
        let (last, n) = (self.kind.entries() - 1, blocks(self.kind) as u16);
        self.image("no file at all", self.entries(&[]));
        let one = self.with(file("A"), &[(0, 2), (1, 3)]);
        self.image("packed already", self.entries(&[(0, one)]));
        self.image("an entry moved", self.entries(&[(last, one)]));
        let far = self.with(file("A"), &[(0, n - 1), (1, 2)]);
        self.image("blocks in falling order", self.entries(&[(0, far)]));
        let holes = self.with(file("A").count(128), &[(1, 9), (7, 5)]);
        self.image("holes stay where they are", self.entries(&[(3, holes)]));
        let (b, c) = (
            self.with(file("B"), &[(0, 4)]),
            self.with(file("C"), &[(0, 3), (2, 12)]),
        );
        self.image(
            "the order of entries, not of names",
            self.entries(&[(5, c), (9, b), (20, holes)]),
        );
        let later = self.with(file("B").extent(40).count(7), &[(0, 20)]);
        self.image(
            "extents are not gathered",
            self.entries(&[(1, later), (5, c), (9, b)]),
        );
        let odd = self.with(file("B").extent(1).with(13, 77).attribute(3), &[(0, 6)]);
        self.image(
            "byte 13 and later attributes stay",
            self.entries(&[(1, odd), (2, b.read_only())]),
        );
        let short = self.with(file("A").count(0), &[(0, 7), (3, 8)]);
        self.image("records past the count are copied", self.entries(&[(4, short)]));
        let bare = file("A").count(128);
        self.image("a file without a block", self.entries(&[(4, bare), (8, b)]));
        let mut zeros = self.entries(&[(2, b)]);
        let at = self.kind.block() * 4;
        zeros[at..at + self.kind.block()].fill(0);
        self.image("a block of zeros", zeros);
        let mut left = self.entries(&[(2, b)]);
        for slot in (0..self.kind.entries()).filter(|slot| *slot != 2) {
            left[ENTRY * slot + 1..ENTRY * (slot + 1)].copy_from_slice(&file("GONE").0[1..]);
        }
        self.image("what deleted files left", left);
    }

    fn ends(&mut self) {
        let (kind, entries) = (self.kind, self.kind.entries());
        let full: Vec<(usize, Entry)> = (0..entries)
            .map(|slot| (slot, file("A").user((slot % 16) as u8).extent(slot as u32 / 16)))
            .collect();
        self.image("a full directory", self.entries(&full));
        let numbers = kind.numbers_per_entry();
        let data = blocks(kind) - 2;
        let taken = |slot: usize| {
            let of = |place: usize| (slot * numbers + place, place);
            let inside = (0..numbers).map(of).filter(|(at, _)| *at < data);
            let falling: Vec<(usize, u16)> = inside
                .map(|(at, place)| (place, (data + 1 - at) as u16))
                .collect();
            (
                slot,
                self.with(file("A").extent(slot as u32).count(128), &falling),
            )
        };
        let every: Vec<(usize, Entry)> = (0..data.div_ceil(numbers)).map(taken).collect();
        self.image("every block in falling order", self.entries(&every));
        for blocks in [kind.fewest_blocks(), kind.most_blocks()] {
            let last = self.with(file("A"), &[(0, blocks as u16 - 1)]);
            let mut image = image_of(kind, blocks, &[]);
            put_entry(&mut image, 1, last);
            self.write_block(&mut image, blocks as u16 - 1);
            self.image(&format!("{blocks} blocks"), image);
        }
    }

    fn refused(&mut self) {
        let kind = self.kind;
        let good = self.entries(&[(3, self.with(file("A"), &[(0, 9)]))]);
        let bad = self.entries(&[(3, file("A").user(99))]);
        let list = fresh_list(kind, 64, [0; 16]);
        let name = crate::build::name("A");
        let mut open = list.clone();
        put_item(&mut open, 5, open_item(9, name, 0));
        let mut shared = list.clone();
        put_item(&mut shared, 0, open_item(0, name, 1));
        let mut read = list.clone();
        put_item(&mut read, 63, open_item(15, name, 2));
        let mut unsound = list.clone();
        unsound[0] = 0;
        let mut both = open.clone();
        both[1] = 65;
        let mut stray = list.clone();
        put_item(&mut stray, 0, open_item(0, crate::build::name("NONE"), 0));
        let long = good.len();
        let lists: [(&str, &Vec<u8>); 7] = [
            ("a file is open", &open),
            ("a file is open unlocked", &shared),
            ("a file is open read-only", &read),
            ("an unsound list", &unsound),
            ("an unsound list with an open", &both),
            ("an open of no file", &stray),
            ("nothing", &list),
        ];
        for (what, list) in lists {
            for (of, image) in [("a sound image", &good), ("a damaged image", &bad)] {
                for length in [long, long - 1, long + 1, 0, long - kind.block()] {
                    let packed = vec![7; length];
                    let title = format!("{what}, {of}, {length} for {long}");
                    self.add(&title, case(kind.number(), image.clone(), list.clone(), packed));
                }
            }
            for length in [0, POSITIONS.start, LIST - 1, LIST + 1] {
                let mut other = list.clone();
                other.resize(length, 0);
                for image in [&good, &bad] {
                    let title = format!("{what}, a list of {length}");
                    self.add(
                        &title,
                        case(kind.number(), image.clone(), other.clone(), vec![7; long]),
                    );
                }
            }
        }
        for length in [0, 1_024, 2_048, 3_071, 257 * 1_024, 256 * 2_048, 4_097 * 2_048] {
            let (image, packed) = (vec![0xE5; length], vec![7; length]);
            self.add(
                &format!("{length} bytes"),
                case(kind.number(), image, unsound.clone(), packed),
            );
        }
        for told in [kind.other().number(), 2, 255, 256, u32::MAX] {
            let title = format!("told as kind {told}");
            self.add(&title, case(told, good.clone(), list.clone(), vec![7; long]));
        }
    }
}

// ---- Positions, by name ----

impl Packs {
    /// Every position that is an entry or the end is good, and stays; one above makes the list unsound, whosever it is.
    fn positions(&mut self) {
        let kind = self.kind;
        let image = self.entries(&[(3, self.with(file("A"), &[(0, 9)])), (60, file("B"))]);
        let damaged = self.entries(&[(3, file("A").user(99))]);
        let fresh = fresh_list(kind, 64, [0; 16]);
        let end = kind.entries() as u8;
        let mut open = fresh.clone();
        put_item(&mut open, 5, open_item(9, crate::build::name("A"), 1));
        for position in [0, 1, 4, 60, 61, 63, 64, 65, 127, 128, 129, 0xE5, 0xFF] {
            for process in [0, 9, 15] {
                for (of, list) in [("nothing open", &fresh), ("a file open", &open)] {
                    let mut list = list.clone();
                    list[POSITIONS][process] = position;
                    let title = format!("process {process} at {position}, {of}");
                    let packed = vec![7; image.len()];
                    self.add(&title, case(kind.number(), image.clone(), list, packed));
                }
            }
        }
        for process in 0..POSITIONS.len() {
            let mut list = fresh.clone();
            list[POSITIONS][process] = end + 1;
            let of_both = [("a sound image", &image), ("a damaged image", &damaged)];
            for (of, image) in of_both {
                let title = format!("process {process} past the end, {of}");
                let packed = vec![7; image.len()];
                self.add(&title, case(kind.number(), image.clone(), list.clone(), packed));
            }
        }
        let mut every = fresh;
        for (process, position) in every[POSITIONS].iter_mut().enumerate() {
            *position = end - 4 * process as u8;
        }
        let packed = vec![7; image.len()];
        self.add(
            "a search of every process",
            case(kind.number(), image, every, packed),
        );
    }
}

// ---- What is wanted, and what was reached ----

const REACHED: [&str; 35] = [
    "255/13 for the list's length",
    "255/13 for a second buffer too short",
    "255/13 for a second buffer too long",
    "255/13 before 255/1",
    "255/13 before 255/5",
    "255/1 for a length of the other kind",
    "255/1 for a length that no kind has",
    "255/1 for a damaged directory",
    "255/1 before 255/12",
    "255/1 before 255/5",
    "255/12",
    "255/12 before 255/5",
    "255/12 for a position alone",
    "255/12 for a position before 255/5",
    "255/5",
    "255/5 with a lock",
    "255/5 with a search under way",
    "0/0 of no file",
    "0/0 of a full directory",
    "0/0 of a full drive",
    "0/0 of a packed book",
    "0/0 with entries moved",
    "0/0 with entries at their places",
    "0/0 with blocks moved",
    "0/0 with holes",
    "0/0 with blocks and none at the same place",
    "0/0 with several extents",
    "0/0 with extents of a file apart",
    "0/0 with bytes behind an E5h",
    "0/0 with bytes in free blocks",
    "0/0 with byte 13 and later attributes",
    "0/0 with blocks past the count",
    "0/0 with a file without a block",
    "0/0 with no search under way",
    "0/0 with an entry moved past a search",
];

pub fn wanted(kind: Kind) -> Vec<String> {
    let mut all: Vec<String> = REACHED.iter().map(|one| one.to_string()).collect();
    if kind == Kind::Second {
        all.push("0/0 with numbers of two bytes".to_string());
    }
    all
}

pub fn seen(case: &Case, outcome: &Outcome) -> BTreeSet<String> {
    let Some(kind) = Kind::told(case.kind) else {
        let (a, h) = (outcome.answer % 256, outcome.answer / 256);
        return BTreeSet::from([format!("unknown kind: {a}/{h}")]);
    };
    let seen = match outcome.answer {
        0 => seen_of_packed(kind, case, outcome),
        answer => seen_of_refusal(kind, case, answer),
    };
    let told = |one: &str| format!("kind {}: {one}", kind.number());
    seen.into_iter().map(told).collect()
}

fn seen_of_refusal(kind: Kind, case: &Case, answer: u32) -> Vec<&'static str> {
    let [image, list, packed] = &case.buffers[..] else {
        return Vec::new();
    };
    let sound = image_faults((kind, rule_beside(list)), image).is_empty();
    let opens = list.len() >= 19
        && items(list)
            .iter()
            .any(|(_, item)| item.0.len() == 20 && item.is_open());
    let list_is_bad = |sound: bool| list.len() == LIST && sound && !list_faults(kind, list, image).is_empty();
    match answer {
        BAD_CALL => vec![
            match (list.len(), packed.len()) {
                (LIST, length) if length < image.len() => "255/13 for a second buffer too short",
                (LIST, _) => "255/13 for a second buffer too long",
                _ => "255/13 for the list's length",
            },
            if sound {
                "255/13 before 255/5"
            } else {
                "255/13 before 255/1"
            },
        ]
        .into_iter()
        .filter(|one| *one != "255/13 before 255/5" || opens)
        .collect(),
        BAD_IMAGE => {
            let mut seen = vec![match kind.other().blocks_of(image.len()) {
                Some(_) => "255/1 for a length of the other kind",
                None if kind.blocks_of(image.len()).is_some() => "255/1 for a damaged directory",
                None => "255/1 for a length that no kind has",
            }];
            let past_the_end = |list: &[u8]| {
                list[POSITIONS]
                    .iter()
                    .any(|byte| usize::from(*byte) > kind.entries())
            };
            if list[0] == 0 || list[0] > 64 || past_the_end(list) {
                seen.push("255/1 before 255/12");
            }
            if opens {
                seen.push("255/1 before 255/5");
            }
            seen
        }
        BAD_LIST if list_is_bad(sound) => seen_of_bad_list(kind, image, list, opens),
        IN_USE => seen_of_open(kind, list),
        _ => vec!["another answer"],
    }
}

fn seen_of_bad_list(kind: Kind, image: &[u8], list: &[u8], opens: bool) -> Vec<&'static str> {
    let by_position = list_faults(kind, list, image) == BTreeSet::from([ListRule::Position]);
    match (by_position, opens) {
        (true, true) => vec!["255/12", "255/12 for a position before 255/5"],
        (true, false) => vec!["255/12", "255/12 for a position alone"],
        (false, true) => vec!["255/12", "255/12 before 255/5"],
        (false, false) => vec!["255/12"],
    }
}

fn seen_of_open(kind: Kind, list: &[u8]) -> Vec<&'static str> {
    let mut seen = vec!["255/5"];
    if items(list).iter().any(|(_, item)| item.is_lock()) {
        seen.push("255/5 with a lock");
    }
    if searches(kind, list).next().is_some() {
        seen.push("255/5 with a search under way");
    }
    seen
}

/// The entries at which searches go on.
fn searches<'a>(kind: Kind, list: &'a [u8]) -> impl Iterator<Item = usize> + 'a {
    let positions = list[POSITIONS].iter().map(|byte| usize::from(*byte));
    positions.filter(move |position| *position < kind.entries())
}

/// A used entry and its place.
type Used<'a> = (usize, &'a [u8]);

fn entries_of(kind: Kind, image: &[u8]) -> Vec<Used<'_>> {
    let slots = image[..kind.directory()].chunks(ENTRY).enumerate();
    slots.filter(|(_, entry)| entry[0] != EMPTY).collect()
}

fn is_same_file(one: &[u8], other: &[u8]) -> bool {
    one[0] == other[0] && (1..12).all(|i| (one[i] ^ other[i]) & 127 == 0)
}

fn seen_of_packed(kind: Kind, case: &Case, outcome: &Outcome) -> Vec<&'static str> {
    let (image, list, packed) = (&case.buffers[0], &case.buffers[1], &outcome.buffers[2]);
    let (old, new) = (entries_of(kind, image), entries_of(kind, packed));
    let numbers = |entries: &[Used]| -> Vec<u16> {
        let all = entries.iter().flat_map(|(_, entry)| block_numbers(kind, entry));
        all.filter(|number| *number != 0).collect()
    };
    let (was, is) = (numbers(&old), numbers(&new));
    let used = was.len();
    let moved = old.iter().zip(&new).any(|((from, _), (to, _))| from != to);
    let is_missed = |position: usize| {
        let moves = old.iter().zip(&new).map(|((from, _), (to, _))| (*from, *to));
        moves
            .into_iter()
            .any(|(from, to)| to < position && position <= from)
    };
    let is_hole = |(_, entry): &Used| {
        let map = block_numbers(kind, entry);
        let last = map.iter().rposition(|number| *number != 0);
        last.is_some_and(|last| map[..last].contains(&0))
    };
    let apart = |i: usize| {
        let again = (i + 2..old.len()).find(|k| is_same_file(old[i].1, old[*k].1));
        again.is_some_and(|k| (i + 1..k).any(|between| !is_same_file(old[i].1, old[between].1)))
    };
    let later = |(_, entry): &Used| extent_number(entry) != 0;
    let odd = |one: &Used| later(one) && one.1[13] != 0 && one.1[1..12].iter().any(|byte| *byte > 127);
    let past = |(_, entry): &Used| {
        let in_block = kind.records_per_block() as usize;
        let map = block_numbers(kind, entry);
        let last = map.iter().rposition(|number| *number != 0);
        last.is_some_and(|last| usize::from(entry[15]) <= in_block * last)
    };
    let behind = image[..kind.directory()].chunks(ENTRY);
    let behind = behind
        .filter(|entry| entry[0] == EMPTY)
        .any(|entry| entry[1..].iter().any(|byte| *byte != EMPTY));
    let data = image.len() / kind.block() - 2;
    let tests = [
        (old.is_empty(), "0/0 of no file"),
        (old.len() == kind.entries(), "0/0 of a full directory"),
        (used == data, "0/0 of a full drive"),
        (image == packed, "0/0 of a packed book"),
        (moved, "0/0 with entries moved"),
        (!moved && !old.is_empty(), "0/0 with entries at their places"),
        (was != is, "0/0 with blocks moved"),
        (old.iter().any(is_hole), "0/0 with holes"),
        (
            used > 0 && was.iter().zip(&is).all(|(a, b)| a != b),
            "0/0 with blocks and none at the same place",
        ),
        (old.iter().any(later), "0/0 with several extents"),
        ((0..old.len()).any(apart), "0/0 with extents of a file apart"),
        (behind, "0/0 with bytes behind an E5h"),
        (free_bytes(kind, image, &was), "0/0 with bytes in free blocks"),
        (old.iter().any(odd), "0/0 with byte 13 and later attributes"),
        (old.iter().any(past), "0/0 with blocks past the count"),
        (
            old.iter()
                .any(|(_, entry)| block_numbers(kind, entry).iter().all(|number| *number == 0)),
            "0/0 with a file without a block",
        ),
        (
            is.iter().any(|number| *number > 255),
            "0/0 with numbers of two bytes",
        ),
        (
            searches(kind, list).next().is_none(),
            "0/0 with no search under way",
        ),
        (
            searches(kind, list).any(is_missed),
            "0/0 with an entry moved past a search",
        ),
    ];
    tests
        .iter()
        .filter(|(is_so, _)| *is_so)
        .map(|(_, what)| *what)
        .collect()
}

/// A free block that is neither zeros nor E5h.
fn free_bytes(kind: Kind, image: &[u8], used: &[u16]) -> bool {
    let used: BTreeSet<usize> = used.iter().map(|number| usize::from(*number)).collect();
    let blocks = image.chunks(kind.block()).enumerate().skip(2);
    let mut free = blocks.filter(|(number, _)| !used.contains(number));
    free.any(|(_, block)| block.iter().any(|byte| *byte != 0 && *byte != EMPTY))
}

// ---- What watches over the reference ----

pub fn fault(case: &Case, outcome: &Outcome) -> Option<&'static str> {
    if outcome.answer != 0 {
        return (case.buffers != outcome.buffers).then_some("a refusal has changed something");
    }
    let kind = Kind::told(case.kind)?;
    if case.buffers[..2] != outcome.buffers[..2] {
        return Some("the image or the list has changed");
    }
    let (image, packed) = (&case.buffers[0], &outcome.buffers[2]);
    let tests = [
        (
            !image_faults((kind, rule_beside(&case.buffers[1])), packed).is_empty(),
            "the packed book is not sound",
        ),
        (!entries_are_packed(kind, image, packed), "the entries are others"),
        (
            !blocks_are_packed(kind, packed),
            "the blocks are not numbered from 2",
        ),
        (!rest_is_clear(kind, packed), "what is empty or free is not clear"),
        (!same_records(kind, image, packed), "a record has other bytes"),
    ];
    if let Some((_, what)) = tests.iter().find(|(is_so, _)| *is_so) {
        return Some(what);
    }
    let again = Case {
        buffers: vec![packed.clone(), case.buffers[1].clone(), vec![0xAA; packed.len()]],
        ..case.clone()
    };
    (on_reference(&again).buffers[2] != *packed).then_some("packed twice is not packed once")
}

/// The same first sixteen bytes, one behind the other, with holes at the same places.
fn entries_are_packed(kind: Kind, image: &[u8], packed: &[u8]) -> bool {
    let (old, new) = (entries_of(kind, image), entries_of(kind, packed));
    let holes = |entry: &[u8]| -> Vec<bool> {
        let numbers = block_numbers(kind, entry);
        numbers.iter().map(|number| *number == 0).collect()
    };
    let alike = |(one, other): (&Used, &Used)| one.1[..16] == other.1[..16] && holes(one.1) == holes(other.1);
    let at_the_beginning = new.iter().enumerate().all(|(place, (slot, _))| place == *slot);
    old.len() == new.len() && at_the_beginning && old.iter().zip(&new).all(alike)
}

fn blocks_are_packed(kind: Kind, packed: &[u8]) -> bool {
    let entries = entries_of(kind, packed);
    let numbers = entries.iter().flat_map(|(_, entry)| block_numbers(kind, entry));
    let used = numbers.filter(|number| *number != 0);
    (2..).zip(used).all(|(wanted, number)| number == wanted)
}

fn rest_is_clear(kind: Kind, packed: &[u8]) -> bool {
    let entries = entries_of(kind, packed);
    let numbers = entries.iter().flat_map(|(_, entry)| block_numbers(kind, entry));
    let used = numbers.filter(|number| *number != 0).count();
    let directory = packed[ENTRY * entries.len()..kind.directory()].iter();
    let free = packed[kind.block() * (2 + used)..].iter();
    directory.copied().all(|byte| byte == EMPTY) && free.copied().all(|byte| byte == 0)
}

/// The entries being the same, block for block.
fn same_records(kind: Kind, image: &[u8], packed: &[u8]) -> bool {
    let blocks = |image: &[u8]| -> Vec<u16> {
        let entries = entries_of(kind, image);
        let numbers = entries.iter().flat_map(|(_, entry)| block_numbers(kind, entry));
        numbers.filter(|number| *number != 0).collect()
    };
    let part = |number: u16| {
        let at = kind.block() * usize::from(number);
        at..at + kind.block()
    };
    let pairs = blocks(image).into_iter().zip(blocks(packed));
    pairs
        .into_iter()
        .all(|(old, new)| image[part(old)] == packed[part(new)])
}
