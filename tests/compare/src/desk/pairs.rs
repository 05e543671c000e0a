//! Two images of one book: pairs by chance and by name, what is wanted of them, what they have reached, and what
//! watches over the reference.

use super::books::{some_book, some_name};
use super::damaged::damage;
use super::named::{blocks, Named};
use super::packs::packed_once;
use super::{on_reference, Case, Outcome, What};
use crate::build::{image_of, put_entry, Entry};
use crate::faults::{block_numbers, extent_number, image_faults, used_entries};
use crate::random::Random;
use reference::drive::EMPTY;
use reference::kind::{Kind, ENTRY};
use std::collections::{BTreeMap, BTreeSet};

const ALIKE: u32 = 0;
const BAD_FIRST: u32 = 1;
const BAD_SECOND: u32 = 2;
const DIFFERENT: u32 = 3;

fn case(kind: u32, first: Vec<u8>, second: Vec<u8>) -> Case {
    Case {
        what: What::Same,
        kind,
        rule: 0,
        buffers: vec![first, second],
    }
}

// ---- Copying a book as another host would ----

fn entries_of(kind: Kind, image: &[u8]) -> Vec<Entry> {
    let own = |entry: &[u8]| {
        let mut bytes = [0; ENTRY];
        bytes.copy_from_slice(entry);
        Entry(bytes)
    };
    used_entries(kind, image).map(own).collect()
}

/// The same book in another image: other places, another length, and other bytes where they do not count.
pub fn copied(kind: Kind, image: &[u8], random: &mut Random) -> Vec<u8> {
    let mut entries = entries_of(kind, image);
    let numbers = entries.iter().flat_map(|entry| block_numbers(kind, &entry.0));
    let used = numbers.filter(|number| *number != 0).count();
    let least = kind.fewest_blocks().max(2 + used);
    let most = kind.most_blocks().min(least + random.pick(&[0, 1, 7, 40]));
    let mut copy = vec![random.pick(&[0, EMPTY, 0x1A]); kind.block() * random.between(least, most)];
    copy[..kind.directory()].fill(EMPTY);
    let mut free: Vec<u16> = (2..(copy.len() / kind.block()) as u16).collect();
    let mut slots: Vec<usize> = (0..kind.entries()).collect();
    random.shuffle(&mut free);
    random.shuffle(&mut slots);
    random.shuffle(&mut entries);
    let may_differ = random.chance(50);
    for mut entry in entries {
        for (index, number) in block_numbers(kind, &entry.0).into_iter().enumerate() {
            if number != 0 {
                let to = free.pop().expect("as many blocks as are used");
                copy_block(kind, image, number, &mut copy, to);
                entry = entry.block_of(kind, index, to);
            }
        }
        if may_differ {
            entry = with_other_bytes(entry, random);
        }
        put_entry(&mut copy, slots.pop().expect("as many entries"), entry);
    }
    if may_differ {
        bare_extents(kind, &mut copy, &mut slots, random);
    }
    copy
}

fn copy_block(kind: Kind, image: &[u8], from: u16, copy: &mut [u8], to: u16) {
    let part = |number: u16| {
        let at = kind.block() * usize::from(number);
        at..at + kind.block()
    };
    copy[part(to)].copy_from_slice(&image[part(from)]);
}

/// The count and byte 13; of a later extent the attributes too.
fn with_other_bytes(entry: Entry, random: &mut Random) -> Entry {
    let other = entry.count(random.below(129) as u8).with(13, random.byte());
    match extent_number(&entry.0) {
        0 => other,
        _ => other.attribute(random.between(1, 11)),
    }
}

/// Extents without blocks, of files that are there.
fn bare_extents(kind: Kind, copy: &mut [u8], slots: &mut Vec<usize>, random: &mut Random) {
    let entries = entries_of(kind, copy);
    for entry in entries {
        let extent = random.between(1, 2_047) as u32;
        let there = entries_of(kind, copy);
        let is_there = there
            .iter()
            .any(|one| is_same_file(&one.0, &entry.0) && extent_number(&one.0) == extent as usize);
        if random.chance(80) || is_there {
            continue;
        }
        let Some(slot) = slots.pop() else {
            return;
        };
        let mut bare = entry.extent(extent);
        bare.0[16..].fill(0);
        put_entry(copy, slot, bare);
    }
}

fn is_same_file(one: &[u8], other: &[u8]) -> bool {
    one[0] == other[0] && (1..12).all(|i| (one[i] ^ other[i]) & 127 == 0)
}

// ---- By chance ----

pub fn some_case(kind: Kind, random: &mut Random) -> Case {
    let first = some_book(kind, random);
    let second = second_of(kind, &first, random);
    let mut pair = [first, second];
    for image in &mut pair {
        if random.chance(4) {
            damage(kind, image, random);
        }
    }
    if random.chance(50) {
        pair.reverse();
    }
    let [first, second] = pair;
    case(kind.number(), first, second)
}

/// The same book once more, packed or copied, or with one thing changed; sometimes another book.
pub fn second_of(kind: Kind, first: &[u8], random: &mut Random) -> Vec<u8> {
    let mut second = match random.below(10) {
        0 => first.to_vec(),
        1 | 2 => packed_once(kind, first),
        3 => some_book(kind, random),
        _ => copied(kind, first, random),
    };
    if random.chance(50) {
        // Where there is nothing to change, nothing is.
        let _ = change(kind, &mut second, random);
    }
    second
}

/// Changes one thing of the book, or one that does not count.
fn change(kind: Kind, image: &mut [u8], random: &mut Random) -> Option<()> {
    let slots: Vec<usize> = (0..kind.entries())
        .filter(|slot| image[ENTRY * slot] != EMPTY)
        .collect();
    let slot = random.pick_any(&slots)?;
    let at = ENTRY * slot;
    let map = block_numbers(kind, &image[at..at + ENTRY]);
    let places = |is_wanted: &dyn Fn(&u16) -> bool| -> Vec<usize> {
        let all = map.iter().enumerate().filter(|(_, number)| is_wanted(number));
        all.map(|(index, _)| index).collect()
    };
    let (named, holes) = (places(&|number| *number != 0), places(&|number| *number == 0));
    let put = |image: &mut [u8], index: usize, number: u16| {
        kind.put_number(&mut image[at + 16..at + 32], index, number);
    };
    match random.below(11) {
        0..3 => {
            let index = random.pick_any(&named)?;
            let start = kind.block() * usize::from(map[index]);
            let any = random.below(kind.block());
            let offset = random.pick(&[0, 127, 128, kind.block() - 1, any]);
            image[start + offset] ^= 1 << random.below(8);
        }
        3 => put(image, random.pick_any(&named)?, 0),
        4 => {
            let index = random.pick_any(&holes)?;
            let number = a_free_block(kind, image, random.pick(&[0, 0, EMPTY]))?;
            put(image, index, number);
        }
        5 => {
            let (one, other) = (random.pick_any(&named)?, random.pick_any(&named)?);
            put(image, one, map[other]);
            put(image, other, map[one]);
        }
        6 => image[at + random.between(1, 11)] ^= 128,
        7 => image[at] = (image[at] + 1) % 16,
        8 => {
            let name = some_name(random);
            image[at + 1..at + 12].copy_from_slice(&name);
        }
        9 => {
            let entry = entries_of(kind, image)
                .into_iter()
                .find(|one| extent_number(&one.0) == 0)?;
            let slot = (0..kind.entries()).find(|slot| image[ENTRY * slot] == EMPTY)?;
            let mut more = entry.with(11, b'#').with(1, b'#');
            more.0[16..].fill(0);
            put_entry(image, slot, more);
        }
        _ => remove_file(kind, image, slot),
    }
    Some(())
}

/// The lowest block that no entry names, filled with this byte.
fn a_free_block(kind: Kind, image: &mut [u8], fill: u8) -> Option<u16> {
    let named: BTreeSet<u16> = used_entries(kind, image)
        .flat_map(|entry| block_numbers(kind, entry))
        .collect();
    let blocks = image.len() / kind.block();
    let free = (2..blocks as u16).find(|number| !named.contains(number))?;
    let at = kind.block() * usize::from(free);
    image[at..at + kind.block()].fill(fill);
    Some(free)
}

fn remove_file(kind: Kind, image: &mut [u8], slot: usize) {
    let mut gone = [0; ENTRY];
    gone.copy_from_slice(&image[ENTRY * slot..ENTRY * (slot + 1)]);
    for entry in image[..kind.directory()].chunks_mut(ENTRY) {
        if is_same_file(entry, &gone) {
            entry[0] = EMPTY;
        }
    }
}

// ---- By name ----

struct Pairs {
    kind: Kind,
    named: Vec<Named>,
}

fn file(text: &str) -> Entry {
    Entry::named(text).count(1)
}

pub fn named(kind: Kind) -> Vec<Named> {
    let mut all = Pairs {
        kind,
        named: Vec::new(),
    };
    all.alike();
    all.different();
    all.refused();
    all.named
}

impl Pairs {
    fn add(&mut self, title: &str, case: Case) {
        self.named.push(Named {
            title: format!("same: {title}, kind {}", self.kind.number()),
            case,
        });
    }

    /// The pair and the pair turned round.
    fn pair(&mut self, title: &str, first: Vec<u8>, second: Vec<u8>) {
        let kind = self.kind.number();
        self.add(title, case(kind, first.clone(), second.clone()));
        self.add(&format!("{title}, turned round"), case(kind, second, first));
    }

    /// Entries in this order; a block's bytes are those of its number's label.
    fn book(&self, blocks: usize, entries: &[Entry], labels: &[(u16, u8)]) -> Vec<u8> {
        let mut image = image_of(self.kind, blocks, entries);
        for (number, label) in labels {
            let at = self.kind.block() * usize::from(*number);
            for (i, record) in image[at..at + self.kind.block()].chunks_mut(128).enumerate() {
                record.fill(label.wrapping_mul(16).wrapping_add(i as u8));
            }
        }
        image
    }

    fn with(&self, entry: Entry, numbers: &[(usize, u16)]) -> Entry {
        let put = |entry: Entry, (place, number): &(usize, u16)| entry.block_of(self.kind, *place, *number);
        numbers.iter().fold(entry, put)
    }

    /// Two files, one of two extents.
    fn plain(&self) -> (Vec<Entry>, Vec<u8>) {
        let entries = vec![
            self.with(file("A").read_only(), &[(0, 2), (2, 3)]),
            self.with(file("A").extent(40).count(128), &[(7, 4)]),
            self.with(file("B").user(7), &[(0, 5)]),
        ];
        let book = self.book(blocks(self.kind), &entries, &[(2, 1), (3, 2), (4, 3), (5, 4)]);
        (entries, book)
    }

    fn alike(&mut self) {
        let n = blocks(self.kind);
        let (entries, book) = self.plain();
        let labels = [(2, 1), (3, 2), (4, 3), (5, 4)];
        self.pair("the same bytes", book.clone(), book.clone());
        self.pair(
            "no file in either",
            self.book(n, &[], &[]),
            self.book(n + 3, &[], &[(2, 9)]),
        );
        self.pair("packed", book.clone(), packed_once(self.kind, &book));
        let turned: Vec<Entry> = entries.iter().rev().copied().collect();
        self.pair("another order", book.clone(), self.book(n, &turned, &labels));
        let elsewhere = [
            self.with(file("A").read_only(), &[(0, 30), (2, 20)]),
            self.with(file("A").extent(40).count(128), &[(7, 39)]),
            self.with(file("B").user(7), &[(0, 2)]),
        ];
        let moved = self.book(n, &elsewhere, &[(30, 1), (20, 2), (39, 3), (2, 4)]);
        self.pair("other blocks", book.clone(), moved);
        for blocks in [self.kind.fewest_blocks().max(6), self.kind.most_blocks()] {
            let other = self.book(blocks, &entries, &labels);
            self.pair(&format!("{blocks} blocks"), book.clone(), other);
        }
        let changed = |at: usize, change: &dyn Fn(Entry) -> Entry| {
            let mut entries = entries.clone();
            entries[at] = change(entries[at]);
            self.book(n, &entries, &labels)
        };
        let others = [
            ("another count", changed(0, &|entry| entry.count(77))),
            ("another byte 13", changed(0, &|entry| entry.with(13, 9))),
            ("another later attribute", changed(1, &|entry| entry.attribute(9))),
        ];
        for (title, other) in others {
            self.pair(title, book.clone(), other);
        }
        let bare = [
            &entries[..],
            &[file("A").extent(2_047), file("B").user(7).extent(1)],
        ]
        .concat();
        self.pair(
            "extents without blocks",
            book.clone(),
            self.book(n, &bare, &labels),
        );
        let free = self.book(n, &entries, &[(2, 1), (3, 2), (4, 3), (5, 4), (9, 8)]);
        self.pair("another free block", book, free);
    }

    fn different(&mut self) {
        let n = blocks(self.kind);
        let (entries, book) = self.plain();
        let labels = [(2, 1), (3, 2), (4, 3), (5, 4)];
        let block = self.kind.block();
        let bytes = [
            ("the first byte", 2 * block),
            ("the last byte of a record", 2 * block + 127),
            ("the second record, past the count", 2 * block + 128),
            ("the last byte of a block", 3 * block - 1),
            ("a byte of the last file", 5 * block + 5),
        ];
        for (title, at) in bytes {
            let mut other = book.clone();
            other[at] ^= 1;
            self.pair(title, book.clone(), other);
        }
        for byte in 1..12 {
            let mut other = book.clone();
            other[byte] ^= 128;
            self.pair(&format!("attribute {byte}"), book.clone(), other);
        }
        let changed = |at: usize, change: &dyn Fn(Entry) -> Entry| {
            let mut entries = entries.clone();
            entries[at] = change(entries[at]);
            self.book(n, &entries, &labels)
        };
        let others = [
            ("another user", changed(2, &|entry| entry.user(8))),
            ("another name", changed(2, &|entry| entry.with(11, b'Z'))),
            ("another extent", changed(1, &|entry| entry.extent(41))),
            ("another module", changed(1, &|entry| entry.extent(8))),
            (
                "another place in the map",
                changed(0, &|entry| {
                    entry.block_of(self.kind, 2, 0).block_of(self.kind, 3, 3)
                }),
            ),
            ("a hole", changed(0, &|entry| entry.block_of(self.kind, 2, 0))),
            (
                "a later hole",
                changed(1, &|entry| entry.block_of(self.kind, 7, 0)),
            ),
            (
                "two blocks exchanged",
                changed(0, &|entry| {
                    entry.block_of(self.kind, 0, 3).block_of(self.kind, 2, 2)
                }),
            ),
        ];
        for (title, other) in others {
            self.pair(title, book.clone(), other);
        }
        self.pair("a file less", book.clone(), self.book(n, &entries[..2], &labels));
        self.pair(
            "an extent less",
            book.clone(),
            self.book(n, &[entries[0], entries[2]], &labels),
        );
        let more = [&entries[..], &[file("C")]].concat();
        self.pair(
            "a file without a block more",
            book.clone(),
            self.book(n, &more, &labels),
        );
        let zeros = self.with(entries[2], &[(1, 9)]);
        let zeros = [entries[0], entries[1], zeros];
        let mut zeroed = self.book(n, &zeros, &labels);
        zeroed[9 * block..10 * block].fill(0);
        self.pair("zeros and a hole", book.clone(), zeroed);
        let mut empty = self.book(n, &zeros, &labels);
        empty[9 * block..10 * block].fill(EMPTY);
        self.pair("E5h and a hole", book.clone(), empty);
        self.pair("no file and some", book, self.book(n, &[], &[]));
    }

    fn refused(&mut self) {
        let (kind, n) = (self.kind, blocks(self.kind));
        let (entries, good) = self.plain();
        let mut bad_entries = entries.clone();
        bad_entries[2] = bad_entries[2].count(129);
        let bad = self.book(n, &bad_entries, &[]);
        self.pair("one unsound", good.clone(), bad.clone());
        self.pair("both unsound", bad.clone(), bad.clone());
        let lengths = [
            0,
            1,
            2_048,
            good.len() - 1,
            good.len() + 1,
            256 * 2_048,
            4_097 * 2_048,
        ];
        for length in lengths {
            let mut other = good.clone();
            other.resize(length, EMPTY);
            self.pair(&format!("{length} bytes"), good.clone(), other.clone());
            self.pair(&format!("{length} bytes, the other unsound"), bad.clone(), other);
        }
        let others = image_of(kind.other(), kind.other().fewest_blocks(), &[]);
        self.pair("the other kind's length", good.clone(), others.clone());
        self.pair("both of the other kind", others.clone(), others);
        for told in [2, 255, 256, 257, u32::MAX] {
            self.add(
                &format!("told as kind {told}"),
                case(told, good.clone(), good.clone()),
            );
        }
        self.add(
            "told as the other kind",
            case(kind.other().number(), good.clone(), good),
        );
    }
}

// ---- What the images hold ----

/// A file's user and name, high bits clear.
type File = (u8, [u8; 11]);

#[derive(PartialEq, Eq)]
struct Held<'a> {
    /// The high bits of extent 0.
    attributes: [u8; 11],
    /// Blocks by extent and place in the map.
    blocks: BTreeMap<(usize, usize), &'a [u8]>,
}

fn held(kind: Kind, image: &[u8]) -> BTreeMap<File, Held<'_>> {
    let mut all: BTreeMap<File, Held> = BTreeMap::new();
    for entry in used_entries(kind, image) {
        let file = (entry[0], std::array::from_fn(|i| entry[1 + i] & 127));
        let held = all.entry(file).or_insert(Held {
            attributes: [0; 11],
            blocks: BTreeMap::new(),
        });
        let extent = extent_number(entry);
        if extent == 0 {
            held.attributes = std::array::from_fn(|i| entry[1 + i] & 128);
        }
        for (index, number) in block_numbers(kind, entry).into_iter().enumerate() {
            if number != 0 {
                let at = kind.block() * usize::from(number);
                held.blocks.insert((extent, index), &image[at..at + kind.block()]);
            }
        }
    }
    all
}

fn is_sound(kind: Kind, image: &[u8]) -> bool {
    image_faults(kind, image).is_empty()
}

// ---- What is wanted, and what was reached ----

const REACHED: [&str; 36] = [
    "0 of the same bytes",
    "0 of no file in either",
    "0 of other lengths",
    "0 of a full directory",
    "0 with entries in another order",
    "0 with other block numbers",
    "0 with another count",
    "0 with another byte 13",
    "0 with other later attributes",
    "0 with another extent without blocks",
    "0 of a packed second",
    "0 of a packed first",
    "1 for a first of no kind's length",
    "1 for a first of the other kind's length",
    "1 for a damaged first",
    "1 before 2",
    "2 for a second of no kind's length",
    "2 for a second of the other kind's length",
    "2 for a damaged second",
    "3 for a file that the first lacks",
    "3 for a file that the second lacks",
    "3 for a file without a block",
    "3 for an attribute",
    "3 for the read-only attribute",
    "3 for another attribute",
    "3 for a block that the first lacks",
    "3 for a block that the second lacks",
    "3 for a block of zeros beside none",
    "3 for a block in a later extent",
    "3 for a byte",
    "3 for a byte in the first record of a block",
    "3 for a byte in a later record",
    "3 for a byte past the count",
    "3 for the last byte of a block",
    "3 of other lengths",
    "3 of one length",
];

pub fn wanted() -> Vec<String> {
    REACHED.iter().map(|one| one.to_string()).collect()
}

pub fn seen(case: &Case, outcome: &Outcome) -> BTreeSet<String> {
    let Some(kind) = Kind::told(case.kind) else {
        return BTreeSet::from([format!("unknown kind: {}", outcome.answer)]);
    };
    let (first, second) = (&case.buffers[0], &case.buffers[1]);
    let seen = match outcome.answer {
        ALIKE => seen_of_alike(kind, first, second),
        BAD_FIRST => {
            let mut seen = vec![why_bad(kind, first, true)];
            if !is_sound(kind, second) {
                seen.push("1 before 2");
            }
            seen
        }
        BAD_SECOND => vec![why_bad(kind, second, false)],
        DIFFERENT => seen_of_different(kind, first, second),
        _ => vec!["another answer"],
    };
    let told = |one: &str| format!("kind {}: {one}", kind.number());
    seen.into_iter().map(told).collect()
}

fn why_bad(kind: Kind, image: &[u8], is_first: bool) -> &'static str {
    let own = kind.blocks_of(image.len()).is_some();
    let others = kind.other().blocks_of(image.len()).is_some();
    match (is_first, own, others) {
        (true, true, _) => "1 for a damaged first",
        (true, _, true) => "1 for a first of the other kind's length",
        (true, _, _) => "1 for a first of no kind's length",
        (false, true, _) => "2 for a damaged second",
        (false, _, true) => "2 for a second of the other kind's length",
        (false, _, _) => "2 for a second of no kind's length",
    }
}

fn met(tests: &[(bool, &'static str)]) -> Vec<&'static str> {
    tests
        .iter()
        .filter(|(is_so, _)| *is_so)
        .map(|(_, what)| *what)
        .collect()
}

fn seen_of_alike(kind: Kind, first: &[u8], second: &[u8]) -> Vec<&'static str> {
    let (one, other) = (entries_of(kind, first), entries_of(kind, second));
    let key = |entry: &Entry| (entry.0[0], extent_number(&entry.0), entry.0[1..12].to_vec());
    let low = |entry: &Entry| {
        let (user, extent, name) = key(entry);
        (
            user,
            extent,
            name.iter().map(|byte| byte & 127).collect::<Vec<u8>>(),
        )
    };
    let sorted = |entries: &[Entry]| -> BTreeMap<_, Entry> {
        entries.iter().map(|entry| (low(entry), *entry)).collect()
    };
    let (by_one, by_other) = (sorted(&one), sorted(&other));
    let pairs: Vec<(Entry, Entry)> = by_one
        .iter()
        .filter_map(|(key, entry)| Some((*entry, *by_other.get(key)?)))
        .collect();
    let order = |entries: &[Entry]| entries.iter().map(low).collect::<Vec<_>>();
    let differ = |of: &dyn Fn(&Entry) -> Vec<u8>| pairs.iter().any(|(a, b)| of(a) != of(b));
    let high = |entry: &Entry| entry.0[1..12].iter().map(|byte| byte & 128).collect::<Vec<u8>>();
    met(&[
        (first == second, "0 of the same bytes"),
        (one.is_empty(), "0 of no file in either"),
        (first.len() != second.len(), "0 of other lengths"),
        (one.len() == kind.entries(), "0 of a full directory"),
        (
            one.len() == other.len() && order(&one) != order(&other),
            "0 with entries in another order",
        ),
        (
            differ(&|entry| entry.0[16..].to_vec()),
            "0 with other block numbers",
        ),
        (differ(&|entry| vec![entry.0[15]]), "0 with another count"),
        (differ(&|entry| vec![entry.0[13]]), "0 with another byte 13"),
        (differ(&high), "0 with other later attributes"),
        (
            by_one.len() != pairs.len() || by_other.len() != pairs.len(),
            "0 with another extent without blocks",
        ),
        (
            first != second && *second == packed_once(kind, first),
            "0 of a packed second",
        ),
        (
            first != second && *first == packed_once(kind, second),
            "0 of a packed first",
        ),
    ])
}

fn seen_of_different(kind: Kind, first: &[u8], second: &[u8]) -> Vec<&'static str> {
    let (one, other) = (held(kind, first), held(kind, second));
    let lacks = |held: &BTreeMap<File, Held>, of: &BTreeMap<File, Held>| {
        of.keys().any(|file| !held.contains_key(file))
    };
    let alone = one.iter().filter(|(file, _)| !other.contains_key(*file));
    let alone = alone.chain(other.iter().filter(|(file, _)| !one.contains_key(*file)));
    let bare = alone.into_iter().any(|(_, held)| held.blocks.is_empty());
    let mut seen = met(&[
        (lacks(&one, &other), "3 for a file that the first lacks"),
        (lacks(&other, &one), "3 for a file that the second lacks"),
        (bare, "3 for a file without a block"),
        (first.len() != second.len(), "3 of other lengths"),
        (first.len() == second.len(), "3 of one length"),
    ]);
    let counts = counts_of(kind, first);
    for (file, one) in &one {
        if let Some(other) = other.get(file) {
            seen.extend(seen_of_file(kind, one, other, &|extent| {
                counts.get(&(*file, extent)).copied()
            }));
        }
    }
    seen
}

/// The count of each extent.
fn counts_of(kind: Kind, image: &[u8]) -> BTreeMap<(File, usize), u8> {
    let entries = used_entries(kind, image);
    let count = |entry: &[u8]| {
        let file = (entry[0], std::array::from_fn(|i| entry[1 + i] & 127));
        ((file, extent_number(entry)), entry[15])
    };
    entries.map(count).collect()
}

fn seen_of_file(
    kind: Kind,
    one: &Held,
    other: &Held,
    count: &dyn Fn(usize) -> Option<u8>,
) -> Vec<&'static str> {
    let attribute = |i: usize| one.attributes[i] != other.attributes[i];
    let mut seen = met(&[
        (one.attributes != other.attributes, "3 for an attribute"),
        (attribute(8), "3 for the read-only attribute"),
        ((0..11).any(|i| i != 8 && attribute(i)), "3 for another attribute"),
    ]);
    let all: BTreeSet<&(usize, usize)> = one.blocks.keys().chain(other.blocks.keys()).collect();
    for place in all {
        let (extent, index) = *place;
        let here = match (one.blocks.get(place), other.blocks.get(place)) {
            (Some(one), Some(other)) => {
                let start = index * kind.records_per_block() as usize;
                let past = count(extent).map(|count| usize::from(count).saturating_sub(start));
                seen_of_bytes(one, other, past.unwrap_or(0))
            }
            (one, other) => {
                let zeros = one
                    .or(other)
                    .is_some_and(|block| block.iter().all(|byte| *byte == 0));
                met(&[
                    (one.is_none(), "3 for a block that the first lacks"),
                    (other.is_none(), "3 for a block that the second lacks"),
                    (zeros, "3 for a block of zeros beside none"),
                    (extent > 0, "3 for a block in a later extent"),
                ])
            }
        };
        seen.extend(here);
    }
    seen
}

/// Of two blocks, of which the first so many records are counted in the first image.
fn seen_of_bytes(one: &[u8], other: &[u8], counted: usize) -> Vec<&'static str> {
    let bytes = one.iter().zip(other).enumerate();
    let at: Vec<usize> = bytes.filter(|(_, (a, b))| a != b).map(|(at, _)| at).collect();
    met(&[
        (!at.is_empty(), "3 for a byte"),
        (
            at.iter().any(|at| *at < 128),
            "3 for a byte in the first record of a block",
        ),
        (at.iter().any(|at| *at >= 128), "3 for a byte in a later record"),
        (
            at.iter().any(|at| at / 128 >= counted),
            "3 for a byte past the count",
        ),
        (at.contains(&(one.len() - 1)), "3 for the last byte of a block"),
    ])
}

// ---- What watches over the reference ----

pub fn fault(case: &Case, outcome: &Outcome) -> Option<&'static str> {
    if case.buffers != outcome.buffers {
        return Some("it has changed something");
    }
    let kind = Kind::told(case.kind)?;
    let (first, second) = (&case.buffers[0], &case.buffers[1]);
    let wanted = match (is_sound(kind, first), is_sound(kind, second)) {
        (false, _) => BAD_FIRST,
        (true, false) => BAD_SECOND,
        (true, true) if held(kind, first) == held(kind, second) => ALIKE,
        (true, true) => DIFFERENT,
    };
    if outcome.answer != wanted {
        return Some("it is not what the images hold");
    }
    let turned = Case {
        buffers: vec![second.clone(), first.clone()],
        ..case.clone()
    };
    let is_sound_pair = wanted == ALIKE || wanted == DIFFERENT;
    (is_sound_pair && on_reference(&turned).answer != wanted).then_some("turned round it is another answer")
}
