//! Two images of one book: which pairs are accepted, written from document 02; and comparisons that are wrong about it,
//! which the named cases and chance have to see.

use compare::build::{image_of, name, Entry};
use compare::desk::cases::Cases;
use compare::desk::{difference, named, on_reference, watch, Case, Desk, Local, What};
use compare::faults::{block_numbers, extent_number, used_entries};
use compare::step::Told;
use reference::kind::Kind;
use std::collections::{BTreeMap, BTreeSet};

fn file(text: &str) -> Entry {
    Entry::named(text).count(1)
}

fn blocks(kind: Kind) -> usize {
    match kind {
        Kind::First => 20,
        Kind::Second => 260,
    }
}

/// Entries in this order, and blocks with one byte throughout.
fn book(kind: Kind, blocks: usize, entries: &[Entry], bytes: &[(usize, u8)]) -> Vec<u8> {
    let mut image = image_of(kind, blocks, entries);
    for (block, byte) in bytes {
        image[kind.block() * block..kind.block() * (block + 1)].fill(*byte);
    }
    image
}

/// On both kinds, in both orders; how a book is made is told the kind.
fn assert_pair(wanted: u32, one: impl Fn(Kind) -> Vec<u8>, other: impl Fn(Kind) -> Vec<u8>) {
    for kind in Kind::ALL {
        let (one, other) = (one(kind), other(kind));
        assert_eq!(reference::same(kind.number(), &one, &other), wanted, "{kind:?}");
        assert_eq!(reference::same(kind.number(), &other, &one), wanted, "{kind:?}");
        assert_eq!(reference::same(kind.number(), &one, &one), 0);
    }
}

fn two_files(kind: Kind) -> Vec<u8> {
    let a = file("A").read_only().block_of(kind, 1, 5);
    let later = file("A").extent(33).block_of(kind, 0, 6);
    book(
        kind,
        blocks(kind),
        &[a, later, file("B").user(3)],
        &[(5, 1), (6, 2)],
    )
}

#[test]
fn what_does_not_count() {
    assert_pair(0, two_files, two_files);
    assert_pair(0, two_files, |kind| {
        // Another length, order, place, count, byte 13, later attribute and free block; an extent without blocks.
        let a = file("A").read_only().block_of(kind, 1, 9).count(128).with(13, 77);
        let later = file("A").extent(33).block_of(kind, 0, 2).attribute(1).count(0);
        let bare = file("B").user(3).extent(7);
        let entries = [file("B").user(3), bare, later, a];
        book(kind, blocks(kind) - 3, &entries, &[(9, 1), (2, 2), (4, 99)])
    });
}

#[test]
fn what_counts() {
    let changed = |change: &dyn Fn(Kind, &mut [u8])| {
        assert_pair(3, two_files, |kind| {
            let mut image = two_files(kind);
            change(kind, &mut image);
            image
        });
    };
    changed(&|kind, image| image[6 * kind.block() - 1] ^= 1);
    changed(&|kind, image| image[6 * kind.block()] ^= 128);
    for byte in 1..12 {
        changed(&|_, image| image[byte] ^= 128);
    }
    changed(&|_, image| image[64] = 0xE5);
    changed(&|_, image| image[64] = 4);
    changed(&|_, image| image[64 + 11] = b'X');
    changed(&|_, image| image[32] = 0xE5);
    changed(&|_, image| image[32 + 12] = 2);
    changed(&|kind, image| kind.put_number(&mut image[16..32], 1, 0));
    // A block of zeros is not the same as none.
    changed(&|kind, image| {
        kind.put_number(&mut image[16..32], 2, 7);
        image[7 * kind.block()..8 * kind.block()].fill(0);
    });
    changed(&|kind, image| {
        kind.put_number(&mut image[16..32], 1, 6);
        kind.put_number(&mut image[48..64], 0, 5);
    });
}

#[test]
fn refusals_in_their_order() {
    for kind in Kind::ALL {
        let good = two_files(kind);
        let mut bad = good.clone();
        bad[15] = 129;
        let same = |kind: u32, one: &[u8], other: &[u8]| reference::same(kind, one, other);
        let told = kind.number();
        assert_eq!(same(told, &bad, &good), 1);
        assert_eq!(same(told, &good, &bad), 2);
        assert_eq!(same(told, &bad, &bad), 1);
        assert_eq!(same(told, &good[1..], &good), 1);
        assert_eq!(same(told, &good, &good[1..]), 2);
        assert_eq!(same(told, &[], &[]), 1);
        assert_eq!(same(kind.other().number(), &good, &good), 1);
        let other = image_of(kind.other(), kind.other().fewest_blocks(), &[]);
        assert_eq!((same(told, &good, &other), same(told, &other, &good)), (2, 1));
        for unknown in [2, 255, 256, 257, u32::MAX] {
            assert_eq!(same(unknown, &good, &good), 1);
        }
    }
}

/// What Look shows of each record of each file is what decides, with files and attributes.
#[test]
fn it_is_what_look_shows() {
    let kind = Kind::First;
    let one = two_files(kind);
    let shown = |image: &[u8]| -> Vec<Option<Vec<u8>>> {
        let records = (0..128).chain(33 * 128..34 * 128);
        let look = |record| reference::look(0, 0, 0, &name("A"), record, image);
        records
            .map(|record| look(record).map(|at| image[at..at + 128].to_vec()))
            .collect()
    };
    let mut cases = Cases::new(41);
    let mut alike = 0;
    for _ in 0..200 {
        let other = cases.pair_of(kind, &one);
        if reference::check(0, 0, &other) != 0 {
            continue;
        }
        if reference::same(0, &one, &other) == 0 {
            alike += 1;
            assert!(shown(&one) == shown(&other));
        }
    }
    assert!(alike > 20, "{alike} of 200 are the same book");
}

// ---- Wrong comparisons ----

#[derive(Clone, Copy, Debug, PartialEq, Eq)]
enum Wrong {
    FirstInSecondAlone,
    SecondInFirstAlone,
    FilesOfFirstAlone,
    LaterAttributesCount,
    ReadOnlyAlone,
    NoAttributes,
    ZeroBlockIsNone,
    EmptyBlockIsNone,
    PastTheCountFree,
    CountsCount,
    Byte13Counts,
    LengthsCount,
    OrderCounts,
    BareExtentsCount,
    BareFilesFree,
    FirstRecordsAlone,
    LastByteFree,
    UsersFree,
    ModulesFree,
    PlacesFree,
    BlockNumbersCount,
    SecondBeforeFirst,
    SecondIs3,
    UnknownKindIs3,
    ChangesTheSecond,
}

const ALL_WRONG: [Wrong; 25] = [
    Wrong::FirstInSecondAlone,
    Wrong::SecondInFirstAlone,
    Wrong::FilesOfFirstAlone,
    Wrong::LaterAttributesCount,
    Wrong::ReadOnlyAlone,
    Wrong::NoAttributes,
    Wrong::ZeroBlockIsNone,
    Wrong::EmptyBlockIsNone,
    Wrong::PastTheCountFree,
    Wrong::CountsCount,
    Wrong::Byte13Counts,
    Wrong::LengthsCount,
    Wrong::OrderCounts,
    Wrong::BareExtentsCount,
    Wrong::BareFilesFree,
    Wrong::FirstRecordsAlone,
    Wrong::LastByteFree,
    Wrong::UsersFree,
    Wrong::ModulesFree,
    Wrong::PlacesFree,
    Wrong::BlockNumbersCount,
    Wrong::SecondBeforeFirst,
    Wrong::SecondIs3,
    Wrong::UnknownKindIs3,
    Wrong::ChangesTheSecond,
];

/// What a comparison that has one fault, or none, sees of a book: facts, of which both books must have the same.
type Facts = BTreeSet<(Vec<u8>, Vec<usize>, Vec<u8>)>;

struct Seen<'a> {
    kind: Kind,
    image: &'a [u8],
    wrong: Option<Wrong>,
}

impl Seen<'_> {
    fn has(&self, wrong: Wrong) -> bool {
        self.wrong == Some(wrong)
    }

    fn file(&self, entry: &[u8]) -> Vec<u8> {
        let mut file: Vec<u8> = entry[..12].iter().map(|byte| byte & 127).collect();
        if self.has(Wrong::UsersFree) {
            file[0] = 0;
        }
        file
    }

    fn extent(&self, entry: &[u8]) -> usize {
        match self.has(Wrong::ModulesFree) {
            true => usize::from(entry[12]),
            false => extent_number(entry),
        }
    }

    fn attributes(&self, entry: &[u8]) -> Vec<u8> {
        let high = (1..12).map(|i| entry[i] & 128);
        match self.wrong {
            Some(Wrong::NoAttributes) => Vec::new(),
            Some(Wrong::ReadOnlyAlone) => vec![entry[9] & 128],
            _ => high.collect(),
        }
    }

    fn block(&self, entry: &[u8], index: usize, number: u16) -> Option<Vec<u8>> {
        let at = self.kind.block() * usize::from(number);
        let mut block = self.image[at..at + self.kind.block()].to_vec();
        let none = match self.wrong {
            Some(Wrong::ZeroBlockIsNone) => Some(0),
            Some(Wrong::EmptyBlockIsNone) => Some(0xE5),
            _ => None,
        };
        if none.is_some_and(|none| block.iter().all(|byte| *byte == none)) {
            return None;
        }
        if self.has(Wrong::PastTheCountFree) {
            let start = index * self.kind.records_per_block() as usize;
            block.truncate(128 * usize::from(entry[15]).saturating_sub(start));
        }
        if self.has(Wrong::FirstRecordsAlone) {
            block.truncate(128);
        }
        if self.has(Wrong::LastByteFree) {
            block.pop();
        }
        if self.has(Wrong::BlockNumbersCount) {
            block.extend(number.to_le_bytes());
        }
        Some(block)
    }

    fn facts(&self) -> Facts {
        let mut facts = Facts::new();
        for (at, entry) in used_entries(self.kind, self.image).enumerate() {
            let (file, extent) = (self.file(entry), self.extent(entry));
            let numbers = block_numbers(self.kind, entry);
            let is_bare = numbers.iter().all(|number| *number == 0);
            if self.has(Wrong::BareFilesFree) && is_bare {
                continue;
            }
            facts.insert((file.clone(), vec![], vec![]));
            if extent == 0 || self.has(Wrong::LaterAttributesCount) {
                facts.insert((file.clone(), vec![1, extent], self.attributes(entry)));
            }
            let odd = [
                (Wrong::CountsCount, usize::from(entry[15])),
                (Wrong::Byte13Counts, usize::from(entry[13])),
                (Wrong::OrderCounts, at),
                (Wrong::BareExtentsCount, 0),
            ];
            if let Some((_, number)) = odd.iter().find(|(wrong, _)| self.has(*wrong)) {
                facts.insert((file.clone(), vec![2, extent, *number], vec![]));
            }
            for (index, number) in numbers.into_iter().enumerate().filter(|(_, number)| *number != 0) {
                let place = if self.has(Wrong::PlacesFree) { 0 } else { index };
                if let Some(block) = self.block(entry, index, number) {
                    facts.insert((file.clone(), vec![3, extent, place], block));
                }
            }
        }
        facts
    }
}

/// Where the facts of the files are that the first book has.
fn of_files(facts: &Facts, of: &Facts) -> Facts {
    let files: BTreeMap<&Vec<u8>, ()> = of.iter().map(|(file, _, _)| (file, ())).collect();
    facts
        .iter()
        .filter(|(file, _, _)| files.contains_key(file))
        .cloned()
        .collect()
}

fn wrong_same(wrong: Option<Wrong>, kind: u32, first: &mut [u8], second: &mut [u8]) -> u32 {
    let has = |one: Wrong| wrong == Some(one);
    let Some(kind) = Kind::told(kind) else {
        return if has(Wrong::UnknownKindIs3) { 3 } else { 1 };
    };
    let sound = |image: &[u8]| reference::check(kind.number(), 0, image) == 0;
    if has(Wrong::SecondBeforeFirst) && !sound(second) {
        return 2;
    }
    if !sound(first) {
        return 1;
    }
    if !sound(second) {
        return if has(Wrong::SecondIs3) { 3 } else { 2 };
    }
    let facts = |image: &[u8]| Seen { kind, image, wrong }.facts();
    let (one, other) = (facts(first), facts(second));
    let same = match wrong {
        Some(Wrong::FirstInSecondAlone) => one.is_subset(&other),
        Some(Wrong::SecondInFirstAlone) => other.is_subset(&one),
        Some(Wrong::FilesOfFirstAlone) => one == of_files(&other, &one),
        Some(Wrong::LengthsCount) => one == other && first.len() == second.len(),
        _ => one == other,
    };
    if has(Wrong::ChangesTheSecond) && same {
        second[kind.directory()] ^= 1;
    }
    if same {
        0
    } else {
        3
    }
}

fn desk(wrong: Option<Wrong>) -> impl Desk {
    Local(
        move |_: What, told: Told, buffers: &mut [&mut [u8]]| match buffers {
            [first, second] => wrong_same(wrong, told.kind, first, second),
            _ => unreachable!("two buffers"),
        },
    )
}

fn is_unseen(wrong: Option<Wrong>, case: &Case) -> bool {
    difference(case, &on_reference(case), &desk(wrong).serve(case)).is_none()
}

#[test]
fn the_named_cases_see_every_wrong_comparison() {
    let cases = named::cases(What::Same);
    for kind in Kind::ALL {
        let of_kind = format!("kind {}", kind.number());
        let mut unseen = ALL_WRONG.to_vec();
        for named::Named { title, case } in cases.iter().filter(|one| one.title.ends_with(&of_kind)) {
            assert!(is_unseen(None, case), "{title}");
            unseen.retain(|wrong| is_unseen(Some(*wrong), case));
        }
        assert_eq!(unseen, [], "{kind:?}");
    }
}

#[test]
fn chance_sees_every_wrong_comparison() {
    const CASES: usize = 4_000;
    for kind in Kind::ALL {
        let mut cases = Cases::new(37);
        let mut unseen = ALL_WRONG.to_vec();
        for _ in 0..CASES {
            let case = cases.next_of(What::Same, kind);
            assert!(is_unseen(None, &case));
            unseen.retain(|wrong| is_unseen(Some(*wrong), &case));
            if unseen.is_empty() {
                break;
            }
        }
        assert_eq!(unseen, [], "{kind:?}");
    }
}

#[test]
fn the_watch_sees_a_reference_at_fault() {
    for wrong in ALL_WRONG
        .into_iter()
        .filter(|wrong| *wrong != Wrong::UnknownKindIs3)
    {
        let seen = named::cases(What::Same).iter().any(|named::Named { case, .. }| {
            let outcome = desk(Some(wrong)).serve(case).expect("a desk of this process");
            watch::fault(case, &outcome).is_some()
        });
        assert!(seen, "{wrong:?}");
    }
    for named::Named { case, title } in named::cases(What::Same) {
        assert_eq!(watch::fault(&case, &on_reference(&case)), None, "{title}");
    }
}
