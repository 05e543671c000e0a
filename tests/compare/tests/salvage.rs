//! Salvage: what it has to do to each damage, written from document 02; and salvages that are wrong about it, which the
//! named cases and chance have to see.

use compare::build::{image_of, Entry};
use compare::desk::cases::Cases;
use compare::desk::{by_reference, difference, named, on_reference, watch, Case, Desk, Local, What};
use compare::faults::image_faults;
use compare::step::Told;
use reference::kind::Kind;

const BLOCKS: [(Kind, usize); 2] = [(Kind::First, 40), (Kind::Second, 300)];

fn file(text: &str) -> Entry {
    Entry::named(text).count(1)
}

fn with(kind: Kind, entry: Entry, numbers: &[u16]) -> Entry {
    let places = (0..).zip(numbers);
    places.fold(entry, |entry, (place, number)| {
        entry.block_of(kind, place, *number)
    })
}

/// Both kinds: the entries are salvaged as the others tell, with these bytes in the report.
fn assert_salvaged(made: impl Fn(Kind, usize) -> (Vec<Entry>, Vec<Entry>), wanted: &[u8]) {
    for (kind, blocks) in BLOCKS {
        let (before, after) = made(kind, blocks);
        let mut image = image_of(kind, blocks, &before);
        let mut report = vec![0xAA; kind.entries()];
        assert_eq!(reference::salvage(kind.number(), 0, &mut image, &mut report), 0);
        assert!(image == image_of(kind, blocks, &after), "{kind:?}");
        assert_eq!(report[..wanted.len()], *wanted, "{kind:?}");
        assert!(report[wanted.len()..].iter().all(|byte| *byte == 0));
        assert!(image_faults(kind, &image).is_empty());
    }
}

#[test]
fn a_sound_image_is_unchanged() {
    assert_salvaged(
        |kind, blocks| {
            let one = with(kind, file("A"), &[2, 0, blocks as u16 - 1]);
            let entries = vec![file("A").extent(2_047), one, file("A").user(15).read_only()];
            (entries.clone(), entries)
        },
        &[0, 0, 0],
    );
}

#[test]
fn what_is_bad_in_itself_is_emptied_and_names_nothing() {
    for (at, byte) in [
        (0, 16),
        (0, 0xE4),
        (1, b' '),
        (5, b'?'),
        (11, 127),
        (12, 32),
        (14, 64),
        (15, 129),
    ] {
        assert_salvaged(
            |kind, blocks| {
                let bad = with(kind, file("BAD"), &[3, blocks as u16, 1, 3]).with(at, byte);
                let good = with(kind, file("GOOD"), &[3]);
                (vec![bad, good], vec![bad.user(0xE5), good])
            },
            &[255, 0],
        );
    }
}

#[test]
fn an_extent_stays_once_and_the_first_that_is_kept_does() {
    assert_salvaged(
        |kind, _| {
            let first = with(kind, file("A"), &[3]);
            let later = with(kind, file("A").attribute(4), &[4]);
            (
                vec![first, later, later],
                vec![first, later.user(0xE5), later.user(0xE5)],
            )
        },
        &[0, 255, 255],
    );
    // The first is bad: the second is then the first that is kept.
    assert_salvaged(
        |_, _| {
            let (bad, good) = (file("A").count(129), file("A"));
            (vec![bad, good, good], vec![bad.user(0xE5), good, good.user(0xE5)])
        },
        &[255, 0, 255],
    );
}

#[test]
fn a_file_without_its_extent_0_goes_whole() {
    assert_salvaged(
        |kind, _| {
            let one = with(kind, file("A").extent(1), &[3]);
            let heir = with(kind, file("B"), &[3, 4]);
            let two = with(kind, file("A").extent(32), &[4]);
            (vec![one, heir, two], vec![one.user(0xE5), heir, two.user(0xE5)])
        },
        &[255, 0, 255],
    );
    assert_salvaged(
        |_, _| {
            let (later, bad) = (file("A").extent(1), file("A").count(255));
            (vec![later, bad], vec![later.user(0xE5), bad.user(0xE5)])
        },
        &[255, 255],
    );
}

#[test]
fn numbers_out_of_range_and_named_before_are_zeroed() {
    assert_salvaged(
        |kind, blocks| {
            let past = blocks as u16;
            (
                vec![
                    with(kind, file("A"), &[1, past, 3, past - 1, 3]),
                    with(kind, file("B"), &[4, 3, past - 1, 4, 5]),
                ],
                vec![
                    with(kind, file("A"), &[0, 0, 3, past - 1, 0]),
                    with(kind, file("B"), &[4, 0, 0, 0, 5]),
                ],
            )
        },
        &[3, 3],
    );
}

#[test]
fn a_number_of_two_bytes_counts_once() {
    let kind = Kind::Second;
    let mut image = image_of(kind, 300, &[file("A").wide_block(0, 0xFFFF).wide_block(7, 301)]);
    let mut report = vec![9; 128];
    assert_eq!(reference::salvage(1, 0, &mut image, &mut report), 0);
    assert_eq!((report[0], &image[16..32]), (2, &[0; 16][..]));
}

#[test]
fn refusals_change_nothing_and_the_length_comes_first() {
    for (kind, blocks) in BLOCKS {
        let bad = image_of(kind, blocks, &[file("A").user(99)]);
        let ask = |told: u32, image: &[u8], length: usize| {
            let (mut image_now, mut report) = (image.to_vec(), vec![7; length]);
            let answer = reference::salvage(told, 0, &mut image_now, &mut report);
            assert!(image_now == image && report == vec![7; length]);
            answer
        };
        for length in [
            0,
            1,
            kind.entries() - 1,
            kind.entries() + 1,
            kind.other().entries(),
        ] {
            assert_eq!(ask(kind.number(), &bad, length), 2);
            assert_eq!(ask(kind.number(), &bad[1..], length), 1);
            assert_eq!(ask(kind.other().number(), &bad, length), 1);
            assert_eq!(ask(2, &bad, length), 1);
        }
        assert_eq!(ask(256 + kind.number(), &bad, kind.entries()), 1);
    }
}

// ---- Wrong salvages ----

#[derive(Clone, Copy, Debug, PartialEq, Eq)]
enum Wrong {
    RuleNotAsked,
    RuleCutToAByte,
    AnyRuleIsOne,
    EmptiedIsAnEarlierOne,
    TwinOfTheEarlierGoes,
    HeadlessFirst,
    HeadlessInTurn,
    HeadlessLowestAlone,
    NoHeadless,
    HighBitsCount,
    UserDoesNotCount,
    ExAloneIsTheExtent,
    FirstNamingZeroed,
    EmptiedEntriesName,
    RepeatsInsideStay,
    Block1Stays,
    LastBlockGoes,
    MapOfEmptiedIsZeroed,
    LowByteAlone,
    CountsBytes,
    ReportOneOff,
    ReportNotCleared,
    EmptyOnesAreReported,
    ReportsReasons,
    Byte1Too,
    WholeEntry,
    Count128IsBad,
    ReportFirst,
    LongReportTaken,
    TouchesAWrongLength,
    UnknownKindByLength,
    AnswersHowMany,
}

const ALL_WRONG: [Wrong; 32] = [
    Wrong::RuleNotAsked,
    Wrong::RuleCutToAByte,
    Wrong::AnyRuleIsOne,
    Wrong::EmptiedIsAnEarlierOne,
    Wrong::TwinOfTheEarlierGoes,
    Wrong::HeadlessFirst,
    Wrong::HeadlessInTurn,
    Wrong::HeadlessLowestAlone,
    Wrong::NoHeadless,
    Wrong::HighBitsCount,
    Wrong::UserDoesNotCount,
    Wrong::ExAloneIsTheExtent,
    Wrong::FirstNamingZeroed,
    Wrong::EmptiedEntriesName,
    Wrong::RepeatsInsideStay,
    Wrong::Block1Stays,
    Wrong::LastBlockGoes,
    Wrong::MapOfEmptiedIsZeroed,
    Wrong::LowByteAlone,
    Wrong::CountsBytes,
    Wrong::ReportOneOff,
    Wrong::ReportNotCleared,
    Wrong::EmptyOnesAreReported,
    Wrong::ReportsReasons,
    Wrong::Byte1Too,
    Wrong::WholeEntry,
    Wrong::Count128IsBad,
    Wrong::ReportFirst,
    Wrong::LongReportTaken,
    Wrong::TouchesAWrongLength,
    Wrong::UnknownKindByLength,
    Wrong::AnswersHowMany,
];

impl Wrong {
    /// Only numbers of two bytes have a low one and are counted otherwise by bytes.
    fn can_be_of(self, kind: Kind) -> bool {
        kind == Kind::Second || !matches!(self, Wrong::LowByteAlone | Wrong::CountsBytes)
    }
}

/// Salvage on a directory as a list of entries, with one fault or none.
struct Salvage<'a> {
    kind: Kind,
    modules: u8,
    blocks: usize,
    entries: Vec<&'a mut [u8]>,
    emptied: Vec<bool>,
    wrong: Option<Wrong>,
}

impl Salvage<'_> {
    fn has(&self, wrong: Wrong) -> bool {
        self.wrong == Some(wrong)
    }

    fn is_used(&self, slot: usize) -> bool {
        self.entries[slot][0] != 0xE5
    }

    fn is_same_file(&self, one: usize, other: usize) -> bool {
        let (a, b) = (&self.entries[one], &self.entries[other]);
        let mask = if self.has(Wrong::HighBitsCount) {
            0xFF
        } else {
            0x7F
        };
        let users = a[0] == b[0] || self.has(Wrong::UserDoesNotCount);
        users && (1..12).all(|i| (a[i] ^ b[i]) & mask == 0)
    }

    fn extent(&self, slot: usize) -> usize {
        let entry = &self.entries[slot];
        match self.has(Wrong::ExAloneIsTheExtent) {
            true => usize::from(entry[12]),
            false => usize::from(entry[12]) + 32 * usize::from(entry[14]),
        }
    }

    fn is_good(&self, slot: usize) -> bool {
        let entry = &self.entries[slot];
        let legal = |byte: &u8| (32..127).contains(&(byte & 127)) && byte & 127 != b'?';
        let most = if self.has(Wrong::Count128IsBad) { 127 } else { 128 };
        let name = entry[1] & 127 != b' ' && entry[1..12].iter().all(legal);
        entry[0] < 16 && name && entry[12] < 32 && entry[14] < self.modules && entry[15] <= most
    }

    fn is_twin(&self, one: usize, other: usize) -> bool {
        self.is_same_file(one, other) && self.extent(one) == self.extent(other)
    }

    fn first_pass(&mut self) {
        for slot in 0..self.entries.len() {
            if !self.is_used(slot) {
                continue;
            }
            let stays = |of: &usize| !self.emptied[*of] || self.has(Wrong::EmptiedIsAnEarlierOne);
            let earlier: Vec<usize> = (0..slot)
                .filter(|of| self.is_used(*of) && stays(of) && self.is_twin(*of, slot))
                .collect();
            match self.has(Wrong::TwinOfTheEarlierGoes) && self.is_good(slot) {
                true => earlier.iter().for_each(|of| self.emptied[*of] = true),
                false => self.emptied[slot] |= !self.is_good(slot) || !earlier.is_empty(),
            }
            if self.has(Wrong::HeadlessInTurn) && self.extent(slot) != 0 {
                let begun = (0..slot).any(|of| !self.emptied[of] && self.is_begin_of(of, slot));
                self.emptied[slot] |= !begun;
            }
        }
    }

    fn is_begin_of(&self, one: usize, slot: usize) -> bool {
        self.is_used(one) && self.extent(one) == 0 && self.is_same_file(one, slot)
    }

    fn second_pass(&mut self) {
        if self.has(Wrong::NoHeadless) {
            return;
        }
        let kept: Vec<usize> = (0..self.entries.len())
            .filter(|slot| self.is_used(*slot) && !self.emptied[*slot])
            .collect();
        let is_begun = |slot: usize| kept.iter().any(|of| self.is_begin_of(*of, slot));
        let mut headless: Vec<usize> = kept.iter().copied().filter(|slot| !is_begun(*slot)).collect();
        if self.has(Wrong::HeadlessLowestAlone) {
            headless.truncate(1);
        }
        for slot in headless {
            self.emptied[slot] = true;
        }
    }

    fn numbers(&self, slot: usize) -> Vec<u16> {
        self.kind.numbers(&self.entries[slot][16..]).collect()
    }

    /// Which of the numbers go, entry by entry.
    fn third_pass(&self) -> Vec<Vec<usize>> {
        let mut named = Vec::new();
        let mut zeroed = vec![Vec::new(); self.entries.len()];
        for slot in self.walk() {
            let names = self.is_used(slot) && (!self.emptied[slot] || self.has(Wrong::EmptiedEntriesName));
            if !names {
                continue;
            }
            let mut own = Vec::new();
            for (index, number) in self.numbers(slot).into_iter().enumerate() {
                let lowest = if self.has(Wrong::Block1Stays) { 1 } else { 2 };
                let end = self.blocks - usize::from(self.has(Wrong::LastBlockGoes));
                let wild = !(lowest..end).contains(&usize::from(number));
                let before =
                    named.contains(&number) || (own.contains(&number) && !self.has(Wrong::RepeatsInsideStay));
                if number != 0 && (wild || before) {
                    zeroed[slot].push(index);
                }
                if number != 0 && !wild {
                    own.push(number);
                }
            }
            named.extend(own);
            if self.emptied[slot] {
                zeroed[slot].clear();
            }
        }
        zeroed
    }

    fn walk(&self) -> Vec<usize> {
        let slots = 0..self.entries.len();
        match self.has(Wrong::FirstNamingZeroed) {
            true => slots.rev().collect(),
            false => slots.collect(),
        }
    }

    fn zero(&mut self, slot: usize, index: usize) {
        let (kind, low_alone) = (self.kind, self.has(Wrong::LowByteAlone));
        let map = &mut self.entries[slot][16..];
        match low_alone {
            true => map[kind.number_width() * index] = 0,
            false => kind.put_number(map, index, 0),
        }
    }

    fn run(mut self) -> Vec<u8> {
        if self.has(Wrong::HeadlessFirst) {
            self.second_pass();
            self.first_pass();
        } else {
            self.first_pass();
            self.second_pass();
        }
        let zeroed = self.third_pass();
        let mut report = Vec::new();
        for (slot, places) in zeroed.into_iter().enumerate() {
            for index in &places {
                self.zero(slot, *index);
            }
            report.push(self.told(slot, places.len() as u8));
            if self.emptied[slot] {
                self.empty(slot);
            }
        }
        report
    }

    fn told(&self, slot: usize, zeroed: u8) -> u8 {
        if !self.is_used(slot) {
            return if self.has(Wrong::EmptyOnesAreReported) {
                255
            } else {
                0
            };
        }
        match self.emptied[slot] {
            true if self.has(Wrong::ReportsReasons) && self.entries[slot][0] > 15 => 2,
            true => 255,
            false if self.has(Wrong::CountsBytes) => zeroed * self.kind.number_width() as u8,
            false => zeroed,
        }
    }

    fn empty(&mut self, slot: usize) {
        let wrong = self.wrong;
        let entry = &mut self.entries[slot];
        entry[0] = 0xE5;
        match wrong {
            Some(Wrong::Byte1Too) => entry[1] = 0xE5,
            Some(Wrong::WholeEntry) => entry.fill(0xE5),
            Some(Wrong::MapOfEmptiedIsZeroed) => entry[16..].fill(0),
            _ => {}
        }
    }
}

fn salvage(wrong: Option<Wrong>, numbers: Told, image: &mut [u8], report: &mut [u8]) -> u32 {
    let kind = numbers.kind;
    let has = |one: Wrong| wrong == Some(one);
    let told = match kind {
        0 | 1 => Kind::told(kind),
        _ if has(Wrong::UnknownKindByLength) => Kind::ALL
            .into_iter()
            .find(|kind| kind.blocks_of(image.len()).is_some()),
        _ => None,
    };
    let entries = told.map_or(0, Kind::entries);
    let short = if has(Wrong::LongReportTaken) {
        report.len() < entries
    } else {
        report.len() != entries
    };
    if has(Wrong::ReportFirst) && told.is_some() && short {
        return 2;
    }
    let Some((kind, blocks)) = told.and_then(|kind| Some((kind, kind.blocks_of(image.len())?))) else {
        if has(Wrong::TouchesAWrongLength) && !image.is_empty() && told.is_some() {
            image[0] = 0xE5;
        }
        return 1;
    };
    if short {
        return 2;
    }
    let entries: Vec<&mut [u8]> = image[..kind.directory()].chunks_mut(32).collect();
    let emptied = vec![false; entries.len()];
    let done = Salvage {
        kind,
        modules: match numbers.rule {
            1 if !has(Wrong::RuleNotAsked) => 16,
            257 if has(Wrong::RuleCutToAByte) => 16,
            2.. if has(Wrong::AnyRuleIsOne) => 16,
            _ => 64,
        },
        blocks,
        entries,
        emptied,
        wrong,
    }
    .run();
    let answer = match has(Wrong::AnswersHowMany) {
        true => done.iter().filter(|byte| **byte != 0).count() as u32,
        false => 0,
    };
    let first = usize::from(has(Wrong::ReportOneOff));
    for (slot, byte) in done.into_iter().enumerate().skip(first) {
        if byte != 0 || !has(Wrong::ReportNotCleared) {
            report[slot - first] = byte;
        }
    }
    answer
}

fn desk(wrong: Option<Wrong>) -> impl Desk {
    Local(
        move |_: What, told: Told, buffers: &mut [&mut [u8]]| match buffers {
            [image, report] => salvage(wrong, told, image, report),
            _ => unreachable!("two buffers"),
        },
    )
}

fn is_unseen(wrong: Option<Wrong>, case: &Case) -> bool {
    difference(case, &on_reference(case), &desk(wrong).serve(case)).is_none()
}

fn all_wrong_on(kind: Kind) -> Vec<Wrong> {
    ALL_WRONG
        .into_iter()
        .filter(|wrong| wrong.can_be_of(kind))
        .collect()
}

#[test]
fn the_named_cases_see_every_wrong_salvage() {
    let cases = named::cases(What::Salvage);
    for kind in Kind::ALL {
        let of_kind = format!("kind {}", kind.number());
        let mut unseen = all_wrong_on(kind);
        for named::Named { title, case } in cases.iter().filter(|one| one.title.ends_with(&of_kind)) {
            assert!(is_unseen(None, case), "{title}");
            unseen.retain(|wrong| is_unseen(Some(*wrong), case));
        }
        assert_eq!(unseen, [], "{kind:?}");
    }
}

#[test]
fn chance_sees_every_wrong_salvage() {
    const CASES: usize = 3_000;
    for kind in Kind::ALL {
        let mut cases = Cases::new(23);
        let mut unseen = all_wrong_on(kind);
        for _ in 0..CASES {
            let case = cases.next_of(What::Salvage, kind);
            assert!(is_unseen(None, &case));
            unseen.retain(|wrong| is_unseen(Some(*wrong), &case));
            if unseen.is_empty() {
                break;
            }
        }
        assert_eq!(unseen, [], "{kind:?}");
    }
}

#[test]
fn the_watch_sees_a_reference_at_fault() {
    let seen = |wrong: Wrong| {
        named::cases(What::Salvage)
            .iter()
            .any(|named::Named { case, .. }| {
                let outcome = desk(Some(wrong)).serve(case).expect("a desk of this process");
                watch::fault(case, &outcome).is_some()
            })
    };
    let by_the_whole = [
        Wrong::NoHeadless,
        Wrong::RepeatsInsideStay,
        Wrong::MapOfEmptiedIsZeroed,
        Wrong::LowByteAlone,
        Wrong::CountsBytes,
        Wrong::ReportOneOff,
        Wrong::Byte1Too,
        Wrong::TouchesAWrongLength,
    ];
    for wrong in by_the_whole {
        assert!(seen(wrong), "{wrong:?}");
    }
    for named::Named { case, title } in named::cases(What::Salvage) {
        assert_eq!(watch::fault(&case, &on_reference(&case)), None, "{title}");
    }
}

/// Sound books by chance are sound, and stay as they are.
#[test]
fn books_by_chance_are_sound() {
    let mut cases = Cases::new(29);
    for kind in Kind::ALL {
        for _ in 0..300 {
            let book = cases.book(kind);
            assert!(image_faults(kind, &book).is_empty());
            let mut buffers = [book.clone(), vec![9; kind.entries()]];
            let mut lent: Vec<&mut [u8]> = buffers.iter_mut().map(Vec::as_mut_slice).collect();
            assert_eq!(
                by_reference(
                    What::Salvage,
                    Told {
                        kind: kind.number(),
                        rule: 0
                    },
                    &mut lent
                ),
                0
            );
            assert!(buffers == [book, vec![0; kind.entries()]]);
        }
    }
}
