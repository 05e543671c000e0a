//! Which entry is bad, and why: the order of entries and reasons, and image checks that are wrong
//! about it, which the named cases and chance have to see.

use compare::build::{empty_image_of, image_of, put_entry, Entry};
use compare::comparison::Comparison;
use compare::engine::{Engine, Reference};
use compare::faults::{block_numbers, check_answer, extent_number, judged};
use compare::generate::Generator;
use compare::stage::Made;
use compare::step::Told;
use reference::calls::{Buffers, Numbers};
use reference::kind::Kind;

fn told(kind: Kind, image: &[u8]) -> (u32, usize) {
    let answer = reference::check(kind.number(), 0, image);
    assert_eq!(check_answer(kind, image), answer);
    (answer % 256, answer as usize / 256)
}

/// The blocks of a drive on which these tests name the last ones.
fn blocks(kind: Kind) -> usize {
    match kind {
        Kind::First => 40,
        Kind::Second => 300,
    }
}

fn file(text: &str) -> Entry {
    Entry::named(text).count(1)
}

/// On drives of both kinds, with block numbers counted from the drive's end.
fn assert_told(wanted: (u32, usize), entries: impl Fn(&dyn Fn(Entry, usize, usize) -> Entry) -> Vec<Entry>) {
    for kind in Kind::ALL {
        let from_end = |entry: Entry, index: usize, back: usize| {
            entry.block_of(kind, index, (blocks(kind) - back) as u16)
        };
        let image = image_of(kind, blocks(kind), &entries(&from_end));
        assert_eq!(told(kind, &image), wanted, "{kind:?}");
    }
}

#[test]
fn each_reason_alone() {
    assert_told((0, 0), |of| vec![of(file("A"), 0, 1), of(file("B"), 7, 2)]);
    assert_told((2, 1), |of| vec![of(file("A"), 0, 1), file("B").user(16)]);
    assert_told((3, 1), |of| vec![of(file("A"), 0, 1), file("B").with(9, b'?')]);
    for (at, byte) in [(12, 32), (14, 64), (15, 129)] {
        assert_told((4, 1), |of| vec![of(file("A"), 0, 1), file("B").with(at, byte)]);
    }
    assert_told((5, 1), |of| vec![of(file("A"), 0, 1), of(file("B"), 7, 0)]);
    assert_told((6, 1), |of| vec![of(file("A"), 0, 1), of(file("B"), 7, 1)]);
    assert_told((6, 1), |of| vec![file("A"), of(of(file("B"), 7, 1), 2, 1)]);
    assert_told((7, 1), |of| vec![of(file("A"), 0, 1), of(file("A"), 0, 2)]);
    assert_told((8, 1), |of| vec![of(file("A"), 0, 1), file("B").extent(1)]);
}

#[test]
fn an_image_of_wrong_length_and_an_unknown_kind_tell_entry_0() {
    for length in [0, 1, 2048, 3071, 257 * 1024, 256 * 2048, 4_097 * 2048] {
        let image = vec![0x77; length];
        assert_eq!(
            (reference::check(0, 0, &image), reference::check(1, 0, &image)),
            (1, 1)
        );
    }
    for kind in [2, 255, 256, 257, u32::MAX] {
        assert_eq!(reference::check(kind, 0, &vec![0x77; 3072]), 1);
        assert_eq!(reference::check(kind, 0, &vec![0xE5; 3072]), 1);
    }
}

#[test]
fn a_repeat_is_charged_to_the_later_entry() {
    assert_told((6, 2), |of| {
        vec![of(file("A"), 0, 1), of(file("B"), 0, 2), of(file("C"), 3, 1)]
    });
    assert_told((7, 2), |_| {
        vec![file("A").extent(3), file("A"), file("A").extent(3).attribute(4)]
    });
    // Named three times: the second is told.
    assert_told((6, 1), |of| {
        vec![of(file("A"), 0, 1), of(file("B"), 0, 1), of(file("C"), 3, 1)]
    });
}

#[test]
fn entries_are_judged_in_rising_order() {
    // Entry 1 repeats an extent, 2 a block, and 3 has a bad user.
    assert_told((7, 1), |of| {
        vec![
            of(file("A"), 0, 1),
            file("A"),
            of(file("B"), 0, 1),
            file("C").user(99),
        ]
    });
    // A bad user in the last entry, a number past the end in the one before it.
    for kind in Kind::ALL {
        let last = kind.entries() - 1;
        let mut image = empty_image_of(kind, blocks(kind));
        put_entry(&mut image, last, file("B").user(16));
        assert_eq!(told(kind, &image), (2, last));
        put_entry(&mut image, last - 1, file("A").block_of(kind, 0, 1));
        assert_eq!(told(kind, &image), (5, last - 1));
    }
}

#[test]
fn ranges_are_judged_before_repeats() {
    for kind in Kind::ALL {
        let map = |numbers: [u16; 3]| {
            let entry = (0..).zip(numbers);
            entry.fold(file("A"), |entry, (index, block)| {
                entry.block_of(kind, index, block)
            })
        };
        let check = |entry| told(kind, &image_of(kind, blocks(kind), &[entry]));
        assert_eq!(check(map([3, 3, 1])), (5, 0));
        assert_eq!(check(map([3, 3, blocks(kind) as u16])), (5, 0));
        assert_eq!(check(map([1, 3, 3])), (5, 0));
        assert_eq!(check(map([3, 3, 4])), (6, 0));
        assert_eq!(check(map([3, 4, 5])), (0, 0));
        assert_eq!(check(map([1, 0, 0])), (5, 0));
    }
}

#[test]
fn a_missing_extent_0_is_told_last() {
    assert_told((2, 3), |_| {
        vec![
            file("A").extent(1),
            file("B"),
            file("C").extent(2),
            file("D").user(77),
        ]
    });
    assert_told((8, 0), |_| {
        vec![file("Z").extent(9), file("A").extent(1), file("Z").extent(1)]
    });
    assert_told((8, 1), |_| {
        vec![file("Z").extent(9), file("A").extent(1), file("Z")]
    });
    assert_told((0, 0), |_| {
        vec![file("Z").extent(9), file("A").extent(1), file("Z"), file("A")]
    });
}

/// What an image check can take for document 02's rules.
#[derive(Clone, Copy, Debug, PartialEq, Eq)]
enum Wrong {
    ChargesTheEarlierEntry,
    RepeatsBeforeRanges,
    ExtentsBeforeBlocks,
    NameBeforeUser,
    EightInItsTurn,
    EightOfTheLowestExtent,
    EightOfTheHighestEntry,
    TellsEntry1ForALength,
    LowestReasonOfAll,
    HighestEntry,
    NoRepeatInside,
    Block1IsTheDirectorys,
    CountsUsedEntries,
    CutsTheEntry,
    OneCodeForAll,
}

const ALL_WRONG: [Wrong; 15] = [
    Wrong::ChargesTheEarlierEntry,
    Wrong::RepeatsBeforeRanges,
    Wrong::ExtentsBeforeBlocks,
    Wrong::NameBeforeUser,
    Wrong::EightInItsTurn,
    Wrong::EightOfTheLowestExtent,
    Wrong::EightOfTheHighestEntry,
    Wrong::TellsEntry1ForALength,
    Wrong::LowestReasonOfAll,
    Wrong::HighestEntry,
    Wrong::NoRepeatInside,
    Wrong::Block1IsTheDirectorys,
    Wrong::CountsUsedEntries,
    Wrong::CutsTheEntry,
    Wrong::OneCodeForAll,
];

fn entry(image: &[u8], slot: usize) -> &[u8] {
    &image[32 * slot..32 * slot + 32]
}

fn is_same_file(one: &[u8], other: &[u8]) -> bool {
    let low = |entry: &[u8]| -> Vec<u8> { entry[1..12].iter().map(|byte| byte & 127).collect() };
    one[0] == other[0] && low(one) == low(other)
}

fn shares_a_block(kind: Kind, one: &[u8], other: &[u8]) -> bool {
    let numbers = block_numbers(kind, other);
    let is_shared = |block: &u16| *block != 0 && numbers.contains(block);
    block_numbers(kind, one).iter().any(is_shared)
}

impl Wrong {
    /// What it tells in place of this entry and reason.
    fn tells(self, kind: Kind, image: &[u8], slot: usize, reason: u32) -> (usize, u32) {
        let right = (slot, reason);
        let judged = judged(kind, image);
        let reasons = judged.bad.iter().find(|(of, _)| *of == slot);
        let has = |code: u32| reasons.is_some_and(|(_, reasons)| reasons.contains(&code));
        let used = |slot: &usize| entry(image, *slot)[0] != 0xE5;
        let at = entry(image, slot);
        match self {
            Wrong::ChargesTheEarlierEntry => {
                let is_first = |of: &usize| match reason {
                    6 => shares_a_block(kind, at, entry(image, *of)),
                    7 => {
                        is_same_file(at, entry(image, *of))
                            && extent_number(at) == extent_number(entry(image, *of))
                    }
                    _ => false,
                };
                ((0..slot).filter(used).find(is_first).unwrap_or(slot), reason)
            }
            Wrong::RepeatsBeforeRanges if reason == 5 && has(6) => (slot, 6),
            Wrong::ExtentsBeforeBlocks if reason == 6 && has(7) => (slot, 7),
            Wrong::NameBeforeUser if reason == 2 && has(3) => (slot, 3),
            Wrong::EightInItsTurn => match judged.headless {
                Some(headless) if headless < slot => (headless, 8),
                _ => right,
            },
            Wrong::EightOfTheLowestExtent if reason == 8 => {
                let is_of_it = |of: &usize| is_same_file(at, entry(image, *of));
                let entries = (0..kind.entries()).filter(used).filter(is_of_it);
                (
                    entries.min_by_key(|of| extent_number(entry(image, *of))).unwrap(),
                    8,
                )
            }
            Wrong::EightOfTheHighestEntry if reason == 8 => {
                let is_of_it = |of: &usize| is_same_file(at, entry(image, *of));
                ((0..kind.entries()).filter(used).rfind(is_of_it).unwrap(), 8)
            }
            Wrong::LowestReasonOfAll => {
                let all = judged.bad.iter();
                let first = all.filter_map(|(slot, reasons)| Some((*slot, *reasons.first()?)));
                first
                    .min_by_key(|(slot, reason)| (*reason, *slot))
                    .unwrap_or(right)
            }
            Wrong::HighestEntry => {
                let last = judged.bad.last();
                last.map_or(right, |(slot, reasons)| (*slot, *reasons.first().unwrap()))
            }
            Wrong::Block1IsTheDirectorys if reason == 5 => {
                let past = |block: &u16| usize::from(*block) >= image.len() / kind.block();
                match block_numbers(kind, at).iter().any(past) {
                    true => right,
                    false => (slot, 6),
                }
            }
            Wrong::CountsUsedEntries => ((0..slot).filter(used).count(), reason),
            Wrong::CutsTheEntry => (slot % 64, reason),
            Wrong::OneCodeForAll => (0, 2),
            _ => right,
        }
    }

    /// Numbers that an entry repeats inside itself are left out.
    fn sees(self, kind: Kind, image: &[u8]) -> Vec<u8> {
        let mut seen = image.to_vec();
        if self == Wrong::NoRepeatInside && judged_length(kind, image) {
            for slot in 0..kind.entries() {
                let numbers = block_numbers(kind, entry(image, slot));
                for (index, block) in numbers.iter().enumerate() {
                    if numbers[..index].contains(block) {
                        kind.put_number(&mut seen[32 * slot + 16..32 * slot + 32], index, 0);
                    }
                }
            }
        }
        seen
    }
}

fn judged_length(kind: Kind, image: &[u8]) -> bool {
    kind.blocks_of(image.len()).is_some()
}

struct WrongCheck(Wrong);

impl Engine for WrongCheck {
    fn start(&mut self, kind: u32, numbers: [u32; 4], users: &mut [u8], list: &mut [u8]) -> u32 {
        Reference::default().start(kind, numbers, users, list)
    }

    fn check(&mut self, told: Told, image: &mut [u8]) -> u32 {
        let Some(kind) = Kind::told(told.kind) else {
            return 1;
        };
        let answer = Reference::default().check(told, &mut self.0.sees(kind, image));
        match answer {
            1 if self.0 == Wrong::TellsEntry1ForALength => 1 + 256,
            0 | 1 => answer,
            _ => {
                let (slot, reason) = (answer as usize / 256, answer % 256);
                let (slot, reason) = self.0.tells(kind, image, slot, reason);
                reason + 256 * slot as u32
            }
        }
    }

    fn look(&mut self, told: Told, user: u32, name: &mut [u8], record: u32, image: &mut [u8]) -> u32 {
        Reference::default().look(told, user, name, record, image)
    }

    fn vector(&mut self, told: Told, image: &mut [u8], vector: &mut [u8]) -> u32 {
        Reference::default().vector(told, image, vector)
    }

    fn call(&mut self, numbers: Numbers, buffers: Buffers) -> u32 {
        Reference::default().call(numbers, buffers)
    }
}

/// Only a drive of the second kind has an entry to cut.
fn all_wrong_on(kind: Kind) -> Vec<Wrong> {
    let can_be = |wrong: &Wrong| kind == Kind::Second || *wrong != Wrong::CutsTheEntry;
    ALL_WRONG.into_iter().filter(can_be).collect()
}

fn is_unseen(wrong: Wrong, made: &[Made]) -> bool {
    let mut engine = WrongCheck(wrong);
    Comparison::new(&mut engine).run(made).is_none()
}

#[test]
fn the_named_cases_see_every_wrong_check() {
    let cases = Generator::new(21).named();
    for kind in Kind::ALL {
        let of_kind = format!("kind {}", kind.number());
        let mut unseen = all_wrong_on(kind);
        for (_, made) in cases.iter().filter(|(case, _)| case.ends_with(&of_kind)) {
            unseen.retain(|wrong| is_unseen(*wrong, made));
        }
        assert_eq!(unseen, [], "{kind:?}");
    }
}

#[test]
fn chance_sees_every_wrong_check() {
    const SESSIONS: usize = 1_000;
    for kind in Kind::ALL {
        let mut generator = Generator::new(22);
        let mut unseen = all_wrong_on(kind);
        for _ in 0..SESSIONS {
            let made = generator.session_of(kind);
            unseen.retain(|wrong| is_unseen(*wrong, &made));
            if unseen.is_empty() {
                break;
            }
        }
        assert_eq!(unseen, [], "{kind:?}");
    }
}
