//! The two rules of where a file ends, and engines that are wrong about them in one place, all of which the comparison
//! sees.

mod common;

use common::{split, World, KNOWN, OK};
use compare::build::{empty_image_of, image_of, name, Entry, Fcb, LIST, RULE};
use compare::comparison::Comparison;
use compare::deed::Deed;
use compare::engine::{Engine, Reference};
use compare::generate::Generator;
use compare::stage::Made;
use compare::step::Told;
use reference::calls::{Buffers, Numbers};
use reference::kind::Kind;

const BAD_CALL: u32 = 255 + 256 * 13;
const BAD_IMAGE: u32 = 255 + 256;
const BAD_LIST: u32 = 255 + 256 * 12;

fn file() -> Fcb {
    Fcb::named("FILE.DAT").unlocked()
}

fn world(kind: Kind, image: Vec<u8>, rule: u8) -> World {
    let mut world = World::of_kind(kind.number(), image, [40, 9, 20], [0; 16]);
    world.list[RULE] = rule;
    world
}

#[test]
fn start_writes_the_rule_last() {
    for (rule, answer) in [
        (0, 0),
        (1, 0),
        (2, BAD_CALL),
        (256, BAD_CALL),
        (257, BAD_CALL),
        (u32::MAX, BAD_CALL),
    ] {
        let mut list = vec![0xAA; LIST];
        assert_eq!(reference::start(0, 9, 8, 7, rule, &[3; 16], &mut list), answer);
        match answer {
            0 => assert_eq!(u32::from(list[1_315]), rule),
            _ => assert_eq!(list, [0xAA; LIST]),
        }
    }
    for length in [1_299, 1_315, 1_317] {
        assert_eq!(
            reference::start(0, 9, 8, 7, 0, &[3; 16], &mut vec![0; length]),
            BAD_CALL
        );
    }
}

#[test]
fn byte_35_by_each_rule() {
    for kind in Kind::ALL {
        for (rule, limit) in [(0, 262_144), (1, 65_536)] {
            let mut world = world(kind, empty_image_of(kind, kind.fewest_blocks()), rule);
            world.must(0, 22, file());
            let last = file().record(limit - 1);
            for function in [34, 33, 40, 42, 43] {
                assert_eq!(world.ask(0, function, last).go(), OK);
            }
            world.must(0, 35, file());
            assert_eq!(world.fcb[33..], limit.to_le_bytes()[..3]);
            for function in [33, 34, 40, 41, 42, 43] {
                assert_eq!(world.ask(0, function, file().record(limit)).go(), (6, 0));
                assert_eq!(world.ask(0, function, file().with(35, 200)).go(), (6, 0));
            }
            assert_eq!(world.ask(0, 33, last).count(2).go(), (6, 16));
            assert_eq!(world.ask(0, 42, last).count(2).go(), (6, 0));
        }
    }
}

#[test]
fn modules_by_each_rule() {
    for kind in Kind::ALL {
        for module in [15, 16, 63, 64] {
            let later = Entry::named("FILE.DAT").with(14, module).block_of(kind, 0, 2);
            let image = image_of(kind, kind.fewest_blocks(), &[Entry::named("FILE.DAT"), later]);
            let record = 4_096 * u32::from(module);
            for (rule, limit) in [(0, 64), (1, 16), (2, 64), (256, 64), (257, 64)] {
                let sound = module < limit;
                let check = reference::check(kind.number(), rule, &image);
                assert_eq!(check, if sound { 0 } else { 4 + 256 });
                let found = reference::look(kind.number(), rule, 0, &name("FILE.DAT"), record, &image);
                assert_eq!(found.is_some(), sound);
                let mut vector = vec![0; kind.vector()];
                let built = reference::vector(kind.number(), rule, &image, &mut vector);
                assert_eq!((built, vector[0]), if sound { (0, 0xE0) } else { (BAD_IMAGE, 0) });
                let (mut mended, mut report) = (image.clone(), vec![0; kind.entries()]);
                assert_eq!(
                    reference::salvage(kind.number(), rule, &mut mended, &mut report),
                    0
                );
                assert_eq!(report[1], if sound { 0 } else { 255 });
            }
            for (byte, limit, bad) in [
                (0, 64, None),
                (1, 16, None),
                (2, 64, Some((255, 12))),
                (255, 64, Some((255, 12))),
            ] {
                for function in KNOWN {
                    let mut world = world(kind, image.clone(), byte);
                    let answer = world.ask(0, function, file()).go();
                    match (module < limit, bad) {
                        (false, _) => assert_eq!(answer, (255, 1)),
                        (true, Some(bad)) => assert_eq!(answer, bad),
                        (true, None) => assert!(answer != (255, 1) && answer != (255, 12)),
                    }
                }
            }
        }
    }
}

/// What an engine can make of the rule that is not so.
#[derive(Clone, Copy, Debug, PartialEq, Eq)]
enum Wrong {
    AlwaysMpm,
    AlwaysCpm,
    ByteAbove1IsMpm,
    ByteAbove1IsCpm,
    ListBeforeImage,
    LocksByMpm,
    WritesByMpm,
    ReadsByMpm,
    TestsByMpm,
    StartTakesAnyRule,
    StartForgetsTheRule,
    CheckNotTold,
    CheckCutsTheRule,
    LookNotTold,
    BuildNotTold,
    BuildTakesAnyAsCpm,
    TerminateForgetsTheRule,
}

const ALL_WRONG: [Wrong; 17] = [
    Wrong::AlwaysMpm,
    Wrong::AlwaysCpm,
    Wrong::ByteAbove1IsMpm,
    Wrong::ByteAbove1IsCpm,
    Wrong::ListBeforeImage,
    Wrong::LocksByMpm,
    Wrong::WritesByMpm,
    Wrong::ReadsByMpm,
    Wrong::TestsByMpm,
    Wrong::StartTakesAnyRule,
    Wrong::StartForgetsTheRule,
    Wrong::CheckNotTold,
    Wrong::CheckCutsTheRule,
    Wrong::LookNotTold,
    Wrong::BuildNotTold,
    Wrong::BuildTakesAnyAsCpm,
    Wrong::TerminateForgetsTheRule,
];

impl Wrong {
    /// The byte that the engine takes for the list's.
    fn byte(self, function: u32, byte: u8) -> u8 {
        match self {
            Wrong::AlwaysMpm if byte == 1 => 0,
            Wrong::AlwaysCpm if byte == 0 => 1,
            Wrong::ByteAbove1IsMpm if byte > 1 => 0,
            Wrong::ByteAbove1IsCpm if byte > 1 => 1,
            Wrong::LocksByMpm if byte == 1 && [42, 43].contains(&function) => 0,
            Wrong::WritesByMpm if byte == 1 && [34, 40].contains(&function) => 0,
            Wrong::ReadsByMpm if byte == 1 && function == 33 => 0,
            Wrong::TestsByMpm if byte == 1 && function == 41 => 0,
            _ => byte,
        }
    }

    fn told(self, told: Told, not_told: Wrong) -> Told {
        let rule = match self {
            wrong if wrong == not_told => 0,
            Wrong::CheckCutsTheRule if not_told == Wrong::CheckNotTold => told.rule % 256,
            Wrong::BuildTakesAnyAsCpm if not_told == Wrong::BuildNotTold => told.rule.min(1),
            _ => told.rule,
        };
        Told { rule, ..told }
    }
}

struct WrongRule(Wrong);

impl Engine for WrongRule {
    fn start(&mut self, kind: u32, mut numbers: [u32; 4], users: &mut [u8], list: &mut [u8]) -> u32 {
        numbers[3] = match self.0 {
            Wrong::StartTakesAnyRule if numbers[3] > 1 => 0,
            Wrong::StartForgetsTheRule if numbers[3] == 1 => 0,
            _ => numbers[3],
        };
        Reference::default().start(kind, numbers, users, list)
    }

    fn check(&mut self, told: Told, image: &mut [u8]) -> u32 {
        Reference::default().check(self.0.told(told, Wrong::CheckNotTold), image)
    }

    fn look(&mut self, told: Told, user: u32, name: &mut [u8], record: u32, image: &mut [u8]) -> u32 {
        Reference::default().look(self.0.told(told, Wrong::LookNotTold), user, name, record, image)
    }

    fn vector(&mut self, told: Told, image: &mut [u8], vector: &mut [u8]) -> u32 {
        Reference::default().vector(self.0.told(told, Wrong::BuildNotTold), image, vector)
    }

    fn call(&mut self, numbers: Numbers, buffers: Buffers) -> u32 {
        let Buffers {
            fcb,
            dma,
            list,
            image,
            vector,
        } = buffers;
        let byte = list.get(RULE).copied().filter(|_| list.len() == LIST);
        if let Some(byte) = byte {
            list[RULE] = self.0.byte(numbers.function, byte);
        }
        let lent = Buffers {
            fcb,
            dma,
            list: &mut *list,
            image,
            vector,
        };
        let answer = Reference::default().call(numbers, lent);
        let done = Deed::of_call(numbers, answer) != Deed::Refused;
        if let Some(byte) = byte {
            list[RULE] = match self.0 {
                Wrong::TerminateForgetsTheRule if numbers.function == 143 && done => 0,
                _ => byte,
            };
        }
        match (self.0, answer, byte) {
            (Wrong::ListBeforeImage, BAD_IMAGE, Some(2..)) => BAD_LIST,
            _ => answer,
        }
    }
}

fn unseen<'a>(runs: impl Iterator<Item = &'a [Made]> + Clone) -> Vec<Wrong> {
    let is_unseen = |wrong: &Wrong| {
        let mut engine = WrongRule(*wrong);
        let mut comparison = Comparison::new(&mut engine);
        !runs.clone().any(|made| comparison.run(made).is_some())
    };
    ALL_WRONG.into_iter().filter(is_unseen).collect()
}

#[test]
fn the_named_cases_see_every_wrong_rule() {
    let cases = Generator::new(41).named();
    for kind in Kind::ALL {
        let of_kind = format!("kind {}", kind.number());
        let runs = cases.iter().filter(|(case, _)| case.ends_with(&of_kind));
        assert_eq!(unseen(runs.map(|(_, made)| &made[..])), [], "{of_kind}");
    }
}

#[test]
fn chance_sees_every_wrong_rule() {
    for kind in Kind::ALL {
        let mut generator = Generator::new(42);
        let sessions: Vec<_> = (0..300).map(|_| generator.session_of(kind)).collect();
        assert_eq!(
            unseen(sessions.iter().map(|made| &made[..])),
            [],
            "kind {}",
            kind.number()
        );
    }
}

#[test]
fn the_program_reads_the_rule_behind_the_users() {
    let start = |rule: u8| [&[0x4D, 0x53, 3, 2, 2][..], &[0; 16], &[rule]].concat();
    let call = |function: u8, record: u32| {
        let fcb = file().record(record).0;
        [&[0x4D, 0x43, function, 1, 1][..], &fcb, &[0; 2_048]].concat()
    };
    let image = empty_image_of(Kind::First, 4);
    for (rule, h) in [(0, "0 0"), (1, "6 0")] {
        let input = [start(rule), call(22, 0), call(34, 65_536)].concat();
        let (printed, out) = reference::mpmcalls(Some(&image), &input);
        let wanted = format!("call process function A H\n0 1 22 0 0\n1 1 34 {h}\nend 2\n");
        assert_eq!(String::from_utf8(printed).unwrap(), wanted);
        assert!(out.is_some());
    }
    for input in [start(2), start(0)[..21].to_vec()] {
        let (printed, out) = reference::mpmcalls(Some(&image), &input);
        assert_eq!(
            (&printed[..], out),
            (&b"call process function A H\nbad record 0\n"[..], None)
        );
    }
    assert_eq!(split(BAD_LIST), (255, 12));
}
