//! Named cases of the two rules of where a file ends: that of MP/M II and that of CP/M 2.2.

use crate::build::{empty_image_of, image_of, lock_item, name, open_item, put_item, Entry, Fcb, RULE};
use crate::coverage::FUNCTIONS;
use crate::named::{Play, Script};
use crate::step::{Step, Told};
use reference::rule::Rule;

/// Played on drives of both kinds.
pub const CASES: [(&str, Play); 6] = [
    ("the end of a file, by CP/M's rule", end_of_a_file),
    ("runs over the end, by CP/M's rule", runs_over_the_end),
    ("modules past 15, by each rule", modules),
    ("numbers that tell a rule", told_numbers),
    ("a list's rule byte", rule_bytes),
    ("Start's rule", starts),
];

const FILE: &str = "FILE.DAT";

/// Of the functions that name records.
const OF_RECORDS: [u32; 6] = [33, 34, 40, 41, 42, 43];

/// Whatever else is told is the rule of MP/M II.
const OTHER_NUMBERS: [u32; 6] = [2, 3, 255, 256, 257, u32::MAX];

fn file() -> Fcb {
    Fcb::named(FILE).unlocked()
}

fn end_of_a_file(script: &mut Script) {
    let (kind, size) = (script.kind, script.kind.records_per_block());
    for (rule, limit) in [(Rule::MpmII, 262_144), (Rule::Cpm22, 65_536)] {
        script.rule = rule;
        script.world_on(
            &empty_image_of(kind, kind.fewest_blocks() + 1),
            [40, 9, 20],
            [0; 16],
        );
        script.call(0, 22, file()).ok();
        let last = file().record(limit - 1);
        script.call(0, 34, last).fill(0x66).ok();
        script.image_has(32 + 12, &[31, 0, (limit / 4_096 - 1) as u8]);
        script.call(0, 33, last).reads(0, 0, &[0x66]);
        script.call(0, 41, last).records(0x66, 0x67).ok();
        script.call(0, 40, last).fill(0x68).ok();
        script.call(0, 42, last).ok();
        script.call(0, 43, last).ok();
        script.call(0, 35, file()).sizes(limit);
        for function in OF_RECORDS {
            script.call(0, function, file().record(limit)).gives(6, 0);
            script.call(0, function, file().record(limit + size)).gives(6, 0);
            script.call(0, function, file().with(35, 255)).gives(6, 0);
        }
        for function in [42, 43] {
            script.call(0, function, last).count(2).gives(6, 0);
        }
        script.look(0, &name(FILE), limit, 0);
        script.look(0, &name(FILE), limit + size, 0);
    }
    // Record 65,536 is there by the one rule and past the end by the other.
    script.rule = Rule::MpmII;
    let later = Entry::named(FILE).extent(512).count(1).block_of(kind, 0, 2);
    let image = image_of(kind, kind.fewest_blocks(), &[Entry::named(FILE), later]);
    script.world_on(&image, [9, 9, 9], [0; 16]);
    script.call(0, 15, file()).ok();
    script.call(0, 33, file().record(65_536)).ok();
    script.look(0, &name(FILE), 65_536, 2 * kind.block());
    script.rule = Rule::Cpm22;
    script.look(0, &name(FILE), 65_536, 0);
}

fn runs_over_the_end(script: &mut Script) {
    let kind = script.kind;
    script.rule = Rule::Cpm22;
    for function in [34, 40] {
        script.world_on(
            &empty_image_of(kind, kind.fewest_blocks() + 1),
            [9, 9, 9],
            [0; 16],
        );
        script.call(0, 22, file()).ok();
        let near = file().record(65_533);
        script.call(0, function, near).count(16).rising(0x40).gives(6, 48);
        let bytes: Vec<u8> = (0x40..0x43).collect();
        script.call(0, 33, near).count(16).reads(6, 48, &bytes);
        script.call(0, 33, near).count(3).reads(0, 0, &bytes);
        script.call(0, 42, near).count(4).gives(6, 0);
        script.call(0, 42, near).count(3).ok();
        script.call(0, 43, near).count(4).gives(6, 0);
        script.call(0, 43, near).count(3).ok();
    }
}

/// An image with a module of 16 is sound by one rule alone, with one of 64 by none.
fn modules(script: &mut Script) {
    let kind = script.kind;
    for (module, by_mpm, by_cpm) in [
        (15, true, true),
        (16, true, false),
        (63, true, false),
        (64, false, false),
    ] {
        let later = Entry::named(FILE).with(14, module);
        let image = image_of(kind, kind.fewest_blocks(), &[Entry::named(FILE), later]);
        for (rule, sound) in [(Rule::MpmII, by_mpm), (Rule::Cpm22, by_cpm)] {
            script.rule = rule;
            script.world_on(&image, [9, 9, 9], [0; 16]);
            script.check(if sound { 0 } else { 4 + 256 });
            for function in FUNCTIONS {
                if !sound {
                    script.call(0, function, file()).gives(255, 1);
                }
            }
            if sound {
                script.call(0, 46, file()).ok();
            }
        }
    }
}

fn told_numbers(script: &mut Script) {
    let kind = script.kind;
    let later = Entry::named(FILE).extent(512).block_of(kind, 0, 2);
    let image = image_of(kind, kind.fewest_blocks(), &[Entry::named(FILE), later]);
    script.world_on(&image, [9, 9, 9], [0; 16]);
    script.call(0, 46, file()).ok();
    let (vector, at) = (script.stage.vector().to_vec(), 2 * kind.block() as u32);
    for (rule, sound) in OTHER_NUMBERS
        .map(|rule| (rule, true))
        .into_iter()
        .chain([(0, true), (1, false)])
    {
        let told = Told {
            kind: kind.number(),
            rule,
        };
        let asked = [
            (Step::Check { told }, if sound { 0 } else { 4 + 256 }),
            (Step::Build { told }, if sound { 0 } else { 255 + 256 }),
            (
                Step::Look {
                    told,
                    user: 0,
                    name: name(FILE).to_vec(),
                    record: 65_536,
                },
                if sound { at } else { 0 },
            ),
        ];
        for (step, wanted) in asked {
            let reply = script.stage.serve(step.clone());
            if reply.map(|reply| reply.answer) != Some(wanted) {
                script.complain(&format!("{step:?} does not give {wanted}"));
            }
        }
    }
    if script.stage.vector() != vector {
        script.complain("a vector was built that is another");
    }
}

fn puts_rule(script: &mut Script, byte: u8) {
    script.stage.begin();
    script.stage.serve(Step::PatchList {
        at: RULE,
        bytes: vec![byte],
    });
}

/// A byte above 1 makes the list unsound, and the image is judged by the rule of MP/M II before that.
fn rule_bytes(script: &mut Script) {
    let kind = script.kind;
    let image = |extent| {
        let later = Entry::named(FILE).extent(extent).block_of(kind, 0, 2);
        image_of(kind, kind.fewest_blocks(), &[Entry::named(FILE), later])
    };
    script.world_on(&image(511), [9, 9, 9], [0; 16]);
    for byte in [0, 1] {
        puts_rule(script, byte);
        script.call(0, 46, file()).ok();
    }
    for byte in [2, 3, 0x80, 0xFF] {
        puts_rule(script, byte);
        for function in FUNCTIONS {
            script.call(0, function, file()).gives(255, 12);
        }
    }
    script.world_on(&image(512), [9, 9, 9], [0; 16]);
    for (byte, h) in [(0, 0), (1, 1), (2, 12), (0xFF, 12)] {
        puts_rule(script, byte);
        script.call(0, 46, file()).gives(if h == 0 { 0 } else { 255 }, h);
    }
    script.world_on(&image(64 * 32), [9, 9, 9], [0; 16]);
    for byte in [0, 1, 2, 0xFF] {
        puts_rule(script, byte);
        script.call(0, 46, file()).gives(255, 1);
    }
    // A lock of a record past the end has no block on an image that is sound by the rule.
    script.world_on(&image(511), [9, 9, 9], [0; 16]);
    let mut list = script.stage.list().to_vec();
    put_item(&mut list, 0, open_item(3, name(FILE), 1));
    put_item(&mut list, 1, lock_item(3, name(FILE), 511 * 128));
    script.stage.begin();
    script.stage.set_list(&list);
    for byte in [0, 1] {
        puts_rule(script, byte);
        script.call(3, 43, file().record(511 * 128 + 1)).ok();
    }
    put_item(&mut list, 1, lock_item(3, name(FILE), 65_536));
    script.stage.set_list(&list);
    script.call(3, 46, file()).gives(255, 12);
}

fn starts(script: &mut Script) {
    let kind = script.kind;
    script.world_on(&empty_image_of(kind, kind.fewest_blocks()), [9, 9, 9], [0; 16]);
    for rule in OTHER_NUMBERS {
        script.starts_with_rule(kind.number(), [9, 9, 9], rule, &[0; 16], false);
    }
    for rule in [1, 0] {
        script.starts_with_rule(kind.number(), [3, 2, 1], rule, &[7; 16], true);
        if u32::from(script.stage.list()[RULE]) != rule {
            script.complain("Start has not written its rule");
        }
        script.call(0, 143, file()).ok();
        script.call(0, 46, file()).ok();
    }
}
