//! The generator reaches every row and every kind of success, by name and by chance, and the table
//! of them tells what is missing and what may not be.

use compare::coverage::Coverage;
use compare::generate::Generator;

#[test]
fn the_named_cases_reach_everything() {
    let mut generator = Generator::new(0);
    let cases = generator.named();
    let steps: usize = cases.iter().map(|(_, made)| made.len()).sum();
    assert!(steps > 1_000);
    assert_eq!(generator.faults(), &[] as &[String]);
    assert_eq!(generator.coverage().complaints(), Vec::<String>::new());
}

/// The rarest pairs want more calls with one seed than with another.
#[test]
fn chance_alone_reaches_everything() {
    let mut generator = Generator::new(20_262);
    for calls in (300_000..=1_200_000).step_by(100_000) {
        while generator.coverage().calls() < calls {
            generator.session();
        }
        if generator.coverage().complaints().is_empty() {
            break;
        }
    }
    assert_eq!(generator.faults(), &[] as &[String]);
    assert_eq!(generator.coverage().complaints(), Vec::<String>::new());
}

#[test]
fn the_same_seed_makes_the_same_steps() {
    let run = |seed| {
        let mut generator = Generator::new(seed);
        let sessions: Vec<_> = (0..5).flat_map(|_| generator.session()).collect();
        format!("{sessions:?}")
    };
    assert!(run(7) == run(7));
    assert!(run(7) != run(8));
}

fn word(a: u32, h: u32) -> u32 {
    a + 256 * h
}

#[test]
fn a_pair_that_may_not_be_is_told() {
    let mut generator = Generator::new(0);
    generator.named();
    for (function, a, h, why) in [
        (17, 4, 0, "found, of extents 0"),
        (17, 1, 16, "found, of extents 0"),
        (17, 0, 0, "no match"),
        (17, 255, 9, "illegal name"),
        (18, 255, 0, "no such file"),
        (18, 255, 6, "not open"),
        (33, 10, 16, "not open"),
        (33, 8, 16, "held by another"),
        (33, 0, 16, "read"),
        (33, 1, 1, "no block"),
        (33, 255, 29, "count above 16"),
        (34, 255, 3 + 16, "open read-only"),
        (34, 4, 32, "no extent"),
        (40, 10, 240, "not open"),
        (40, 2, 8, "no free block"),
        (41, 7, 16, "differs"),
        (42, 8, 48, "held by another"),
        (43, 6, 16, "run passes the last record"),
        (46, 0, 16, "space"),
    ] {
        for kind in [0, 1] {
            let mut coverage = generator.coverage().clone();
            coverage.note_call(kind, function, word(a, h), why);
            let told = format!("not allowed: kind {kind}, function {function}, {a}/{h}, {why}");
            assert_eq!(coverage.complaints(), [told]);
        }
    }
}

#[test]
fn what_may_not_be_of_an_unknown_kind_is_told() {
    let mut generator = Generator::new(0);
    generator.named();
    for (function, a, h, why) in [
        (46, 0, 0, "space"),
        (15, 255, 1, "image of wrong length"),
        (33, 255, 13, "count above 16"),
    ] {
        let mut coverage = generator.coverage().clone();
        coverage.note_call(u32::MAX, function, word(a, h), why);
        let told = format!("not allowed: unknown kind, function {function}, {a}/{h}, {why}");
        assert_eq!(coverage.complaints(), [told]);
    }
    let mut coverage = generator.coverage().clone();
    coverage.note_start(2, 0);
    coverage.note_check(2, 0);
    coverage.note_look(2, 5000);
    assert_eq!(
        coverage.complaints(),
        [
            "not allowed: Start (None, 0)",
            "not allowed: image check (None, (0, Entry0))",
            "not allowed: Look (None, true)"
        ]
    );
}

/// 0 and 1 tell entry 0, and entry 0 repeats no extent.
#[test]
fn an_entry_that_may_not_be_told_is_told() {
    let mut generator = Generator::new(0);
    generator.named();
    for (answer, told) in [
        (256, "(0, Lower)"),
        (1 + 256, "(1, Lower)"),
        (7, "(7, Entry0)"),
        (9, "(9, Entry0)"),
        (2 + 256 * 64, "(2, Upper)"),
    ] {
        let mut coverage = generator.coverage().clone();
        coverage.note_check(0, answer);
        let told = format!("not allowed: image check (Some(First), {told})");
        assert_eq!(coverage.complaints(), [told]);
    }
}

#[test]
fn every_number_of_records_done_is_wanted() {
    let missing = Coverage::default().complaints();
    for done in 0..16 {
        let h = 16 * done;
        for (function, a, why) in [
            (33, 6, "record too high"),
            (33, 4, "no extent"),
            (33, 1, "no block"),
            (34, 6, "record too high"),
            (34, 8, "held by another"),
            (40, 5, "no empty entry"),
            (40, 2, "no free block"),
        ] {
            for kind in [0, 1] {
                let told = format!("not reached: kind {kind}, function {function}, {a}/{h}, {why}");
                assert!(missing.contains(&told), "{told}");
            }
        }
    }
    for told in [
        "not reached: run of records (First, 33, 16)",
        "not reached: run of records (Second, 40, 1)",
        "not reached: span of a run (Second, 34, Modules)",
        "not reached: last taken by a run (First, 40, Entry)",
        "not reached: block of a record (41, From1024)",
        "not reached: drive of a size (Second, 4096)",
        "not reached: image rule (Second, BlockTwice, Upper)",
        "not reached: image check (Some(First), (8, Last))",
        "not reached: image check (Some(Second), (7, Upper))",
        "not reached: order of faults (First, Inside(5, 6))",
        "not reached: order of faults (Second, Across(7, 2))",
        "not reached: order of faults (Second, BehindHeadless(6))",
        "not reached: kind 0, function 17, 3/0, found, of extents 0",
        "not reached: kind 1, function 18, 255/0, no match, the search was at its end",
        "not reached: kind 1, function 143, 0/0, a search ended",
        "not reached: search (First, 18, Entry0)",
        "not reached: search (Second, 17, Upper)",
        "not reached: mark of a search (First, 18, (10, true))",
        "not reached: search gone on after (Second, Rename)",
        "not reached: list rule (Second, Position)",
        "not reached: one slot (Some(First), ExtentTwice)",
        "not reached: one slot (Some(Second), LockTwice)",
        "not reached: unknown kind, function 46, 255/13, unknown kind",
        "not reached: kind 1, function 143, 255/1, image of the other kind's length",
    ] {
        assert!(missing.iter().any(|one| one == told), "{told}");
    }
}
