//! The slots that names are chosen for are the engine's: its source says so.

use compare::faults::is_legal_name;
use compare::hints::{names_in, slot_of, NUMBER_WEIGHT, SLOTS, USER_WEIGHT, WEIGHTS};
use compare::random::Random;
use std::collections::BTreeSet;

const SLOT: &str = include_str!("../../../crates/index/src/slot.rt");
const APART: &str = include_str!("../../../crates/listcheck/src/apart.rt");
const ITEM: &str = include_str!("../../../crates/rules/src/item.rt");

/// The body of a function, without white space.
fn body(source: &str, function: &str) -> String {
    let (_, behind) = source
        .split_once(&format!("fn {function}("))
        .expect("the function is there");
    let (_, body) = behind.split_once("\n{\n").expect("a body begins");
    let (body, _) = body.split_once("\n}").expect("a body ends");
    body.split_whitespace().collect()
}

#[test]
fn the_weights_are_those_of_the_engine() {
    let weights: Vec<String> = WEIGHTS.iter().map(|weight| weight.to_string()).collect();
    let table = format!("const WEIGHTS: [usize; 11] = [{}];", weights.join(", "));
    assert!(SLOT.contains(&table), "{table}");
    assert_eq!(
        body(SLOT, "mixed"),
        "letmutsum=0;for(k,byte)inname.iter().enumerate(){sum+=WEIGHTS[k]*usize::from(*byte);}sum"
    );
    assert_eq!(
        body(SLOT, "slot_of"),
        format!("(mixed(f.name)+{USER_WEIGHT}*usize::from(f.user)+{NUMBER_WEIGHT}*(extent%{SLOTS}))%{SLOTS}")
    );
}

#[test]
fn an_item_has_the_slot_of_its_file_and_record() {
    assert_eq!(
        body(APART, "item_slot"),
        "slot_of(places.file(it),lock_number(it)asusize)"
    );
    assert_eq!(body(APART, "lock_number"), "ifit.kind==A_LOCK{it.number}else{0}");
    assert!(ITEM.contains("pub const A_LOCK: u8 = 2;"));
}

#[test]
fn names_fall_into_the_slot_asked_for() {
    let mut random = Random::new(3);
    for (slot, user, number, stem) in [(0, 0, 0, "ORDERS"), (255, 15, 511, ""), (77, 9, 262_143, "ORD")] {
        let names = names_in(slot, (user, number), stem.as_bytes(), 128, &mut random);
        assert_eq!(names.iter().collect::<BTreeSet<_>>().len(), 128);
        for name in names {
            assert!(name.starts_with(stem.as_bytes()) && is_legal_name(&name));
            assert_eq!(slot_of(user, &name, number), slot);
        }
    }
}

/// By hand: 65 times the weights' sum, 853; 85 for the user and 17 for the extent.
#[test]
fn a_slot_by_hand() {
    assert_eq!(slot_of(1, b"AAAAAAAAAAA", 1), (65 * 853 + 85 + 17) % 256);
    let high: Vec<u8> = b"AAAAAAAAAAA".iter().map(|byte| byte | 128).collect();
    assert_eq!(slot_of(1, &high, 257), slot_of(1, b"AAAAAAAAAAA", 1));
    assert_eq!(slot_of(1, b"ORDERS  DAT", 0), slot_of(0, b"ORDERS  DAT", 5));
}
