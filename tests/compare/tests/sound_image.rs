//! Each rule of "Sound image" broken alone, with the entry and the reason that the image check tells,
//! and its neighbours that are still sound.

mod common;

use common::{World, KNOWN};
use compare::build::{empty_image, image_with, name, Entry, Fcb};
use compare::faults::{image_faults, ImageRule};
use reference::kind::Kind;
use std::collections::BTreeSet;

/// Entry 0 is good in all of these, and the bad one is the last of those that are used.
fn assert_broken(rule: ImageRule, image: Vec<u8>) {
    let used = image.chunks(32).take_while(|entry| entry[0] != 0xE5).count();
    match rule {
        ImageRule::Length => assert_broken_in(rule, 1, 0, image),
        _ => assert_broken_in(rule, reason_of(rule), used - 1, image),
    }
}

fn reason_of(rule: ImageRule) -> u32 {
    match rule {
        ImageRule::Length => 1,
        ImageRule::User => 2,
        ImageRule::Name => 3,
        ImageRule::Ex | ImageRule::Module | ImageRule::Count => 4,
        ImageRule::MapRange => 5,
        ImageRule::BlockTwice => 6,
        ImageRule::ExtentTwice => 7,
        ImageRule::ExtentZero => 8,
    }
}

fn assert_broken_in(rule: ImageRule, reason: u32, entry: usize, image: Vec<u8>) {
    assert_eq!(image_faults(Kind::First, &image), BTreeSet::from([rule]));
    let wanted = reason + 256 * entry as u32;
    assert_eq!(reference::check(0, 0, &image), wanted, "{rule:?}");
    assert_eq!(reference::look(0, 0, 0, &name("GOOD"), 0, &image), None);
    for function in KNOWN {
        // Drive 9 and an unsound list come later in the order, so neither may be seen.
        let mut world = World::new(image.clone());
        world.list[0] = 0;
        let answer = world.ask(0, function, Fcb::named("GOOD").with(0, 9)).go();
        assert_eq!(answer, (255, 1), "{rule:?} for {function}");
    }
}

fn assert_sound(image: Vec<u8>) {
    assert_eq!(image_faults(Kind::First, &image), BTreeSet::new());
    assert_eq!(reference::check(0, 0, &image), 0);
    let mut world = World::new(image);
    assert_eq!(world.ask(0, 46, Fcb([255; 36])).go(), (0, 0));
}

fn good() -> Entry {
    Entry::named("GOOD").count(9).block(0, 2).block(1, 3)
}

/// A sound entry beside the one under test.
fn beside(entry: Entry) -> Vec<u8> {
    image_with(8, &[good(), entry])
}

fn other() -> Entry {
    Entry::named("OTHER.X")
}

#[test]
fn length() {
    for length in [0, 1, 1023, 2048, 3071, 3073, 263_168, 262_145, 262_143] {
        assert_broken(ImageRule::Length, vec![0xE5; length]);
    }
    for blocks in [3, 4, 255, 256] {
        assert_sound(empty_image(blocks));
    }
}

#[test]
fn length_comes_before_the_directory() {
    assert_eq!(reference::check(0, 0, &vec![0x77; 2048]), 1);
    assert_eq!(reference::check(0, 0, &vec![0x77; 3072]), 2);
    assert_eq!(reference::check(1, 0, &vec![0x77; 256 * 2048]), 1);
    assert_eq!(reference::check(1, 0, &vec![0x77; 257 * 2048]), 2);
}

#[test]
fn user() {
    for user in [16, 17, 0x7F, 0xE4, 0xE6, 0xFF] {
        assert_broken(ImageRule::User, beside(other().user(user)));
    }
    for user in [0, 15] {
        assert_sound(beside(other().user(user)));
    }
}

#[test]
fn names() {
    for at in 1..12 {
        for byte in [0, 31, 63, 127, 0x80, 0x9F, 0xBF, 0xFF] {
            assert_broken(ImageRule::Name, beside(other().with(at, byte)));
        }
        for byte in [33, 62, 64, 126, 0xA1, 0xC0, 0xFE] {
            assert_sound(beside(other().with(at, byte)));
        }
    }
    assert_broken(ImageRule::Name, beside(other().with(1, 32)));
    assert_broken(ImageRule::Name, beside(other().with(1, 0xA0)));
    for at in 2..12 {
        assert_sound(beside(other().with(at, 32)));
        assert_sound(beside(other().with(at, 0xA0)));
    }
}

#[test]
fn ex_module_and_count() {
    let later = other().extent(5);
    let with_later = |entry: Entry| image_with(8, &[good(), other(), entry]);
    for byte in [32, 33, 255] {
        assert_broken(ImageRule::Ex, with_later(later.with(12, byte)));
    }
    for byte in [64, 65, 255] {
        assert_broken(ImageRule::Module, with_later(later.with(14, byte)));
    }
    for byte in [129, 130, 255] {
        assert_broken(ImageRule::Count, with_later(later.count(byte)));
    }
    assert_sound(with_later(later.with(12, 31)));
    assert_sound(with_later(later.with(14, 63)));
    assert_sound(with_later(later.count(128)));
}

#[test]
fn byte_13_is_unread() {
    for byte in [1, 0x80, 0xE5, 255] {
        assert_sound(beside(other().with(13, byte)));
    }
}

#[test]
fn map_bytes() {
    for index in 0..16 {
        for block in [1, 8, 9, 255] {
            assert_broken(ImageRule::MapRange, beside(other().block(index, block)));
        }
        for block in [0, 4, 7] {
            assert_sound(beside(other().block(index, block)));
        }
    }
    let whole = |block| image_with(256, &[other().block(15, block)]);
    assert_sound(whole(255));
    assert_broken(ImageRule::MapRange, whole(1));
}

#[test]
fn a_block_twice() {
    assert_broken(ImageRule::BlockTwice, beside(other().block(4, 5).block(9, 5)));
    assert_broken(ImageRule::BlockTwice, beside(other().block(0, 2)));
    assert_broken(ImageRule::BlockTwice, beside(other().user(3).block(15, 3)));
}

#[test]
fn an_extent_twice() {
    let twins = |one: Entry, two: Entry| image_with(8, &[good(), other(), one, two]);
    assert_broken(ImageRule::ExtentTwice, beside(good().block(0, 0).block(1, 0)));
    assert_broken(
        ImageRule::ExtentTwice,
        twins(other().extent(40), other().extent(40)),
    );
    assert_broken(
        ImageRule::ExtentTwice,
        twins(other().extent(40), other().extent(40).attribute(3).with(13, 7)),
    );
    assert_sound(twins(other().extent(40), other().extent(41)));
    assert_sound(twins(other().extent(40), other().extent(40 + 32)));
    assert_sound(image_with(8, &[good(), Entry::named("GOOD").user(1)]));
}

#[test]
fn no_extent_0() {
    assert_broken(ImageRule::ExtentZero, beside(other().extent(1)));
    assert_broken(ImageRule::ExtentZero, beside(other().extent(32)));
    assert_broken(
        ImageRule::ExtentZero,
        beside(good().user(1).extent(1).block(0, 4).block(1, 5)),
    );
    assert_sound(image_with(8, &[other().extent(1), other()]));
}

#[test]
fn the_rest_of_an_empty_entry_is_unread() {
    let mut image = beside(other().block(0, 4));
    image.copy_within(..32, 64);
    image[64] = 0xE5;
    for slot in 3..64 {
        image[32 * slot + 1..32 * slot + 32].fill(255);
    }
    assert_sound(image);
}
