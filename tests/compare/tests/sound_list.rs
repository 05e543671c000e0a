//! Each rule of "Sound list" broken alone, where that can be, and its neighbours that are sound.

mod common;

use common::{World, KNOWN, OK};
use compare::build::{image_with, lock_item, name, open_item, place_start, put_item, Entry, Fcb};
use compare::faults::{list_faults, ListRule};
use reference::kind::Kind;
use std::collections::BTreeSet;

const SHARED: &str = "SHARED.DAT";
const ALONE: &str = "ALONE.DAT";
const QUIET: &str = "QUIET.DAT";
const THEIRS: &str = "THEIRS.DAT";

fn users() -> [u8; 16] {
    let mut users = [0; 16];
    users[9] = 15;
    users
}

/// Processes 1 and 2 share a file and hold records; 1 has another file alone; 9 is user 15.
fn world() -> World {
    let image = image_with(
        6,
        &[
            Entry::named(SHARED).count(16).block(0, 2).block(1, 3),
            Entry::named(ALONE).block(0, 4),
            Entry::named(QUIET),
            Entry::of(15, name(SHARED), 0).block(0, 5),
            Entry::of(15, name(THEIRS), 0),
        ],
    );
    let mut world = World::with_users(image, [10, 3, 2], users());
    put(&mut world, 0, lock_item(1, name(SHARED), 7));
    put(&mut world, 1, open_item(2, name(SHARED), 1));
    put(&mut world, 3, open_item(1, name(SHARED), 1));
    put(&mut world, 4, open_item(1, name(ALONE), 0));
    put(&mut world, 5, lock_item(2, name(SHARED), 0));
    put(&mut world, 7, lock_item(2, name(SHARED), 15));
    put(&mut world, 8, open_item(9, name(SHARED), 1));
    put(&mut world, 9, lock_item(9, name(SHARED), 7));
    world
}

fn put(world: &mut World, place: usize, item: [u8; 20]) {
    put_item(&mut world.list, place, item);
}

fn changed(change: impl FnOnce(&mut World)) -> World {
    let mut world = world();
    change(&mut world);
    world
}

fn with_item(place: usize, item: [u8; 20]) -> World {
    changed(|world| put(world, place, item))
}

fn with_byte(at: usize, byte: u8) -> World {
    changed(|world| world.list[at] = byte)
}

fn in_place(place: usize, at: usize, byte: u8) -> World {
    with_byte(place_start(place) + at, byte)
}

fn assert_unsound(mut world: World) {
    for function in KNOWN {
        // A wrong drive comes later in the order, so it may not be seen.
        let answer = world.ask(3, function, Fcb::named(SHARED).with(0, 2)).go();
        assert_eq!(answer, (255, 12), "function {function}");
    }
}

fn assert_broken(rules: &[ListRule], world: World) {
    let wanted: BTreeSet<ListRule> = rules.iter().copied().collect();
    assert_eq!(list_faults(Kind::First, &world.list, &world.image), wanted);
    assert_unsound(world);
}

fn assert_sound(mut world: World) {
    assert_eq!(
        list_faults(Kind::First, &world.list, &world.image),
        BTreeSet::new()
    );
    assert_eq!(world.ask(15, 46, Fcb([255; 36])).go(), OK);
}

#[test]
fn the_untouched_list() {
    assert_sound(world());
}

#[test]
fn capacity_and_limits() {
    for byte in [65, 128, 255] {
        assert_broken(&[ListRule::CapacityRange], with_byte(0, byte));
        assert_broken(&[ListRule::OpenLimitRange], with_byte(1, byte));
        assert_broken(&[ListRule::LockLimitRange], with_byte(2, byte));
    }
    for (at, rule) in [
        (0, ListRule::CapacityRange),
        (1, ListRule::OpenLimitRange),
        (2, ListRule::LockLimitRange),
    ] {
        let mut empty = World::with_users(world().image, [10, 3, 2], users());
        empty.list[at] = 0;
        assert_broken(&[rule], empty);
        assert_sound(with_byte(at, 64));
    }
    assert_sound(with_byte(0, 10));
}

#[test]
fn users_to_15() {
    assert_broken(&[ListRule::User], with_byte(3, 16));
    assert_broken(&[ListRule::User], with_byte(3 + 15, 255));
    assert_sound(with_byte(3, 15));
}

/// Of every process, of one that never calls too.
#[test]
fn positions_to_64() {
    for process in 0..16 {
        for byte in [65, 66, 127, 128, 129, 255] {
            assert_broken(&[ListRule::Position], with_byte(1299 + process, byte));
        }
        for byte in [0, 1, 63, 64] {
            assert_sound(with_byte(1299 + process, byte));
        }
    }
}

#[test]
fn marks() {
    for mark in [
        [0x4F, 0x52],
        [0x4C, 0x46],
        [0x46, 0x4F],
        [0x4F, 0],
        [0, 0x46],
        [0, 0],
    ] {
        let world = changed(|world| {
            let at = place_start(7);
            world.list[at..at + 2].copy_from_slice(&mark);
        });
        assert_broken(&[ListRule::Mark], world);
    }
}

#[test]
fn an_empty_place_is_twenty_zeros() {
    for at in 0..20 {
        assert_broken(&[ListRule::Mark], in_place(2, at, 1));
    }
}

#[test]
fn name_high_bits() {
    for at in 3..14 {
        let byte = world().list[place_start(7) + at];
        assert_broken(&[ListRule::NameHighBit], in_place(7, at, byte | 128));
        let byte = world().list[place_start(4) + at];
        assert_broken(&[ListRule::NameHighBit], in_place(4, at, byte | 128));
    }
}

#[test]
fn modes_of_items() {
    for mode in [3, 4, 0x81, 255] {
        assert_broken(&[ListRule::OpenMode], in_place(4, 14, mode));
    }
    for mode in [0, 1, 2] {
        assert_sound(in_place(4, 14, mode));
    }
    for mode in [0, 2, 3, 255] {
        assert_broken(&[ListRule::LockMode], in_place(7, 14, mode));
    }
}

#[test]
fn the_zero_byte() {
    for byte in [1, 0x80, 255] {
        assert_broken(&[ListRule::ZeroByte], in_place(4, 15, byte));
        assert_broken(&[ListRule::ZeroByte], in_place(7, 15, byte));
    }
}

#[test]
fn an_open_has_record_0() {
    for at in [16, 17] {
        assert_broken(&[ListRule::OpenRecord], in_place(4, at, 1));
    }
    assert_broken(&[ListRule::OpenRecord], in_place(4, 18, 3));
}

#[test]
fn places_from_the_capacity_on() {
    assert_broken(&[ListRule::BeyondCapacity], with_byte(0, 9));
    let moved = |to| {
        changed(|world| {
            put(world, 4, [0; 20]);
            put(world, to, open_item(1, name(ALONE), 0));
        })
    };
    assert_broken(&[ListRule::BeyondCapacity], moved(10));
    assert_broken(&[ListRule::BeyondCapacity], moved(63));
    assert_sound(moved(6));
}

#[test]
fn an_empty_place_beyond_the_capacity_is_twenty_zeros() {
    assert_broken(&[ListRule::BeyondCapacity, ListRule::Mark], in_place(63, 19, 1));
}

/// Cannot be broken alone: such an open has no file, such a lock no open.
#[test]
fn processes_to_15() {
    for process in [16, 17, 255] {
        let open = with_item(2, open_item(process, name(QUIET), 0));
        assert_broken(&[ListRule::Process, ListRule::OpenOnImage], open);
        let lock = with_item(2, lock_item(process, name(SHARED), 3));
        assert_broken(
            &[ListRule::Process, ListRule::LockHasOpen, ListRule::LockHasBlock],
            lock,
        );
    }
    assert_sound(with_item(2, open_item(15, name(QUIET), 0)));
}

/// Cannot be broken alone: a sound image has no such file.
#[test]
fn names_are_legal() {
    for (at, byte) in [(0, b' '), (0, b'?'), (10, b'?'), (5, 31), (5, 127), (10, 0)] {
        let mut bad = name(ALONE);
        bad[at] = byte;
        let open = with_item(4, open_item(1, bad, 0));
        assert_broken(&[ListRule::NameIllegal, ListRule::OpenOnImage], open);
        let lock = with_item(7, lock_item(2, bad, 15));
        assert_broken(
            &[
                ListRule::NameIllegal,
                ListRule::LockHasOpen,
                ListRule::LockHasBlock,
            ],
            lock,
        );
    }
}

/// Cannot be broken alone: an open's record is 0, a lock's has a block.
#[test]
fn records_below_262144() {
    for record in [262_144, 262_159, u32::MAX] {
        let lock = with_item(7, lock_item(2, name(SHARED), record));
        assert_broken(&[ListRule::RecordRange, ListRule::LockHasBlock], lock);
        let mut open = open_item(1, name(ALONE), 0);
        open[16..].copy_from_slice(&record.to_le_bytes());
        assert_broken(&[ListRule::RecordRange, ListRule::OpenRecord], with_item(4, open));
    }
}

#[test]
fn one_open_per_file() {
    assert_broken(
        &[ListRule::OneOpenPerFile],
        with_item(2, open_item(1, name(ALONE), 0)),
    );
    assert_broken(
        &[ListRule::OneOpenPerFile],
        with_item(2, open_item(1, name(ALONE), 2)),
    );
}

#[test]
fn the_open_limit() {
    assert_broken(&[ListRule::OpenLimit], with_byte(1, 1));
    assert_sound(with_byte(1, 2));
    let third = |world: &mut World| put(world, 2, open_item(1, name(QUIET), 2));
    assert_sound(changed(third));
    let over = changed(|world| {
        third(world);
        world.list[1] = 2;
    });
    assert_broken(&[ListRule::OpenLimit], over);
}

#[test]
fn the_lock_limit() {
    assert_broken(&[ListRule::LockLimit], with_byte(2, 1));
    assert_sound(with_byte(2, 2));
    assert_broken(
        &[ListRule::LockLimit],
        with_item(2, lock_item(2, name(SHARED), 9)),
    );
}

#[test]
fn modes_beside_each_other() {
    for (one, two) in [(0, 0), (0, 1), (1, 0), (0, 2), (2, 0), (1, 2), (2, 1)] {
        let world = changed(|world| {
            put(world, 4, open_item(1, name(ALONE), one));
            put(world, 6, open_item(2, name(ALONE), two));
        });
        assert_broken(&[ListRule::ModesBeside], world);
    }
    for mode in [1, 2] {
        let world = changed(|world| {
            put(world, 4, open_item(1, name(ALONE), mode));
            put(world, 6, open_item(2, name(ALONE), mode));
        });
        assert_sound(world);
    }
}

#[test]
fn an_opens_file_is_on_the_image() {
    assert_broken(
        &[ListRule::OpenOnImage],
        with_item(2, open_item(3, name("NOWHERE"), 1)),
    );
    // The name is there, but under another user.
    assert_broken(
        &[ListRule::OpenOnImage],
        with_item(2, open_item(3, name(THEIRS), 1)),
    );
    assert_broken(
        &[ListRule::OpenOnImage],
        with_item(2, open_item(9, name(ALONE), 1)),
    );
    assert_sound(with_item(2, open_item(9, name(THEIRS), 1)));
}

#[test]
fn a_locks_process_has_the_file_open_unlocked() {
    // Not open at all; open by others only; open, but locked; open, but read-only.
    assert_broken(
        &[ListRule::LockHasOpen],
        with_item(2, lock_item(3, name(SHARED), 3)),
    );
    assert_broken(
        &[ListRule::LockHasOpen],
        with_item(2, lock_item(1, name(ALONE), 3)),
    );
    let read_only = changed(|world| {
        put(world, 4, open_item(1, name(ALONE), 2));
        put(world, 2, lock_item(1, name(ALONE), 3));
    });
    assert_broken(&[ListRule::LockHasOpen], read_only);
    let unlocked = changed(|world| {
        put(world, 4, open_item(1, name(ALONE), 1));
        put(world, 2, lock_item(1, name(ALONE), 3));
    });
    assert_sound(unlocked);
}

#[test]
fn a_locks_record_has_a_block() {
    for record in [16, 127, 128, 4096, 262_143] {
        assert_broken(
            &[ListRule::LockHasBlock],
            with_item(7, lock_item(2, name(SHARED), record)),
        );
    }
    for record in [1, 8, 14] {
        assert_sound(with_item(7, lock_item(2, name(SHARED), record)));
    }
}

#[test]
fn no_two_locks_of_one_record() {
    assert_broken(
        &[ListRule::LockTwice],
        with_item(7, lock_item(2, name(SHARED), 7)),
    );
    assert_broken(
        &[ListRule::LockTwice],
        with_item(7, lock_item(2, name(SHARED), 0)),
    );
}
