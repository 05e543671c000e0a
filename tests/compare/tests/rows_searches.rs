//! Search First and Search Next: what they match, what they leave, where they go on, and that
//! nothing else moves a position.

mod common;

use common::{World, KNOWN, OK};
use compare::build::{empty_image_of, name, put_entry, Entry, Fcb};
use reference::kind::Kind;

const NONE: (u32, u32) = (255, 0);

fn all() -> Fcb {
    Fcb::of([b'?'; 11]).all_extents()
}

/// A world of this kind with entries in these places; process 9 is user 4, all others user 0.
fn world_of(kind: Kind, entries: &[(usize, Entry)]) -> World {
    let mut image = empty_image_of(kind, kind.fewest_blocks());
    for (slot, entry) in entries {
        put_entry(&mut image, *slot, *entry);
    }
    let mut users = [0; 16];
    users[9] = 4;
    World::of_kind(kind.number(), image, [9, 9, 9], users)
}

fn world(entries: &[(usize, Entry)]) -> World {
    world_of(Kind::First, entries)
}

fn position(world: &World, process: usize) -> usize {
    world.list[1299 + process].into()
}

/// The entries that a First and then Nexts with the same FCB find.
fn listed(world: &mut World, process: u32, fcb: Fcb) -> Vec<usize> {
    let mut found = Vec::new();
    for function in [17].into_iter().chain(std::iter::repeat(18)) {
        let before = world.clone();
        let (a, h) = world.ask(process, function, fcb).fill(0xB7).go();
        assert_eq!(h, 0);
        assert_eq!(world.fcb, fcb.0);
        assert!(world.image == before.image && world.list[..1299] == before.list[..1299]);
        assert_eq!(world.dma[128..], [0xB7; 2_048 - 128]);
        if a == 255 {
            assert_eq!(world.dma, [0xB7; 2_048]);
            return found;
        }
        let slot = position(world, process as usize) - 1;
        assert_eq!(a as usize, slot % 4);
        let at = 128 * (slot / 4);
        assert_eq!(world.dma[..128], world.image[at..at + 128]);
        found.push(slot);
    }
    found
}

#[test]
fn a_list_of_1316_bytes() {
    assert_eq!(World::empty(3).list.len(), 1_316);
    for length in [1_299, 1_315, 1_317] {
        for function in KNOWN {
            let mut world = World::empty(3);
            world.list.resize(length, 64);
            assert_eq!(world.ask(0, function, all()).go(), (255, 13));
        }
        let mut list = vec![7; length];
        assert_eq!(
            reference::start(0, 9, 9, 9, 0, &[0; 16], &mut list),
            255 + 256 * 13
        );
        assert_eq!(list, vec![7; length]);
    }
}

/// How a host takes an old list over: sixteen bytes of 64 behind it, of the second kind 128, and a rule of 0.
#[test]
fn an_old_list_taken_over() {
    for (kind, end) in [(Kind::First, 64), (Kind::Second, 128)] {
        let mut world = world_of(kind, &[(5, Entry::named("FILE.DAT"))]);
        world.must(3, 15, Fcb::named("FILE.DAT"));
        let whole = world.list.clone();
        world.list.truncate(1_299);
        world.list.extend([end; 16]);
        world.list.push(0);
        assert_eq!(world.list, whole);
        assert_eq!(world.ask(3, 18, all()).go(), NONE);
        assert_eq!(listed(&mut world, 3, all()), [5]);
    }
}

#[test]
fn every_place_of_every_record() {
    for kind in Kind::ALL {
        for slot in 0..kind.entries() {
            let mut world = world_of(kind, &[(slot, Entry::named("FILE.DAT"))]);
            assert_eq!(listed(&mut world, 2, all()), [slot]);
            assert_eq!(position(&world, 2), kind.entries());
            for from in 0..=kind.entries() {
                world.list[1299 + 2] = from as u8;
                let wanted = if from <= slot { (slot as u32 % 4, 0) } else { NONE };
                assert_eq!(world.ask(2, 18, all()).go(), wanted);
            }
        }
    }
}

#[test]
fn users_and_extents() {
    let file = |extent: u32| Entry::named("FILE.DAT").extent(extent);
    let mut world = world(&[
        (1, file(32)),
        (2, file(0)),
        (3, file(0).user(4)),
        (4, file(31)),
        (8, file(64).user(4)),
        (60, Entry::named("FILE.DAU").attribute(9)),
        (63, Entry::named("GILE.DAT").attribute(1)),
    ]);
    assert_eq!(listed(&mut world, 0, all()), [1, 2, 4, 60, 63]);
    assert_eq!(listed(&mut world, 0, all().with(12, 0)), [2, 60, 63]);
    assert_eq!(listed(&mut world, 9, all()), [3, 8]);
    assert_eq!(listed(&mut world, 9, all().with(12, 0)), [3]);
    assert_eq!(
        listed(&mut world, 0, Fcb::named("FILE.DAT").all_extents()),
        [1, 2, 4]
    );
    for byte in (0..=255).filter(|byte| *byte != b'?') {
        assert_eq!(listed(&mut world, 0, Fcb::named("FILE.DAT").with(12, byte)), [2]);
    }
}

#[test]
fn marks_and_high_bits() {
    let stored = name("A?").map(|byte| if byte == b'?' { b'B' } else { byte });
    let mut world = world(&[(7, Entry::of(0, stored, 0).attribute(2).attribute(11))]);
    for at in 1..12 {
        for byte in 0..=255 {
            let fcb = Fcb::of(stored).with(at, byte);
            let low = byte & 127;
            let fits = low == b'?' || low == stored[at - 1];
            let wanted: &[usize] = if fits { &[7] } else { &[] };
            assert_eq!(listed(&mut world, 5, fcb), wanted, "byte {at} is {byte:02X}");
        }
    }
}

#[test]
fn refusals_leave_the_position() {
    for function in [17, 18] {
        let mut world = world(&[(0, Entry::named("A")), (9, Entry::named("B"))]);
        assert_eq!(world.ask(1, 17, all()).go(), OK);
        for drive in [2, b'?', 0x80, 0x81, 0xE5, 0xFF] {
            assert_eq!(world.ask(1, function, all().with(0, drive)).go(), (255, 4));
        }
        assert_eq!(world.ask(1, function, all()).count(17).go(), (255, 13));
        assert_eq!(world.ask(1, function, all()).count(0).go(), (255, 13));
        assert_eq!(world.ask(16, function, all()).go(), (255, 13));
        let mut unsound = world.clone();
        unsound.list[1299 + 15] = 65;
        assert_eq!(unsound.ask(1, function, all().with(0, 2)).go(), (255, 12));
        unsound.image[0] = 16;
        assert_eq!(unsound.ask(1, function, all().with(0, 2)).go(), (255, 1));
        assert_eq!(position(&world, 1), 1);
        assert_eq!(world.ask(1, 18, all().with(0, 1)).go(), (1, 0));
    }
}

/// 255/0 is an effect: the caller's position and nothing else.
#[test]
fn no_match() {
    let mut world = world(&[(0, Entry::named("A")), (9, Entry::named("B"))]);
    assert_eq!(world.ask(1, 17, all()).go(), OK);
    assert_eq!(world.ask(2, 17, all()).go(), OK);
    for (function, process) in [(17, 1), (18, 2)] {
        let before = world.clone();
        let answer = world.ask(process, function, Fcb::named("NONE")).fill(0x11).go();
        assert_eq!(answer, NONE);
        assert_eq!(
            (
                position(&before, process as usize),
                position(&world, process as usize)
            ),
            (1, 64)
        );
        let mut wanted = before.list.clone();
        wanted[1299 + process as usize] = 64;
        assert!(world.list == wanted && world.image == before.image);
        assert!(world.dma.iter().all(|&byte| byte == 0x11));
    }
    let before = world.clone();
    assert_eq!(world.ask(2, 18, all()).go(), NONE);
    assert!(world.list == before.list, "a search at its end stays there");
}

#[test]
fn only_searches_and_the_end_of_a_process_move_a_position() {
    let file = Fcb::named("FILE.DAT").unlocked();
    let mut world = World::empty(8);
    world.must(1, 22, file);
    world.must(1, 34, file);
    world.list[1299..1315].copy_from_slice(&[0, 1, 2, 3, 4, 5, 6, 7, 8, 9, 10, 11, 12, 13, 63, 64]);
    let positions = world.list[1299..1315].to_vec();
    let renamed = Fcb::named("OLD").new_name(name("NEW"));
    for (function, fcb) in [
        (15, file),
        (22, Fcb::named("OLD")),
        (16, Fcb::named("OLD")),
        (23, renamed),
        (33, file),
        (34, file.record(8)),
        (35, file),
        (40, file.record(200)),
        (42, file),
        (43, file),
        (46, file),
        (19, Fcb::named("NEW")),
        (16, file),
    ] {
        world.must(1, function, fcb);
        assert_eq!(world.list[1299..1315], positions, "function {function}");
    }
    world.must(2, 143, file);
    let mut wanted = positions.clone();
    wanted[2] = 64;
    assert_eq!(world.list[1299..1315], wanted);
}

/// One process goes on where it was, whatever the others do to the directory and in their searches.
#[test]
fn next_reads_the_directory_as_it_stands() {
    let entries = ["A", "B", "C", "D"].map(Entry::named);
    let mut world = world(&[(2, entries[0]), (4, entries[1]), (6, entries[2]), (8, entries[3])]);
    let all = all();
    assert_eq!(world.ask(0, 17, all).go(), (2, 0));
    world.must(1, 19, Fcb::named("A"));
    world.must(1, 19, Fcb::named("B"));
    world.must(1, 22, Fcb::named("LOW"));
    assert_eq!(world.ask(3, 17, all).go(), (0, 0));
    assert_eq!(
        world.ask(0, 18, all).go(),
        (2, 0),
        "C, behind the place where A was"
    );
    assert_eq!(position(&world, 0), 7);
    world.must(1, 23, Fcb::named("D").new_name(name("E")));
    assert_eq!(world.ask(0, 18, Fcb::named("D")).go(), NONE);
    assert_eq!(world.ask(3, 18, Fcb::named("E")).go(), (0, 0));
    assert_eq!((position(&world, 0), position(&world, 3)), (64, 9));
}

#[test]
fn opens_and_locks_do_not_matter() {
    let file = Fcb::named("FILE.DAT");
    for fcb in [file, file.unlocked(), file.read_only()] {
        let mut world = world(&[(5, Entry::named("FILE.DAT").block(0, 2).read_only())]);
        world.must(1, 15, fcb);
        world.must(1, 42, fcb);
        for process in [0, 1] {
            assert_eq!(listed(&mut world, process, fcb), [5]);
        }
    }
}
