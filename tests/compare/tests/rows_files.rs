//! Every row of Open, Make, Close, Delete and Rename, in the order of the table, and what they do.

mod common;

use common::{World, OK};
use compare::build::{image_with, lock_item, name, open_item, put_item, Entry, Fcb};

const ILLEGAL: [&str; 4] = ["", "A?.DAT", "A\u{1f}", "A\u{7f}"];

fn file() -> Fcb {
    Fcb::named("FILE.DAT")
}

fn other() -> Fcb {
    Fcb::named("OTHER.DAT")
}

fn one_file() -> Vec<u8> {
    image_with(6, &[Entry::named("FILE.DAT").count(3).block(0, 2).with(13, 77)])
}

fn two_files() -> Vec<u8> {
    image_with(6, &[Entry::named("FILE.DAT"), Entry::named("OTHER.DAT")])
}

#[test]
fn open_rows() {
    let mut world = World::started(two_files(), 3, 2, 2);
    for bad in ILLEGAL {
        assert_eq!(world.ask(0, 15, Fcb::named(bad)).go(), (255, 9));
    }
    assert_eq!(world.ask(0, 15, Fcb::named("NONE")).go(), (255, 0));
    world.must(0, 15, file().unlocked());
    assert_eq!(world.ask(0, 15, file()).go(), (255, 5), "own, another mode");
    assert_eq!(world.ask(0, 15, file().read_only()).go(), (255, 5));
    assert_eq!(world.ask(1, 15, file()).go(), (255, 5), "another's");
    assert_eq!(world.ask(1, 15, file().read_only()).go(), (255, 5));
    world.must(1, 15, file().unlocked());
    world.must(2, 15, other());
    assert_eq!(world.ask(3, 15, other()).go(), (255, 5), "both locked");
    assert_eq!(world.ask(3, 15, file().unlocked()).go(), (255, 11));
    world.list[1] = 1;
    assert_eq!(world.ask(2, 15, file().unlocked()).go(), (255, 10));
    assert_eq!(world.ask(2, 15, file()).go(), (255, 5), "5 before 10");
}

#[test]
fn open_again_at_the_limit_and_with_a_full_list() {
    for (mode, fcb) in [(0, file()), (1, file().unlocked()), (2, file().read_only())] {
        let mut world = World::started(one_file(), 1, 1, 1);
        world.must(0, 15, fcb);
        assert_eq!(world.place(0), open_item(0, name("FILE.DAT"), mode));
        let before = world.clone();
        let dirty = Fcb([0xFF; 36]);
        let mut again = dirty;
        again.0[..12].copy_from_slice(&fcb.0[..12]);
        world.must(0, 15, again);
        assert!(world.list == before.list && world.image == before.image);
        assert_eq!(world.fcb[12..16], [0, 0, 0, 3]);
        assert_eq!(world.fcb[16..32], before.image[16..32]);
        assert_eq!(world.fcb[32], 0xFF);
        let tail = if mode == 1 { [0, 0, 0] } else { [0xFF; 3] };
        assert_eq!(world.fcb[33..36], tail);
    }
}

#[test]
fn open_modes_by_the_high_bits() {
    let both = file().unlocked().read_only();
    for (fcb, mode) in [
        (file(), 0),
        (file().unlocked(), 1),
        (file().read_only(), 2),
        (both, 2),
    ] {
        let mut world = World::new(one_file());
        world.must(4, 15, fcb);
        assert_eq!(world.place(0), open_item(4, name("FILE.DAT"), mode));
    }
}

#[test]
fn open_takes_the_lowest_place_and_fills_the_fcb() {
    let mut world = World::new(two_files());
    put_item(&mut world.list, 0, open_item(5, name("FILE.DAT"), 1));
    put_item(&mut world.list, 2, open_item(6, name("FILE.DAT"), 1));
    let mut fcb = Fcb([0x7E; 36]);
    fcb.0[..12].copy_from_slice(&file().unlocked().0[..12]);
    world.must(7, 15, fcb);
    assert_eq!(world.place(1), open_item(7, name("FILE.DAT"), 1));
    assert_eq!(world.fcb[..12], fcb.0[..12]);
    assert_eq!(world.fcb[12..32], [0; 20]);
    assert_eq!(world.fcb[32..], [0x7E, 1, 0, 0]);
    world.must(8, 15, file().unlocked());
    assert_eq!(world.place(3), open_item(8, name("FILE.DAT"), 1));
    assert_eq!(world.fcb[33..], [3, 0, 0]);
}

#[test]
fn open_finds_extent_0_wherever_it_stands_and_whatever_the_high_bits() {
    let entries = [
        Entry::named("FILE.DAT").extent(1).count(9).block(3, 4),
        Entry::named("FILE.DAT")
            .count(127)
            .block(15, 5)
            .attribute(1)
            .read_only(),
    ];
    let mut world = World::new(image_with(6, &entries));
    let mut fcb = file();
    for at in [1, 2, 3, 4, 7, 8, 9, 10, 11] {
        fcb = fcb.high_bit(at);
    }
    world.must(0, 15, fcb.with(12, 1).with(14, 2));
    assert_eq!(world.fcb[1..12], fcb.0[1..12]);
    assert_eq!(world.fcb[12..16], [0, 0, 0, 127]);
    assert_eq!(world.fcb[31], 5);
    assert_eq!(world.place(0), open_item(0, name("FILE.DAT"), 0));
}

#[test]
fn users_have_files_of_their_own() {
    let mut users = [0; 16];
    users[1] = 1;
    let mut world = World::with_users(one_file(), [8, 8, 8], users);
    world.must(0, 15, file());
    assert_eq!(world.ask(1, 15, file()).go(), (255, 0));
    world.must(1, 22, file());
    assert_eq!(world.entry(1), Entry::of(1, name("FILE.DAT"), 0).0);
    assert_eq!(world.ask(1, 23, file().new_name(name("NEW"))).go(), (255, 5));
    world.must(1, 16, file());
    world.must(1, 19, file());
    assert_eq!(world.entry(1)[0], 0xE5);
    assert_eq!(world.entry(0)[0], 0);
}

#[test]
fn make_rows() {
    let mut world = World::started(two_files(), 3, 1, 1);
    for bad in ILLEGAL {
        assert_eq!(world.ask(0, 22, Fcb::named(bad)).go(), (255, 9));
    }
    assert_eq!(world.ask(0, 22, file()).go(), (255, 8));
    world.must(0, 15, file());
    assert_eq!(world.ask(0, 22, file()).go(), (255, 8), "8 before 10");
    assert_eq!(world.ask(0, 22, Fcb::named("NEW")).go(), (255, 10));
    world.must(1, 15, other().unlocked());
    world.must(2, 15, other().unlocked());
    assert_eq!(
        world.ask(0, 22, Fcb::named("NEW")).go(),
        (255, 10),
        "10 before 11"
    );
    assert_eq!(world.ask(3, 22, Fcb::named("NEW")).go(), (255, 11));

    let full: Vec<Entry> = (0..64)
        .map(|extent| Entry::named("FILE.DAT").extent(extent))
        .collect();
    let mut world = World::started(image_with(6, &full), 1, 1, 1);
    assert_eq!(world.ask(0, 22, Fcb::named("NEW")).go(), (255, 0));
    world.must(1, 15, file());
    assert_eq!(world.ask(0, 22, Fcb::named("NEW")).go(), (255, 11), "11 before 0");
}

#[test]
fn make_fills_the_lowest_empty_entry_whole() {
    for (fcb, mode) in [
        (file(), 0),
        (file().unlocked(), 1),
        (file().read_only(), 0),
        (file().unlocked().read_only(), 1),
    ] {
        let mut image = image_with(3, &[Entry::named("A"), Entry::named("B"), Entry::named("C")]);
        image[32..64].fill(0xEE);
        image[32] = 0xE5;
        let mut world = World::new(image);
        let mut dirty = Fcb([0xDD; 36]);
        dirty.0[0] = 1;
        dirty.0[1..12].copy_from_slice(&fcb.high_bit(9).high_bit(1).0[1..12]);
        world.must(3, 22, dirty);
        assert_eq!(world.entry(1), Entry::named("FILE.DAT").0);
        assert_eq!(world.place(0), open_item(3, name("FILE.DAT"), mode));
        assert_eq!(world.fcb[..12], dirty.0[..12]);
        assert_eq!(world.fcb[12..32], [0; 20]);
        let tail = if mode == 1 { [0, 0, 0] } else { [0xDD; 3] };
        assert_eq!(world.fcb[32], 0xDD);
        assert_eq!(world.fcb[33..], tail);
    }
}

#[test]
fn close_rows() {
    let mut world = World::new(two_files());
    assert_eq!(world.ask(0, 16, file()).go(), (255, 6));
    assert_eq!(world.ask(0, 16, Fcb::named("")).go(), (255, 6), "no 255/9");
    world.must(1, 15, file());
    assert_eq!(world.ask(0, 16, file()).go(), (255, 6), "another's");
}

#[test]
fn close_takes_the_open_and_its_locks_on_that_file_only() {
    let entries = [
        Entry::named("FILE.DAT").block(0, 2),
        Entry::named("OTHER.DAT").block(0, 3),
    ];
    let mut world = World::new(image_with(6, &entries));
    let items = [
        lock_item(1, name("FILE.DAT"), 0),
        open_item(1, name("FILE.DAT"), 1),
        lock_item(1, name("OTHER.DAT"), 1),
        open_item(2, name("FILE.DAT"), 1),
        open_item(1, name("OTHER.DAT"), 1),
        lock_item(1, name("FILE.DAT"), 7),
        lock_item(2, name("FILE.DAT"), 3),
    ];
    for (place, item) in items.into_iter().enumerate() {
        put_item(&mut world.list, place, item);
    }
    let mut wanted = world.clone();
    for place in [0, 1, 5] {
        put_item(&mut wanted.list, place, [0; 20]);
    }
    let fcb = file().high_bit(2).record(99);
    world.must(1, 16, fcb);
    assert!(world.list == wanted.list && world.image == wanted.image);
    assert_eq!(world.fcb, fcb.0);
}

#[test]
fn delete_rows() {
    let entries = [Entry::named("FILE.DAT").read_only(), Entry::named("OTHER.DAT")];
    let mut world = World::new(image_with(6, &entries));
    for bad in ILLEGAL {
        assert_eq!(world.ask(0, 19, Fcb::named(bad)).go(), (255, 9));
    }
    assert_eq!(world.ask(0, 19, Fcb::named("NONE")).go(), (255, 0));
    world.must(0, 15, other().read_only());
    assert_eq!(world.ask(1, 19, other()).go(), (255, 5), "another's");
    world.must(1, 15, other().read_only());
    assert_eq!(
        world.ask(0, 19, other()).go(),
        (255, 5),
        "another's beside the caller's"
    );
    world.must(1, 16, other());
    assert_eq!(world.ask(0, 19, file()).go(), (255, 3));
    world.must(0, 15, file());
    assert_eq!(world.ask(1, 19, file()).go(), (255, 5), "5 before 3");
    let list = world.list.clone();
    assert_eq!(
        world.ask(0, 19, file()).go(),
        (255, 3),
        "the caller's own does not matter"
    );
    assert_eq!(world.list, list, "and stays open");
    world.must(0, 19, other());
    assert_eq!(world.ask(0, 19, other()).go(), (255, 0));
}

/// The list left is the one that Close leaves, byte for byte; the image the one that Delete leaves
/// of the file when nobody has it open.
#[test]
fn delete_of_the_callers_open_file_is_close_and_delete() {
    let entries = [
        Entry::named("FILE.DAT").count(9).block(0, 2).block(1, 3),
        Entry::named("OTHER.DAT").block(0, 4),
        Entry::named("FILE.DAT").extent(3).block(5, 5),
    ];
    for (mode, locks) in [(0, 0), (1, 0), (1, 3), (2, 0)] {
        let fcb = match mode {
            0 => file(),
            1 => file().unlocked(),
            _ => file().read_only(),
        };
        let mut world = World::new(image_with(8, &entries));
        world.must(6, 15, other().unlocked());
        world.must(6, 15, fcb);
        world.must(6, 42, other());
        if locks > 0 {
            let lock = world.ask(6, 42, file().record(7)).id(1).count(locks);
            assert_eq!(lock.go(), (0, 0));
        }
        assert_eq!(
            world.ask(6, 23, file().new_name(name("NEW"))).go(),
            (255, 5),
            "Rename"
        );
        let mut closed = world.clone();
        closed.must(6, 16, file());
        let list = closed.list.clone();
        closed.must(6, 19, file());
        world.must(6, 19, fcb);
        assert_eq!(world.list, list);
        assert_eq!(world.image, closed.image);
        assert_eq!(world.fcb, fcb.0);
        assert_eq!(world.entry(0)[0], 0xE5);
        assert_eq!(world.entry(2)[0], 0xE5);
    }
}

#[test]
fn the_same_name_of_another_user_is_not_in_the_way_of_delete() {
    let mut users = [0; 16];
    users[1] = 1;
    let entries = [Entry::named("FILE.DAT"), Entry::named("FILE.DAT").user(1)];
    let mut world = World::with_users(image_with(6, &entries), [8, 8, 8], users);
    world.must(1, 15, file());
    world.must(0, 15, file());
    world.must(0, 19, file());
    assert_eq!(world.place(0), open_item(1, name("FILE.DAT"), 0));
    assert_eq!(world.place(1), [0; 20]);
    assert_eq!((world.entry(0)[0], world.entry(1)[0]), (0xE5, 1));
}

#[test]
fn only_extent_0_tells_the_attributes() {
    let entries = [
        Entry::named("FILE.DAT"),
        Entry::named("FILE.DAT").extent(1).read_only(),
    ];
    let mut world = World::new(image_with(6, &entries));
    world.must(0, 19, file());
    let entries = [
        Entry::named("FILE.DAT").read_only(),
        Entry::named("FILE.DAT").extent(1),
    ];
    let mut world = World::new(image_with(6, &entries));
    assert_eq!(world.ask(0, 19, file()).go(), (255, 3));
}

#[test]
fn delete_sets_byte_0_of_each_entry_only() {
    let entries = [
        Entry::named("FILE.DAT").block(0, 2).count(5).attribute(1),
        Entry::named("FILE.DAT").user(1).block(0, 3),
        Entry::named("FILE.DAT").extent(2047).block(15, 4),
        Entry::named("OTHER.DAT"),
    ];
    let mut world = World::new(image_with(6, &entries));
    let mut wanted = world.clone();
    wanted.image[0] = 0xE5;
    wanted.image[64] = 0xE5;
    world.must(0, 19, file());
    assert!(world.list == wanted.list && world.image == wanted.image);
    world.must(0, 46, Fcb([0; 36]));
    assert_eq!(world.dma[..3], [24, 0, 0], "blocks 2, 4 and 5");
}

#[test]
fn size_rows() {
    let mut world = World::new(two_files());
    for bad in ILLEGAL {
        assert_eq!(world.ask(0, 35, Fcb::named(bad)).go(), (255, 9));
    }
    assert_eq!(world.ask(0, 35, Fcb::named("NONE")).go(), (255, 0));
    assert_eq!(world.ask(0, 35, Fcb::named("NONE").with(0, 2)).go(), (255, 4));
    assert_eq!(world.ask(0, 35, Fcb::named("?").with(0, 2)).go(), (255, 4));
}

/// What 35 tells of FILE.DAT with these entries; every other byte of all buffers stays.
fn size(entries: &[Entry]) -> u32 {
    let mut world = World::new(image_with(8, entries));
    let before = world.clone();
    let mut fcb = Fcb([0xA5; 36]).with(0, 1);
    fcb.0[1..12].copy_from_slice(&name("FILE.DAT"));
    assert_eq!(world.ask(9, 35, fcb).fill(0x5A).count(16).go(), (0, 0));
    assert_eq!(world.fcb[..33], fcb.0[..33]);
    assert!(world.dma.iter().all(|&byte| byte == 0x5A));
    assert!(world.list == before.list && world.image == before.image);
    u32::from_le_bytes([world.fcb[33], world.fcb[34], world.fcb[35], 0])
}

#[test]
fn the_highest_extent_tells_the_size() {
    let of = |extent: u32, count: u8| Entry::named("FILE.DAT").extent(extent).count(count);
    assert_eq!(size(&[of(0, 0)]), 0);
    assert_eq!(size(&[of(0, 1)]), 1);
    assert_eq!(size(&[of(0, 128)]), 128);
    assert_eq!(size(&[of(0, 128), of(1, 0)]), 128, "a count of 0");
    assert_eq!(size(&[of(0, 128), of(1, 1)]), 129);
    assert_eq!(size(&[of(1, 2), of(0, 128)]), 130, "in an earlier entry");
    assert_eq!(
        size(&[of(0, 3), of(31, 4)]),
        128 * 31 + 4,
        "extents are missing below"
    );
    assert_eq!(
        size(&[of(0, 3), of(32, 4), of(31, 5)]),
        128 * 32 + 4,
        "the module counts"
    );
    assert_eq!(size(&[of(63, 9), of(0, 3), of(64, 1)]), 128 * 64 + 1);
    assert_eq!(size(&[of(0, 0), of(2_047, 127)]), 262_143);
    assert_eq!(size(&[of(2_047, 128), of(0, 0)]), 262_144);
    // The count and not the blocks, and not other files.
    assert_eq!(size(&[of(0, 1).block(0, 2).block(15, 3)]), 1);
    assert_eq!(
        size(&[
            of(0, 9),
            of(5, 9).user(1),
            Entry::named("FILE.DAU").extent(7),
            of(0, 1).user(1),
            Entry::named("FILE.DAU")
        ]),
        9
    );
    assert_eq!(
        size(&[of(0, 9).attribute(9), of(1, 8).attribute(2)]),
        136,
        "attributes do not matter"
    );
}

#[test]
fn low_byte_first_and_three_of_them() {
    let entries = [
        Entry::named("FILE.DAT").extent(2_047).count(128),
        Entry::named("FILE.DAT"),
    ];
    let mut world = World::new(image_with(8, &entries));
    world.must(0, 35, file().record(0xFF_FFFF));
    assert_eq!(world.fcb[33..], [0, 0, 4]);
    let entries = [
        Entry::named("FILE.DAT").extent(515).count(67),
        Entry::named("FILE.DAT"),
    ];
    let mut world = World::new(image_with(8, &entries));
    world.must(0, 35, file());
    assert_eq!(world.fcb[33..], [0xC3, 0x01, 1], "65,987 is 0101C3h");
}

#[test]
fn the_size_is_the_callers_users_file() {
    let mut users = [0; 16];
    users[3] = 12;
    let entries = [
        Entry::named("FILE.DAT").count(7),
        Entry::named("FILE.DAT").user(12).count(9),
    ];
    let mut world = World::with_users(image_with(8, &entries), [8, 8, 8], users);
    world.must(0, 35, file());
    assert_eq!(world.fcb[33..], [7, 0, 0]);
    world.must(3, 35, file());
    assert_eq!(world.fcb[33..], [9, 0, 0]);
}

#[test]
fn nobodys_open_is_in_the_way_of_the_size() {
    for fcb in [file(), file().unlocked(), file().read_only()] {
        let mut world = World::new(image_with(8, &[Entry::named("FILE.DAT").count(8).block(0, 2)]));
        world.must(1, 15, fcb);
        world.must(1, 42, file());
        for process in [0, 1] {
            world.must(process, 35, fcb);
            assert_eq!(world.fcb[33..], [8, 0, 0]);
        }
    }
}

#[test]
fn rename_rows() {
    let entries = [
        Entry::named("FILE.DAT").read_only(),
        Entry::named("OTHER.DAT"),
        Entry::named("THIRD.DAT").user(1),
    ];
    let mut world = World::new(image_with(6, &entries));
    let to = |fcb: Fcb, text: &str| fcb.new_name(name(text));
    for bad in ILLEGAL {
        assert_eq!(world.ask(0, 23, to(Fcb::named(bad), "NEW")).go(), (255, 9));
        assert_eq!(world.ask(0, 23, to(Fcb::named("NONE"), bad)).go(), (255, 9));
    }
    assert_eq!(world.ask(0, 23, to(Fcb::named("NONE"), "NEW")).go(), (255, 0));
    assert_eq!(
        world.ask(0, 23, to(Fcb::named("NONE"), "FILE.DAT")).go(),
        (255, 0)
    );
    world.must(0, 15, other());
    assert_eq!(
        world.ask(0, 23, to(other(), "NEW")).go(),
        (255, 5),
        "the caller's"
    );
    assert_eq!(
        world.ask(1, 23, to(other(), "FILE.DAT")).go(),
        (255, 5),
        "another's"
    );
    assert_eq!(
        world.ask(0, 23, to(file(), "OTHER.DAT")).go(),
        (255, 3),
        "3 before 8"
    );
    world.must(0, 16, other());
    assert_eq!(world.ask(0, 23, to(other(), "FILE.DAT")).go(), (255, 8));
    assert_eq!(
        world.ask(0, 23, to(other(), "OTHER.DAT")).go(),
        (255, 8),
        "itself"
    );
    let high = name("OTHER.DAT").map(|byte| byte | 128);
    assert_eq!(world.ask(0, 23, other().new_name(high)).go(), (255, 8));
    world.must(0, 23, to(other(), "THIRD.DAT"));
}

#[test]
fn rename_keeps_the_high_bits_of_each_entry() {
    let entries = [
        Entry::named("FILE.DAT").block(0, 2).attribute(1).attribute(11),
        Entry::named("FILE.DAT").user(1),
        Entry::named("FILE.DAT")
            .extent(33)
            .count(4)
            .attribute(9)
            .with(13, 99),
    ];
    let mut world = World::new(image_with(6, &entries));
    let mut wanted = world.clone();
    let new = name("NEWNAME1.ABC");
    for (i, low) in new.into_iter().enumerate() {
        wanted.image[1 + i] = low | (wanted.image[1 + i] & 128);
        wanted.image[65 + i] = low | (wanted.image[65 + i] & 128);
    }
    let fcb = file()
        .high_bit(3)
        .new_name(new.map(|byte| byte | 128))
        .with(16, 77);
    assert_eq!(world.ask(0, 23, fcb).fill(3).go(), OK);
    assert!(world.list == wanted.list && world.image == wanted.image);
    assert!(world.fcb == fcb.0 && world.dma == [3; 2048]);
}
