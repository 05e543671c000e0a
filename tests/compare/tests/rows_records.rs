//! Every row of the calls on records, in the order of the table, and what they do.

mod common;

use common::{two_records, World, OK};
use compare::build::{image_with, item_at, lock_item, name, open_item, put_item, Entry, Fcb};

fn file() -> Fcb {
    Fcb::named("FILE.DAT").unlocked()
}

/// Extent 0 with blocks for records 0 to 7 and 16 to 23; extent 32 with one for its first eight.
fn image(blocks: usize) -> Vec<u8> {
    let mut image = image_with(
        blocks,
        &[
            Entry::named("FILE.DAT")
                .count(4)
                .block(0, 2)
                .block(2, 3)
                .attribute(2)
                .with(13, 9),
            Entry::named("FILE.DAT").extent(32).block(0, 4),
        ],
    );
    for (i, record) in image[2048..].chunks_mut(128).enumerate() {
        record.fill(i as u8 + 1);
    }
    image
}

fn shared() -> World {
    shared_on(6)
}

fn shared_on(blocks: usize) -> World {
    let mut world = World::new(image(blocks));
    world.must(0, 15, file());
    world.must(1, 15, file());
    world
}

fn full_directory() -> Vec<u8> {
    let mut image = image(7);
    for slot in 2..64 {
        let entry = Entry::of(9, name("FILLER"), slot as u32 - 2);
        image[32 * slot..32 * slot + 32].copy_from_slice(&entry.0);
    }
    image
}

#[test]
fn read_rows() {
    let mut world = World::new(image(6));
    assert_eq!(
        world.ask(0, 33, file().record(262_144)).go(),
        (10, 0),
        "10 before 6"
    );
    assert_eq!(world.ask(0, 33, Fcb::named("")).go(), (10, 0), "no 255/9");
    world.must(1, 15, file());
    assert_eq!(world.ask(0, 33, file()).go(), (10, 0), "another's");
    world.must(0, 15, file());
    assert_eq!(world.ask(0, 33, file().record(262_144)).go(), (6, 0));
    for record in [128, 4095, 4224, 262_143] {
        assert_eq!(world.ask(0, 33, file().record(record)).go(), (4, 0), "{record}");
    }
    for record in [8, 15, 24, 127, 4104, 4223] {
        assert_eq!(world.ask(0, 33, file().record(record)).go(), (1, 0), "{record}");
    }
}

#[test]
fn read_copies_the_record_whatever_the_count_and_the_locks() {
    let mut world = shared();
    assert_eq!(world.ask(1, 42, file().record(6)).id(1).go(), OK);
    let before = world.clone();
    for (record, byte) in [(0, 1), (6, 7), (7, 8), (16, 9), (23, 16), (4096, 17), (4103, 24)] {
        assert_eq!(world.ask(0, 33, file().record(record)).fill(0xCC).go(), OK);
        assert_eq!(world.dma[..128], [byte; 128]);
        assert_eq!(world.dma[128..], [0xCC; 1920]);
    }
    assert!(world.image == before.image && world.list == before.list);
    assert_eq!(world.fcb, file().record(4103).0);
}

#[test]
fn the_fcb_map_and_extent_are_never_read() {
    let mut world = shared();
    let mut fcb = file().record(16);
    fcb.0[12..33].fill(0xFF);
    world.must(0, 33, fcb);
    assert_eq!(world.dma[0], 9);
}

#[test]
fn write_rows() {
    for function in [34, 40] {
        let mut world = World::new(image(6));
        assert_eq!(world.ask(0, function, file().record(262_144)).go(), (10, 0));
        world.must(0, 15, file().read_only());
        assert_eq!(
            world.ask(0, function, file().record(262_144)).go(),
            (255, 3),
            "mode 2"
        );
        world.must(0, 16, file());

        let mut read_only = world.clone();
        read_only.image[9] |= 128;
        read_only.must(0, 15, file());
        assert_eq!(read_only.ask(0, function, file().record(262_144)).go(), (255, 3));

        let mut world = shared_on(7);
        assert_eq!(world.ask(0, function, file().record(262_144)).go(), (6, 0));
        assert_eq!(world.ask(1, 42, file().record(7)).id(1).go(), OK);
        assert_eq!(world.ask(0, function, file().record(7)).go(), (8, 0));
        world.must(0, function, file().record(6));
        world.must(1, function, file().record(7));
        // Two blocks are free; taken from the map's holes.
        world.must(0, function, file().record(8));
        world.must(0, function, file().record(24));
        assert_eq!(world.ask(0, function, file().record(32)).go(), (2, 0));
        assert_eq!(
            world.ask(0, function, file().record(128)).go(),
            (2, 0),
            "no entry taken"
        );
        assert_eq!(world.entry(2)[0], 0xE5);

        let mut world = World::new(full_directory());
        world.must(0, 15, file());
        assert_eq!(world.ask(0, function, file().record(128)).go(), (5, 0));
        world.must(0, function, file().record(8));
        world.must(0, function, file().record(24));
        assert_eq!(
            world.ask(0, function, file().record(128)).go(),
            (5, 0),
            "5 before 2"
        );
        assert_eq!(world.ask(0, function, file().record(32)).go(), (2, 0));
    }
}

#[test]
fn write_in_place() {
    for function in [34, 40] {
        let mut world = shared();
        let mut wanted = world.clone();
        wanted.image[2 * 1024 + 5 * 128..2 * 1024 + 6 * 128].fill(0x99);
        wanted.image[15] = 6;
        let mut dma = two_records(&[0x99; 128], 0x11);
        assert_eq!(world.ask(0, function, file().record(5)).dma(&dma).go(), OK);
        assert!(world.image == wanted.image && world.list == wanted.list);
        assert!(world.dma == dma && world.fcb == file().record(5).0);

        wanted.image[2 * 1024..2 * 1024 + 128].fill(0x98);
        dma[..128].fill(0x98);
        assert_eq!(world.ask(0, function, file()).dma(&dma).go(), OK);
        assert!(world.image == wanted.image, "the count stays at the greater");
    }
}

#[test]
fn write_takes_the_lowest_free_block() {
    for (function, rest) in [(34, None), (40, Some(0))] {
        let mut world = shared();
        let mut wanted = world.clone();
        wanted.image[15] = 128;
        wanted.image[31] = 5;
        let block = &mut wanted.image[5 * 1024..6 * 1024];
        if let Some(byte) = rest {
            block.fill(byte);
        }
        block[7 * 128..].fill(0x77);
        assert_eq!(world.ask(0, function, file().record(127)).fill(0x77).go(), OK);
        assert!(world.image == wanted.image && world.list == wanted.list);
    }
}

#[test]
fn write_takes_the_lowest_empty_entry() {
    for (function, rest) in [(34, None), (40, Some(0))] {
        let mut world = World::new(image(7));
        world.image[64..96].fill(0xAB);
        world.image[64] = 0xE5;
        world.must(0, 15, file());
        let mut wanted = world.clone();
        let mut entry = Entry::named("FILE.DAT").attribute(2).extent(33).count(10).0;
        entry[17] = 5;
        wanted.image[64..96].copy_from_slice(&entry);
        let block = &mut wanted.image[5 * 1024..6 * 1024];
        if let Some(byte) = rest {
            block.fill(byte);
        }
        block[128..256].fill(0x66);
        let record = 33 * 128 + 9;
        assert_eq!(world.ask(0, function, file().record(record)).fill(0x66).go(), OK);
        assert!(world.image == wanted.image && world.list == wanted.list);
    }
}

#[test]
fn a_deleted_files_blocks_are_free_again() {
    let mut world = World::new(image(5));
    world.must(0, 22, Fcb::named("NEW"));
    assert_eq!(world.ask(0, 34, Fcb::named("NEW")).go(), (2, 0));
    world.must(0, 19, file());
    world.must(0, 34, Fcb::named("NEW"));
    assert_eq!(world.entry(2)[16], 2);
}

#[test]
fn test_and_write_rows() {
    let mut world = World::new(image(6));
    assert_eq!(world.ask(0, 41, file().record(262_144)).go(), (10, 0));
    world.must(0, 15, file().read_only());
    assert_eq!(world.ask(0, 41, file().record(262_144)).go(), (255, 3));

    let mut read_only = World::new(image(6));
    read_only.image[9] |= 128;
    read_only.must(0, 15, file());
    assert_eq!(read_only.ask(0, 41, file().record(262_144)).go(), (255, 3));

    let mut world = shared();
    assert_eq!(world.ask(0, 41, file().record(262_144)).go(), (6, 0));
    assert_eq!(world.ask(1, 42, file().record(7)).id(1).go(), OK);
    assert_eq!(world.ask(0, 41, file().record(7)).go(), (8, 0), "8 before 7");
    assert_eq!(world.ask(0, 41, file().record(128)).go(), (4, 0));
    assert_eq!(world.ask(0, 41, file().record(8)).go(), (1, 0));
    for at in [0, 1, 64, 127] {
        let mut dma = [1; 2048];
        dma[at] ^= 0x40;
        assert_eq!(world.ask(0, 41, file()).dma(&dma).go(), (7, 0));
    }
}

#[test]
fn test_and_write_takes_the_second_record_and_raises_the_count() {
    let mut world = shared();
    let mut wanted = world.clone();
    for (record, count) in [(0u32, 4), (3, 4), (4, 5), (7, 8)] {
        let at = 2 * 1024 + 128 * record as usize;
        wanted.image[at..at + 128].fill(0xF0);
        wanted.image[15] = count;
        let dma = two_records(&[record as u8 + 1; 128], 0xF0);
        assert_eq!(world.ask(0, 41, file().record(record)).dma(&dma).go(), OK);
        assert!(world.image == wanted.image && world.list == wanted.list);
        assert!(world.dma == dma && world.fcb == file().record(record).0);
    }
}

#[test]
fn lock_rows() {
    let mut world = World::started(image(6), 6, 2, 3);
    assert_eq!(world.ask(0, 42, file().record(262_144)).go(), (10, 0));
    world.must(0, 15, file());
    world.must(1, 15, file());
    for id in [[1, 0], [0, 1], [0, 255], [64, 0], [255, 255]] {
        let dma = two_records(&id, 0);
        let wild = file().record(262_144);
        assert_eq!(world.ask(0, 42, wild).dma(&dma).go(), (13, 0));
        assert_eq!(world.ask(0, 43, wild).dma(&dma).go(), (13, 0));
    }
    assert_eq!(world.ask(0, 42, file().record(262_144)).go(), (6, 0));
    assert_eq!(
        world.ask(0, 42, file().record(262_143)).count(2).go(),
        (6, 0),
        "6 before 4"
    );
    assert_eq!(world.ask(0, 42, file().record(262_128)).count(16).go(), (4, 0));
    assert_eq!(world.ask(0, 42, file().record(128)).go(), (4, 0));
    assert_eq!(world.ask(0, 42, file().record(8)).go(), (1, 0));
    assert_eq!(world.ask(0, 42, file().record(7)).count(2).go(), (1, 0));
    assert_eq!(
        world.ask(0, 42, file().record(120)).count(16).go(),
        (1, 0),
        "the first"
    );
    assert_eq!(
        world.ask(0, 42, file().record(4095)).count(16).go(),
        (4, 0),
        "the first"
    );

    assert_eq!(world.ask(1, 42, file().record(6)).id(1).go(), OK);
    assert_eq!(
        world.ask(0, 42, file().record(5)).count(4).go(),
        (1, 0),
        "1 before 8"
    );
    assert_eq!(
        world.ask(0, 42, file().record(0)).count(8).go(),
        (8, 0),
        "8 before 12"
    );
    assert_eq!(world.ask(0, 42, file().record(0)).count(4).go(), (12, 0));
    assert_eq!(world.ask(0, 42, file().record(0)).count(3).go(), OK);
    assert_eq!(world.ask(1, 42, file().record(4)).id(1).count(2).go(), (14, 0));
    assert_eq!(
        world.ask(1, 42, file().record(4)).id(1).count(3).go(),
        (12, 0),
        "12 before 14"
    );
}

#[test]
fn lock_limit_counts_held_records_of_the_run_twice_and_those_of_all_files() {
    let mut world = World::started(image(6), 64, 2, 2);
    let other = Fcb::named("OTHER").unlocked();
    world.must(0, 15, file());
    assert_eq!(world.ask(0, 42, file()).count(2).go(), OK);
    assert_eq!(world.ask(0, 42, file()).go(), (12, 0), "held, yet 2 + 1 exceed 2");
    assert_eq!(world.ask(0, 43, file().record(1)).go(), OK);
    assert_eq!(world.ask(0, 42, file()).go(), OK);
    assert_eq!(world.ask(0, 42, file()).count(2).go(), (12, 0));
    world.must(0, 22, other);
    assert_eq!(
        item_at(&world.list, 2),
        open_item(0, name("OTHER"), 1),
        "the place that record 1 left"
    );
    world.must(0, 34, other);
    assert_eq!(world.ask(0, 42, other).id(2).go(), OK);
    assert_eq!(world.ask(0, 42, other.record(1)).id(2).go(), (12, 0));
}

#[test]
fn modes_0_and_2_have_no_effect() {
    for fcb in [Fcb::named("FILE.DAT"), Fcb::named("FILE.DAT").read_only()] {
        let mut world = World::new(image(6));
        world.must(0, 15, fcb);
        let before = world.clone();
        for function in [42, 43] {
            let wild = fcb.with(33, 255).with(34, 255).with(35, 255);
            assert_eq!(world.ask(0, function, wild).count(16).fill(0xFF).go(), OK);
            assert!(world.list == before.list && world.image == before.image);
            assert!(world.fcb == wild.0 && world.dma == [0xFF; 2048]);
        }
    }
}

#[test]
fn lock_takes_the_lowest_places_in_rising_order_and_skips_what_is_held() {
    let mut world = World::started(image(6), 12, 2, 16);
    world.must(0, 15, file());
    put_item(&mut world.list, 2, lock_item(0, name("FILE.DAT"), 2));
    put_item(&mut world.list, 4, open_item(1, name("FILE.DAT"), 1));
    let before = world.clone();
    assert_eq!(world.ask(0, 42, file()).count(5).go(), OK);
    let mut wanted = before.clone();
    for (place, record) in [(1, 0), (3, 1), (5, 3), (6, 4)] {
        put_item(&mut wanted.list, place, lock_item(0, name("FILE.DAT"), record));
    }
    assert!(world.list == wanted.list && world.image == wanted.image);
    assert_eq!(world.fcb, file().0);
}

#[test]
fn a_run_across_two_extents() {
    let entries = [
        Entry::named("FILE.DAT").block(15, 2),
        Entry::named("FILE.DAT").extent(1).block(0, 3),
    ];
    let mut world = World::new(image_with(4, &entries));
    world.must(0, 15, file());
    assert_eq!(world.ask(0, 42, file().record(120)).count(16).go(), OK);
    for place in 1..17 {
        let record = 119 + place as u32;
        assert_eq!(world.place(place), lock_item(0, name("FILE.DAT"), record));
    }
    assert_eq!(world.ask(0, 42, file().record(121)).count(16).go(), (1, 0));
    assert_eq!(world.ask(0, 43, file().record(121)).count(16).go(), OK);
    assert_eq!(world.place(1), lock_item(0, name("FILE.DAT"), 120));
    assert_eq!(world.place(2), [0; 20]);
}

#[test]
fn unlock_rows() {
    let mut world = shared();
    assert_eq!(world.ask(2, 43, file().record(262_144)).go(), (10, 0));
    assert_eq!(world.ask(0, 43, file().record(262_144)).id(1).go(), (13, 0));
    assert_eq!(world.ask(0, 43, file().record(262_144)).go(), (6, 0));
    for record in [0, 8, 128, 262_143] {
        assert_eq!(
            world.ask(0, 43, file().record(record)).go(),
            OK,
            "nothing after 6/0"
        );
    }
}

#[test]
fn unlock_takes_its_own_locks_of_the_run_only() {
    let entries = [
        Entry::named("FILE.DAT").block(0, 2).block(1, 3),
        Entry::named("OTHER").block(0, 4),
    ];
    let mut world = World::new(image_with(6, &entries));
    let items = [
        open_item(1, name("FILE.DAT"), 1),
        lock_item(1, name("FILE.DAT"), 2),
        lock_item(1, name("FILE.DAT"), 3),
        lock_item(2, name("FILE.DAT"), 4),
        lock_item(1, name("FILE.DAT"), 5),
        lock_item(1, name("FILE.DAT"), 6),
        lock_item(1, name("OTHER"), 4),
        open_item(2, name("FILE.DAT"), 1),
        open_item(1, name("OTHER"), 1),
    ];
    for (place, item) in items.into_iter().enumerate() {
        put_item(&mut world.list, place, item);
    }
    let mut wanted = world.clone();
    put_item(&mut wanted.list, 2, [0; 20]);
    put_item(&mut wanted.list, 4, [0; 20]);
    assert_eq!(world.ask(1, 43, file().record(3)).count(3).go(), OK);
    assert!(world.list == wanted.list && world.image == wanted.image);
}

#[test]
fn free_space() {
    let mut world = World::new(image(6));
    assert_eq!(world.ask(15, 46, Fcb([0xFF; 36])).fill(0xAB).go(), OK);
    assert_eq!(world.dma[..3], [8, 0, 0]);
    assert_eq!(world.dma[3..], [0xAB; 2045]);
    assert_eq!(world.fcb, [0xFF; 36]);
}

#[test]
fn terminate_takes_all_of_the_callers_items() {
    let mut world = shared();
    assert_eq!(world.ask(0, 42, file()).count(2).go(), OK);
    assert_eq!(world.ask(1, 42, file().record(4)).id(1).go(), OK);
    let mut wanted = world.clone();
    for place in [0, 2, 3] {
        put_item(&mut wanted.list, place, [0; 20]);
    }
    assert_eq!(world.ask(0, 143, Fcb([0x99; 36])).fill(7).go(), OK);
    assert!(world.list == wanted.list && world.image == wanted.image);
    assert!(world.fcb == [0x99; 36] && world.dma == [7; 2048]);
    let left = world.clone();
    assert_eq!(world.ask(0, 143, Fcb([0x99; 36])).go(), OK);
    assert!(world.list == left.list);
}
