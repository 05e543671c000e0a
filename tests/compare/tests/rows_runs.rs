//! Several records in one call: which are done, where it stops, what it tells, and what it leaves.

mod common;

use common::{two_records, World, OK};
use compare::build::{empty_image, image_with, lock_item, name, open_item, put_entry, put_item, Entry, Fcb};

fn file() -> Fcb {
    Fcb::named("FILE.DAT").unlocked()
}

/// Blocks 2 and 3 for the last sixteen records of extent 0, 4 for the first eight of extent 1, 5
/// and 6 for the last sixteen that there can be; the records in them are numbered from 1 on.
fn image(blocks: usize) -> Vec<u8> {
    let entries = [
        Entry::named("FILE.DAT").block(14, 2).block(15, 3).attribute(2),
        Entry::named("FILE.DAT").extent(1).block(0, 4),
        Entry::named("FILE.DAT").extent(2047).block(14, 5).block(15, 6),
    ];
    let mut image = image_with(blocks, &entries);
    for (i, record) in image[2048..].chunks_mut(128).enumerate() {
        record.fill(i as u8 + 1);
    }
    image
}

fn opened(image: Vec<u8>) -> World {
    let mut world = World::new(image);
    world.must(0, 15, file());
    world
}

fn crowded(mut image: Vec<u8>) -> Vec<u8> {
    for slot in 3..64 {
        let filler = Entry::of(9, name("FILLER"), slot as u32 - 3);
        put_entry(&mut image, slot, filler);
    }
    image
}

/// A DMA of sixteen records, each full of one byte.
fn records(bytes: [u8; 16]) -> Vec<u8> {
    bytes.into_iter().flat_map(|byte| [byte; 128]).collect()
}

/// 80, 81 and so on in hexadecimal, but for the first records, which have these bytes.
fn rising_after(bytes: &[u8]) -> Vec<u8> {
    let mut all: [u8; 16] = std::array::from_fn(|i| 0x80 + i as u8);
    all[..bytes.len()].copy_from_slice(bytes);
    records(all)
}

#[test]
fn a_read_of_sixteen() {
    let mut world = opened(image(7));
    let before = world.clone();
    let fcb = file().record(112);
    assert_eq!(world.ask(0, 33, fcb).count(16).rising(0x80).go(), OK);
    assert_eq!(world.dma, records(std::array::from_fn(|i| i as u8 + 1)));
    assert!(world.image == before.image && world.list == before.list);
    assert_eq!(world.fcb, fcb.0, "the record number is not advanced");
}

#[test]
fn a_read_of_fewer_leaves_the_rest_of_the_dma() {
    for count in 1..16 {
        let mut world = opened(image(7));
        let call = world.ask(0, 33, file().record(112)).count(count).rising(0x80);
        assert_eq!(call.go(), OK, "no bits where all went well");
        let read: Vec<u8> = (1..=count as u8).collect();
        assert_eq!(world.dma, rising_after(&read), "count {count}");
    }
}

#[test]
fn a_read_goes_on_in_the_next_extent() {
    let mut world = opened(image(7));
    let call = world.ask(0, 33, file().record(121)).count(15).rising(0x80);
    assert_eq!(call.go(), OK);
    let read: Vec<u8> = (10..25).collect();
    assert_eq!(world.dma, rising_after(&read));
}

/// Reads towards a record that cannot be read, with a count that just reaches it and with 16.
fn assert_read_stops(end: u32, code: u32, bytes: &[u8; 15]) {
    for done in 0..16 {
        for count in [done + 1, 16] {
            let mut world = opened(image(7));
            let before = world.clone();
            let fcb = file().record(end - done);
            let call = world.ask(0, 33, fcb).count(count).rising(0x80);
            assert_eq!(call.go(), (code, 16 * done), "{done} records before {end}");
            let read = &bytes[15 - done as usize..];
            assert_eq!(world.dma, rising_after(read));
            assert!(world.image == before.image && world.list == before.list);
            assert_eq!(world.fcb, fcb.0);
        }
    }
}

#[test]
fn a_read_stops_where_there_is_no_block() {
    // The fifteen records before 136: seven of block 3 and the eight of block 4.
    let bytes = std::array::from_fn(|i| i as u8 + 10);
    assert_read_stops(136, 1, &bytes);
}

#[test]
fn a_read_stops_where_there_is_no_extent() {
    let mut with_gap = image(7);
    with_gap[32..64].fill(0xE5);
    let mut world = opened(with_gap);
    for done in 0..16 {
        let call = world.ask(0, 33, file().record(128 - done)).count(16).rising(0x80);
        assert_eq!(call.go(), (4, 16 * done));
        let read: Vec<u8> = (17 - done as u8..17).collect();
        assert_eq!(world.dma, rising_after(&read));
    }
}

#[test]
fn a_read_stops_behind_the_last_record() {
    // The fifteen records before 262,144: seven of block 5 and the eight of block 6.
    let bytes = std::array::from_fn(|i| i as u8 + 26);
    assert_read_stops(262_144, 6, &bytes);
}

#[test]
fn a_read_is_not_stopped_by_a_lock() {
    let mut world = opened(image(7));
    world.must(1, 15, file());
    assert_eq!(world.ask(1, 42, file().record(115)).id(1).go(), OK);
    assert_eq!(world.ask(0, 33, file().record(112)).count(16).go(), OK);
}

#[test]
fn a_write_of_sixteen_in_place() {
    for function in [34, 40] {
        let mut world = opened(image(7));
        let mut wanted = world.clone();
        for i in 0..16 {
            let at = 1024 * 2 + 128 * i;
            wanted.image[at..at + 128].fill(0x80 + i as u8);
        }
        wanted.image[15] = 128;
        let fcb = file().record(112);
        assert_eq!(world.ask(0, function, fcb).count(16).rising(0x80).go(), OK);
        assert!(world.image == wanted.image && world.list == wanted.list);
        assert_eq!(world.dma, rising_after(&[]));
        assert_eq!(world.fcb, fcb.0);
    }
}

#[test]
fn a_write_takes_blocks_in_rising_order_of_records() {
    for (function, rest) in [(34, None), (40, Some(0))] {
        // Free are 3, 5 and 6. Records 6 and 7 take 3, 8 to 15 take 5, 16 to 21 take 6.
        let taken = Entry::named("OTHER").block(0, 2).block(1, 4);
        let mut old = image_with(7, &[Entry::named("FILE.DAT"), taken]);
        old[2048..].fill(0xBB);
        let mut world = opened(old);
        let mut wanted = world.clone();
        wanted.image[15] = 22;
        wanted.image[16..19].copy_from_slice(&[3, 5, 6]);
        if let Some(byte) = rest {
            wanted.image[3 * 1024..4 * 1024].fill(byte);
            wanted.image[6 * 1024..].fill(byte);
        }
        for (at, byte) in [(3 * 1024 + 6 * 128, 0x80), (5 * 1024, 0x82), (6 * 1024, 0x8A)] {
            let records = wanted.image[at..].chunks_mut(128).zip(byte..0x90);
            for (record, byte) in records.take(8 - at % 1024 / 128) {
                record.fill(byte);
            }
        }
        let call = world.ask(0, function, file().record(6)).count(16).rising(0x80);
        assert_eq!(call.go(), OK);
        assert!(world.image == wanted.image && world.list == wanted.list);
    }
}

#[test]
fn a_write_takes_an_entry_for_each_extent() {
    for (function, rest) in [(34, 0xE5), (40, 0)] {
        // Extents 31 and 32 are missing; the entries 1 and 2 and the blocks 2 and 3 are free.
        let entry = Entry::named("FILE.DAT").attribute(1).attribute(8);
        let mut world = opened(image_with(4, &[entry]));
        let mut wanted = world.clone();
        let first = entry.extent(31).count(128).block(15, 2);
        let second = entry.extent(32).count(5).block(0, 3);
        put_entry(&mut wanted.image, 1, first);
        put_entry(&mut wanted.image, 2, second);
        wanted.image[2 * 1024..4 * 1024].fill(rest);
        for i in 0..8 {
            let at = 2 * 1024 + 128 * (5 + i);
            wanted.image[at..at + 128].fill(0x80 + i as u8);
        }
        let call = world.ask(0, function, file().record(4093)).count(8).rising(0x80);
        assert_eq!(call.go(), OK);
        assert!(world.image == wanted.image && world.list == wanted.list);
    }
}

/// Where the count of the record's extent stands in `image`.
fn count_at(record: u32) -> usize {
    match record / 128 {
        0 => 15,
        1 => 32 + 15,
        _ => 64 + 15,
    }
}

/// Writes towards a record that is refused: those before it are stored, and nothing else changes.
/// The two blocks are those of the sixteen records before it.
fn assert_write_stops(start: &World, end: u32, code: u32, blocks: [usize; 2]) {
    for function in [34, 40] {
        for done in 0..16 {
            for count in [done + 1, 16] {
                let mut world = start.clone();
                let mut wanted = world.clone();
                for i in 0..done {
                    let record = end - done + i;
                    let block = blocks[usize::from(end - record <= 8)];
                    let at = 1024 * block + 128 * (record % 8) as usize;
                    wanted.image[at..at + 128].fill(0x80 + i as u8);
                    wanted.image[count_at(record)] = (record % 128) as u8 + 1;
                }
                let fcb = file().record(end - done);
                let call = world.ask(0, function, fcb).count(count).rising(0x80);
                assert_eq!(call.go(), (code, 16 * done), "{function}, {done} before {end}");
                assert!(world.image == wanted.image && world.list == wanted.list);
                assert_eq!(world.dma, rising_after(&[]));
                assert_eq!(world.fcb, fcb.0);
            }
        }
    }
}

#[test]
fn a_write_stops_where_no_block_is_free() {
    assert_write_stops(&opened(image(7)), 136, 2, [3, 4]);
}

#[test]
fn a_write_stops_where_no_block_is_free_for_a_new_extent() {
    let mut without_extent_1 = image(7);
    without_extent_1[32..64].fill(0xE5);
    // Block 4 belongs to another file instead.
    put_entry(&mut without_extent_1, 9, Entry::named("OTHER").block(0, 4));
    assert_write_stops(&opened(without_extent_1), 128, 2, [2, 3]);
}

#[test]
fn a_write_stops_where_no_entry_is_empty() {
    for blocks in [7, 8] {
        let mut full = crowded(image(blocks));
        put_entry(&mut full, 1, Entry::named("OTHER").block(0, 4));
        assert_write_stops(&opened(full), 128, 5, [2, 3]);
    }
}

#[test]
fn a_write_stops_behind_the_last_record() {
    assert_write_stops(&opened(image(7)), 262_144, 6, [5, 6]);
}

#[test]
fn a_write_stops_at_anothers_lock() {
    let mut world = opened(image(7));
    world.must(1, 15, file());
    assert_eq!(world.ask(1, 42, file().record(128)).id(1).count(2).go(), OK);
    assert_write_stops(&world, 128, 8, [2, 3]);
    // The caller's own lock does not stop it.
    assert_eq!(world.ask(1, 34, file().record(121)).count(15).go(), OK);
}

#[test]
fn a_write_that_stops_keeps_what_it_took() {
    for (function, rest) in [(34, 0xE5), (40, 0)] {
        // Blocks 2 and 3 serve the records 253 to 255 and 256 to 263; 264 gets none.
        let mut world = opened(image_with(4, &[Entry::named("FILE.DAT")]));
        let mut wanted = world.clone();
        let entry = Entry::named("FILE.DAT");
        let first = entry.extent(1).count(128).block(15, 2);
        let second = entry.extent(2).count(8).block(0, 3);
        put_entry(&mut wanted.image, 1, first);
        put_entry(&mut wanted.image, 2, second);
        wanted.image[2 * 1024..3 * 1024].fill(rest);
        for i in 0..11 {
            let at = 2 * 1024 + 128 * (5 + i);
            wanted.image[at..at + 128].fill(0x80 + i as u8);
        }
        let call = world.ask(0, function, file().record(253)).count(16).rising(0x80);
        assert_eq!(call.go(), (2, 16 * 11));
        assert!(world.image == wanted.image && world.list == wanted.list);
    }
}

#[test]
fn the_last_entry_goes_to_the_first_extent_that_wants_it() {
    for function in [34, 40] {
        let mut image = crowded(image_with(9, &[Entry::named("FILE.DAT")]));
        image[32..96].fill(0);
        for (slot, other) in [(1, "OTHER"), (2, "THIRD")] {
            put_entry(&mut image, slot, Entry::named(other));
        }
        image[32 * 63] = 0xE5;
        let mut world = opened(image);
        let call = world.ask(0, function, file().record(255)).count(16).rising(0x80);
        assert_eq!(call.go(), (5, 16));
        let entry = Entry::named("FILE.DAT").extent(1).count(128).block(15, 2);
        assert_eq!(world.entry(63), entry.0);
        assert_eq!(world.record_at(2, 7), [0x80; 128]);
    }
}

#[test]
fn refusals_of_the_file_come_before_any_record() {
    let fcb = file().record(112);
    for (function, read_only) in [(33, OK), (34, (255, 3)), (40, (255, 3))] {
        let mut world = World::new(image(7));
        assert_eq!(world.ask(0, function, fcb).count(16).go(), (10, 0));
        world.must(0, 15, file().read_only());
        assert_eq!(world.ask(0, function, fcb).count(16).go(), read_only);
        world.must(0, 16, file());
        world.image[9] |= 128;
        world.must(0, 15, file());
        assert_eq!(world.ask(0, function, fcb).count(16).go(), read_only);
    }
}

#[test]
fn general_refusals_come_before_any_record() {
    for function in [33, 34, 40] {
        let fcb = file().record(112);
        let mut world = opened(image(7));
        assert_eq!(world.ask(0, function, fcb).count(17).go(), (255, 13));
        assert_eq!(world.ask(0, function, fcb).count(0).go(), (255, 13));
        for length in [0, 128, 256, 1024, 2047, 2049] {
            let call = world.ask(0, function, fcb).count(16).dma(&vec![1; length]);
            assert_eq!(call.go(), (255, 13), "DMA of {length}");
        }
        assert_eq!(world.ask(0, function, fcb.with(0, 2)).count(16).go(), (255, 4));
        world.list[0] = 0;
        assert_eq!(world.ask(0, function, fcb).count(16).go(), (255, 12));
        world.image[0] = 99;
        assert_eq!(world.ask(0, function, fcb).count(16).go(), (255, 1));
    }
}

#[test]
fn a_dma_of_2048_is_for_every_call() {
    for function in common::KNOWN {
        for (length, passes) in [(256, false), (2047, false), (2048, true), (2049, false)] {
            let mut world = World::empty(3);
            let call = world.ask(0, function, Fcb::named("X")).dma(&vec![0; length]);
            assert_eq!(call.go() != (255, 13), passes, "{function} with {length} bytes");
        }
    }
}

#[test]
fn test_and_write_has_one_record_whatever_the_count() {
    let mut world = opened(image(7));
    let mut wanted = world.clone();
    wanted.image[2 * 1024..2 * 1024 + 128].fill(0xF0);
    wanted.image[15] = 113;
    let dma = two_records(&[1; 128], 0xF0);
    let fcb = file().record(112);
    assert_eq!(world.ask(0, 41, fcb).count(16).dma(&dma).go(), OK);
    assert!(world.image == wanted.image && world.dma == dma && world.fcb == fcb.0);
    assert_eq!(world.ask(0, 41, file().record(113)).count(16).go(), (7, 0));
}

#[test]
fn locking_is_of_the_whole_run_and_tells_no_records() {
    let mut world = World::started(image(7), 64, 2, 16);
    world.must(0, 15, file());
    world.must(1, 15, file());
    assert_eq!(world.ask(1, 42, file().record(115)).id(1).go(), OK);
    for (record, wanted) in [(112, (8, 0)), (262_140, (6, 0)), (130, (1, 0))] {
        let call = world.ask(0, 42, file().record(record)).count(16);
        assert_eq!(call.go(), wanted, "42 from {record}");
    }
    assert_eq!(world.ask(0, 43, file().record(262_140)).count(16).go(), (6, 0));
    assert_eq!(world.ask(0, 42, file().record(116)).count(12).go(), OK);
    assert_eq!(world.ask(0, 42, file().record(128)).count(5).go(), (12, 0));
}

#[test]
fn one_record_tells_none() {
    let mut world = opened(image(7));
    for function in [33, 34, 40] {
        assert_eq!(world.ask(0, function, file().record(262_144)).go(), (6, 0));
        assert_eq!(world.ask(0, function, file().record(127)).go(), OK);
    }
    assert_eq!(world.ask(0, 33, file().record(136)).go(), (1, 0));
}

#[test]
fn a_record_number_needs_no_fourth_byte() {
    let mut world = opened(image(7));
    for function in [33, 34, 40] {
        let call = world.ask(0, function, file().record(0xFF_FFFF)).count(16);
        assert_eq!(call.go(), (6, 0));
    }
}

/// Makes the call twice, as one and as single calls, from the same beginning.
fn assert_same_singly(world: &World, function: u32, fcb: Fcb, count: u32) {
    let (mut one, mut singly) = (world.clone(), world.clone());
    let (a, h) = one.ask(0, function, fcb).count(count).rising(0x80).go();
    singly.fcb = fcb.0.to_vec();
    singly.dma = rising_after(&[]);
    singly.lend_vector();
    let answer = reference::call_singly(
        world.kind,
        function,
        0,
        count,
        &mut singly.fcb,
        &mut singly.dma,
        &mut singly.list,
        &mut singly.image,
        &mut singly.vector,
    );
    assert_eq!(answer, a + 256 * (h % 16), "{function} of {count}");
    assert!(one == singly, "{function} of {count}");
}

#[test]
fn a_run_is_its_single_calls() {
    let mut world = World::new(image(9));
    put_item(&mut world.list, 0, open_item(0, name("FILE.DAT"), 1));
    put_item(&mut world.list, 1, open_item(1, name("FILE.DAT"), 1));
    put_item(&mut world.list, 2, lock_item(1, name("FILE.DAT"), 262_140));
    for function in [33, 34, 40] {
        for start in [0, 100, 111, 113, 120, 130, 250, 4090, 262_129, 262_135, 262_142] {
            for count in 1..=16 {
                assert_same_singly(&world, function, file().record(start), count);
            }
        }
        for count in [0, 17] {
            assert_same_singly(&world, function, file(), count);
        }
        assert_same_singly(&world, function, file().with(0, 2), 16);
        assert_same_singly(&world, function, Fcb::named("NONE"), 16);
    }
    for function in common::KNOWN {
        assert_same_singly(&world, function, file(), 16);
    }
}

#[test]
fn single_calls_stop_at_the_first_refusal() {
    let mut world = World::new(empty_image(3));
    world.must(0, 22, file());
    let (mut fcb, mut dma) = (file().record(5).0, rising_after(&[]));
    let World {
        list, image, vector, ..
    } = &mut world;
    let answer = reference::call_singly(0, 34, 0, 16, &mut fcb, &mut dma, list, image, vector);
    assert_eq!(answer, 2);
    assert_eq!(vector[..2], [0xE0, 0]);
    assert_eq!(image[2048 + 5 * 128..2048 + 6 * 128], [0x80; 128]);
    assert_eq!(image[2048 + 7 * 128..], [0x82; 128]);
    assert_eq!(image[15..18], [8, 2, 0]);
}
