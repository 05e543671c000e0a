//! Both sides of every edge: the paragraph "Edges", and the numbers judged whole.

mod common;

use common::{split, World, KNOWN, OK};
use compare::build::{empty_image, image_with, name, Entry, Fcb, LIST};

#[test]
fn the_last_record() {
    let mut world = World::empty(4);
    let file = Fcb::named("LAST.DAT").unlocked();
    world.must(0, 22, file);
    assert_eq!(world.ask(0, 34, file.record(262_143)).fill(0x55).go(), OK);
    let mut entry = Entry::of(0, name("LAST.DAT"), 2047).0;
    assert_eq!((entry[12], entry[14]), (31, 63));
    entry[15] = 128;
    entry[31] = 2;
    assert_eq!(world.entry(1), entry);
    assert_eq!(world.record_at(2, 7), [0x55; 128]);
    assert_eq!(world.record_at(2, 6), [0xE5; 128]);
    let at = reference::look(0, 0, 0, &name("LAST.DAT"), 262_143, &world.image);
    assert_eq!(at, Some(2 * 1024 + 7 * 128));
    assert_eq!(world.ask(0, 42, file.record(262_143)).go(), OK);
    assert_eq!(world.ask(0, 42, file.record(262_143)).count(2).go(), (6, 0));
    assert_eq!(world.ask(0, 43, file.record(262_143)).count(2).go(), (6, 0));
    assert_eq!(world.ask(0, 42, file.record(262_142)).count(2).go(), OK);
    assert_eq!(world.ask(0, 43, file.record(262_142)).count(2).go(), OK);
}

#[test]
fn byte_35_of_4() {
    let mut world = World::empty(4);
    let file = Fcb::named("LAST.DAT").unlocked();
    world.must(0, 22, file);
    for function in [33, 34, 40, 41, 42, 43] {
        for record in [262_144, 327_679, 0xFF_0000, 0xFF_FFFF] {
            assert_eq!(world.ask(0, function, file.record(record)).go(), (6, 0));
        }
        assert_ne!(world.ask(0, function, file.record(262_143)).go(), (6, 0));
    }
}

#[test]
fn blocks() {
    for (blocks, wanted) in [(2, 1), (3, 0), (256, 0), (257, 1)] {
        assert_eq!(reference::check(0, 0, &empty_image(blocks)), wanted);
        let answer = World::empty(blocks).ask(0, 46, Fcb([0; 36])).go();
        assert_eq!(answer == OK, wanted == 0, "{blocks} blocks");
        assert!(answer == OK || answer == (255, 1));
    }
}

#[test]
fn free_space_of_the_largest_drive() {
    let mut world = World::empty(256);
    world.must(0, 46, Fcb([0; 36]));
    let figure = 254 * 8;
    assert_eq!(world.dma[..3], [(figure % 256) as u8, (figure / 256) as u8, 0]);
}

#[test]
fn counts() {
    for function in KNOWN {
        for (count, passes) in [
            (0, false),
            (1, true),
            (16, true),
            (17, false),
            (256, false),
            (257, false),
            (272, false),
            (u32::MAX, false),
        ] {
            let answer = World::empty(3)
                .ask(0, function, Fcb::named("X"))
                .count(count)
                .go();
            assert_eq!(answer != (255, 13), passes, "{function} with count {count}");
        }
    }
}

#[test]
fn processes() {
    for function in KNOWN {
        for (process, passes) in [
            (0, true),
            (15, true),
            (16, false),
            (256, false),
            (u32::MAX, false),
        ] {
            let answer = World::empty(3).ask(process, function, Fcb::named("X")).go();
            assert_eq!(answer != (255, 13), passes, "{function} by {process}");
        }
    }
}

#[test]
fn functions() {
    for function in (0..=400).chain([u32::MAX, 65_536 + 15, 1 << 31, (1 << 24) + 46]) {
        let answer = World::empty(3).ask(0, function, Fcb::named("X")).go();
        assert_eq!(
            answer != (255, 13),
            KNOWN.contains(&function),
            "function {function}"
        );
    }
}

#[test]
fn start_numbers() {
    for number in [0, 1, 64, 65, 256, 257, 320, u32::MAX] {
        let passes = (1..=64).contains(&number);
        for numbers in [[number, 7, 9], [5, number, 9], [5, 7, number]] {
            assert_start(numbers, &[3; 16], LIST, passes);
        }
    }
}

#[test]
fn start_users() {
    for at in 0..16 {
        for user in [0, 15, 16, 0x80, 255] {
            let mut users = [1; 16];
            users[at] = user;
            assert_start([64, 1, 64], &users, LIST, user < 16);
        }
    }
    for length in [0, 1, 15, 17, 32] {
        assert_start([64, 1, 64], &vec![0; length], LIST, false);
    }
}

#[test]
fn start_list_length() {
    for length in [0, 1, 19, 1299, 1314, 1315, 1317, 4096] {
        assert_start([64, 1, 64], &[0; 16], length, false);
    }
}

fn assert_start(numbers: [u32; 3], users: &[u8], length: usize, passes: bool) {
    let mut list = vec![0xAA; length];
    let word = reference::start(0, numbers[0], numbers[1], numbers[2], 0, users, &mut list);
    if !passes {
        assert_eq!(split(word), (255, 13), "{numbers:?}");
        assert_eq!(list, vec![0xAA; length]);
        return;
    }
    assert_eq!(split(word), OK, "{numbers:?}");
    assert_eq!(list[..3], numbers.map(|number| number as u8));
    assert_eq!(list[3..19], *users);
    assert_eq!(list[19..1299], [0; 1280]);
    assert_eq!(list[1299..1315], [64; 16]);
    assert_eq!(list[1315..], [0]);
}

#[test]
fn buffer_lengths() {
    for function in KNOWN {
        let lengths = [0, 1, 35, 37, 256, 1299, 1314, 1315, 1317, 2047, 2049];
        for length in lengths {
            let mut world = World::empty(3);
            let bytes = vec![0; length];
            assert_eq!(
                world.ask(0, function, Fcb([0; 36])).fcb_bytes(&bytes).go(),
                (255, 13)
            );
            assert_eq!(world.ask(0, function, Fcb([0; 36])).dma(&bytes).go(), (255, 13));
            world.list = bytes;
            assert_eq!(world.ask(0, function, Fcb([0; 36])).go(), (255, 13));
        }
    }
}

#[test]
fn the_order_of_the_common_refusals() {
    for function in KNOWN {
        let mut world = World::new(vec![0; 5]);
        world.list[0] = 0;
        let wrong_drive = Fcb::named("X").with(0, 2);
        assert_eq!(world.ask(16, function, wrong_drive).go(), (255, 13));
        assert_eq!(world.ask(0, function, wrong_drive).count(0).go(), (255, 13));
        assert_eq!(world.ask(0, function, wrong_drive).go(), (255, 1));
        world.image = empty_image(3);
        assert_eq!(world.ask(0, function, wrong_drive).go(), (255, 12));
        world.list[0] = 1;
        let wanted = if [46, 143].contains(&function) {
            OK
        } else {
            (255, 4)
        };
        assert_eq!(world.ask(0, function, wrong_drive).go(), wanted);
    }
}

#[test]
fn drives() {
    for (byte, passes) in [
        (0, true),
        (1, true),
        (2, false),
        (0x80, false),
        (0x81, false),
        (255, false),
    ] {
        let answer = World::empty(3).ask(0, 16, Fcb::named("X").with(0, byte)).go();
        assert_eq!(answer, if passes { (255, 6) } else { (255, 4) });
    }
}

#[test]
fn look() {
    let image = image_with(
        4,
        &[
            Entry::named("F").block(1, 3),
            Entry::named("F").extent(32).block(0, 2),
            Entry::named("F").user(15),
        ],
    );
    let file = name("F");
    let find = |user: u32, record: u32| reference::look(0, 0, user, &file, record, &image);
    assert_eq!(find(0, 8), Some(3072));
    assert_eq!(find(0, 15), Some(3072 + 7 * 128));
    assert_eq!(find(0, 7), None);
    assert_eq!(find(0, 16), None);
    assert_eq!(find(0, 4095), None);
    assert_eq!(find(0, 4096), Some(2048));
    assert_eq!(find(0, 4104), None);
    assert_eq!(find(0, 262_144 + 8), None);
    assert_eq!(find(0, u32::MAX), None);
    assert_eq!(find(1, 8), None);
    assert_eq!(find(15, 8), None);
    assert_eq!(find(16, 8), None);
    assert_eq!(find(256, 8), None);

    let high = file.map(|byte| byte | 128);
    assert_eq!(reference::look(0, 0, 0, &high, 8, &image), Some(3072));
    assert_eq!(reference::look(0, 0, 0, &file[..10], 8, &image), None);
    assert_eq!(
        reference::look(0, 0, 0, &[&file[..], b" "].concat(), 8, &image),
        None
    );
    assert_eq!(reference::look(0, 0, 0, &[], 8, &image), None);
    assert_eq!(reference::look(0, 0, 0, &name(" F"), 8, &image), None);
    assert_eq!(reference::look(0, 0, 0, &name("F"), 8, &image[..4095]), None);
}
