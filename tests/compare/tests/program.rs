//! The program `mpmcalls`: its lines, its cuts and its DISK.OUT.

use compare::build::{empty_image, Fcb};

const HEADER: &str = "call process function A H\n";

fn start_record() -> Vec<u8> {
    let mut record = vec![0x4D, 0x53, 3, 2, 2];
    record.extend([0; 17]);
    record
}

fn call_record(function: u8, process: u8, count: u8) -> Vec<u8> {
    let mut record = vec![0x4D, 0x43, function, process, count];
    record.extend(Fcb::named("FILE.DAT").unlocked().0);
    record.extend([0; 2048]);
    record
}

fn two_calls() -> Vec<u8> {
    [start_record(), call_record(22, 1, 1), call_record(34, 1, 1)].concat()
}

fn run(disk: Option<&[u8]>, input: &[u8]) -> (String, Option<Vec<u8>>) {
    let (printed, out) = reference::mpmcalls(disk, input);
    (String::from_utf8(printed).unwrap(), out)
}

#[test]
fn no_calls() {
    let image = empty_image(3);
    let (printed, out) = run(Some(&image), &start_record());
    assert_eq!(printed, format!("{HEADER}end 0\n"));
    assert_eq!(out, Some(image));
}

#[test]
fn two_calls_change_the_image() {
    let (printed, out) = run(Some(&empty_image(3)), &two_calls());
    assert_eq!(printed, format!("{HEADER}0 1 22 0 0\n1 1 34 0 0\nend 2\n"));
    let out = out.unwrap();
    assert_eq!(out.len(), 3072);
    assert_eq!(out[2048..2048 + 128], [0; 128]);
}

#[test]
fn wild_numbers_are_calls_like_others() {
    let input = [start_record(), call_record(255, 200, 0), call_record(0, 0, 0)].concat();
    let (printed, out) = run(Some(&empty_image(3)), &input);
    assert_eq!(
        printed,
        format!("{HEADER}0 200 255 255 13\n1 0 0 255 13\nend 2\n")
    );
    assert!(out.is_some());
}

#[test]
fn an_unreadable_image_is_empty() {
    for disk in [None, Some(&[][..])] {
        let (printed, out) = run(disk, &two_calls());
        assert_eq!(printed, format!("{HEADER}0 1 22 255 1\n1 1 34 255 1\nend 2\n"));
        assert_eq!(out, Some(Vec::new()));
    }
}

#[test]
fn an_unsound_image_is_written_back_unchanged() {
    let image: Vec<u8> = (0..5000u32).map(|i| i as u8).collect();
    let (printed, out) = run(Some(&image), &two_calls());
    assert_eq!(printed, format!("{HEADER}0 1 22 255 1\n1 1 34 255 1\nend 2\n"));
    assert_eq!(out, Some(image));
}

#[test]
fn the_longest_image() {
    let (printed, out) = run(Some(&empty_image(64)), &two_calls());
    assert!(printed.ends_with("end 2\n"));
    assert_eq!(out.unwrap().len(), 65_536);
    for longer in [vec![0xE5; 65_537], empty_image(65), empty_image(256)] {
        for input in [two_calls(), Vec::new()] {
            assert_eq!(run(Some(&longer), &input), ("image too long\n".to_string(), None));
        }
    }
}

#[test]
fn every_cut() {
    let input = two_calls();
    let lines = ["0 1 22 0 0\n", "1 1 34 0 0\n"];
    for length in 0..=input.len() {
        let (printed, out) = run(Some(&empty_image(3)), &input[..length]);
        let (calls, rest) = match length {
            0..22 => (0, None),
            _ => ((length - 22) / 2089, Some((length - 22) % 2089)),
        };
        let last = match rest {
            None => "bad record 0\n".to_string(),
            Some(0) => format!("end {calls}\n"),
            Some(_) => format!("bad record {}\n", calls + 1),
        };
        assert_eq!(printed, format!("{HEADER}{}{last}", lines[..calls].concat()));
        assert_eq!(out.is_some(), rest == Some(0));
    }
}

/// A call record with this count and first record, and a DMA whose records have bytes 1 to 16.
fn run_record(function: u8, count: u8, record: u32) -> Vec<u8> {
    let mut bytes = vec![0x4D, 0x43, function, 1, count];
    bytes.extend(Fcb::named("FILE.DAT").unlocked().record(record).0);
    bytes.extend((1..=16).flat_map(|byte| [byte; 128]));
    bytes
}

#[test]
fn a_run_that_stops_is_printed_with_its_records_done() {
    // One block is free: records 5 to 7 get it, 8 gets none. Then 5 to 7 can be read, 8 cannot.
    let input = [
        start_record(),
        call_record(22, 1, 1),
        run_record(34, 16, 5),
        run_record(33, 16, 5),
        run_record(33, 3, 5),
    ]
    .concat();
    let (printed, out) = run(Some(&empty_image(3)), &input);
    let lines = "0 1 22 0 0\n1 1 34 2 48\n2 1 33 1 48\n3 1 33 0 0\n";
    assert_eq!(printed, format!("{HEADER}{lines}end 4\n"));
    let out = out.unwrap();
    assert_eq!(out[15..18], [8, 2, 0]);
    for (record, byte) in [(5, 1), (6, 2), (7, 3)] {
        let at = 2048 + 128 * record;
        assert_eq!(out[at..at + 128], [byte; 128]);
    }
    assert_eq!(out[2048..2048 + 5 * 128], [0xE5; 5 * 128]);
}

#[test]
fn records_of_the_old_length_are_no_records() {
    // Eight of them make one of the new length and a rest that is cut.
    for (number, lines) in [
        (1, "bad record 1\n"),
        (7, "bad record 1\n"),
        (8, "0 1 46 0 0\nbad record 2\n"),
    ] {
        let calls = call_record(46, 1, 1)[..297].repeat(number);
        let (printed, out) = run(Some(&empty_image(3)), &[start_record(), calls].concat());
        assert_eq!(printed, format!("{HEADER}{lines}"), "{number} records");
        assert_eq!(out, None);
    }
}

#[test]
fn bad_marks() {
    for (at, wanted) in [(0, 0), (1, 0), (22, 1), (23, 1), (22 + 2089, 2), (23 + 2089, 2)] {
        let mut input = two_calls();
        input[at] ^= 0x10;
        let (printed, out) = run(Some(&empty_image(3)), &input);
        assert!(printed.ends_with(&format!("bad record {wanted}\n")));
        let calls_before: usize = wanted.max(1) - 1;
        assert_eq!(printed.lines().count(), 2 + calls_before);
        assert_eq!(out, None);
    }
}

#[test]
fn bad_starts() {
    for (at, byte) in [
        (2, 0),
        (2, 65),
        (3, 0),
        (3, 65),
        (4, 0),
        (4, 255),
        (5, 16),
        (20, 16),
    ] {
        let mut input = two_calls();
        input[at] = byte;
        let (printed, out) = run(Some(&empty_image(3)), &input);
        assert_eq!(printed, format!("{HEADER}bad record 0\n"));
        assert_eq!(out, None);
    }
}
