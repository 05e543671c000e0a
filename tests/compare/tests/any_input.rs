//! Whatever is given, every function answers, and a refusal changes nothing.

mod common;

use common::{right_vector, split, KNOWN, OK};
use compare::build::{empty_image, image_of, image_with, Entry, LIST};
use compare::deed::Deed;
use reference::kind::Kind;

/// A small generator of numbers, so that each run sees the same.
struct Numbers(u64);

impl Numbers {
    fn next(&mut self) -> u32 {
        self.0 = self.0.wrapping_mul(6_364_136_223_846_793_005).wrapping_add(1);
        (self.0 >> 33) as u32
    }

    fn below(&mut self, limit: u32) -> u32 {
        self.next() % limit
    }

    fn bytes(&mut self, length: usize) -> Vec<u8> {
        (0..length).map(|_| self.next() as u8).collect()
    }

    /// Mostly one that there is.
    fn kind(&mut self) -> u32 {
        match self.below(8) {
            0 => self.next(),
            1..4 => 1,
            _ => 0,
        }
    }

    /// Mostly that of the image.
    fn vector(&mut self, kind: u32, image: &[u8]) -> Vec<u8> {
        let right = right_vector(kind, image);
        match self.below(6) {
            0 => {
                let length = self.length(right.len());
                self.bytes(length)
            }
            1 => vec![0xC0; right.len()],
            _ => right,
        }
    }

    fn length(&mut self, right: usize) -> usize {
        match self.below(6) {
            0 => self.below(3 * right as u32) as usize,
            1 => [0, 1, right - 1, right + 1][self.below(4) as usize],
            _ => right,
        }
    }
}

#[test]
fn any_call_answers() {
    let mut numbers = Numbers(1);
    for _ in 0..20_000 {
        let image_length = [0, 17, 2048, 3072, 4096][numbers.below(5) as usize];
        let mut image = match numbers.below(32) {
            0..8 => numbers.bytes(image_length),
            8..16 => empty_image(4),
            16 => image_of(Kind::Second, 257, &[Entry::named("A").wide_block(0, 256)]),
            17 => [numbers.bytes(4096), vec![0; 255 * 2048]].concat(),
            18..24 => image_with(4, &[Entry::named("A").block(0, 2)]),
            _ => vec![0; image_length],
        };
        let list_length = numbers.length(LIST);
        let mut list = match numbers.below(3) {
            0 => numbers.bytes(list_length),
            _ => vec![0; list_length],
        };
        if numbers.below(2) == 0 {
            reference::start(numbers.below(2), 9, 8, 7, 0, &[0; 16], &mut list);
        }
        let (fcb_length, dma_length) = (numbers.length(36), numbers.length(2048));
        let mut fcb = numbers.bytes(fcb_length);
        if let Some(drive) = fcb.first_mut() {
            *drive &= 3;
        }
        let mut dma = numbers.bytes(dma_length);
        let function = match numbers.below(8) {
            0 => numbers.next(),
            _ => KNOWN[numbers.below(KNOWN.len() as u32) as usize],
        };
        let process = numbers.below(18);
        let count = numbers.below(19);
        let kind = numbers.kind();
        let mut vector = numbers.vector(kind, &image);
        let before = (
            fcb.clone(),
            dma.clone(),
            list.clone(),
            image.clone(),
            vector.clone(),
        );
        let word = reference::call(
            kind,
            function,
            process,
            count,
            &mut fcb,
            &mut dma,
            &mut list,
            &mut image,
            &mut vector,
        );
        split(word);
        if Deed::of(function, count, word) == Deed::Refused {
            assert!(before == (fcb, dma, list, image, vector));
        }
        let length = numbers.below(13) as usize;
        let name = numbers.bytes(length);
        reference::look(kind, 0, numbers.below(20), &name, numbers.next(), &before.3);
        assert_is_answer_of_check(kind, reference::check(kind, 0, &before.3));
        assert_builds(kind, &before.3, before.4);
    }
}

/// The vector that is due, or the bytes that were there.
fn assert_builds(kind: u32, image: &[u8], mut vector: Vec<u8>) {
    let before = vector.clone();
    match split(reference::vector(kind, 0, image, &mut vector)) {
        OK => assert_eq!(vector, right_vector(kind, image)),
        (255, 1 | 13) => assert_eq!(vector, before),
        other => panic!("building gave {other:?}"),
    }
}

/// 0 and 1 tell entry 0, and no entry told is past the directory.
fn assert_is_answer_of_check(kind: u32, answer: u32) {
    let (code, entry) = (answer % 256, answer / 256);
    match kind {
        _ if code < 2 => assert_eq!(entry, 0),
        0 => assert!(code < 9 && entry < 64),
        1 => assert!(code < 9 && entry < 128),
        _ => panic!("an entry is told of an unknown kind"),
    }
}

#[test]
fn any_input_of_the_program() {
    let mut numbers = Numbers(2);
    for _ in 0..500 {
        let mut input = vec![0x4D, 0x53];
        let length = numbers.below(6_000) as usize;
        input.extend(numbers.bytes(length));
        let (printed, _) = reference::mpmcalls(Some(&empty_image(3)), &input);
        assert!(printed.starts_with(b"call process function A H\n"));
    }
}
