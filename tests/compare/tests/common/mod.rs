//! One running world: an image, a list and a vector, and calls upon them.
#![allow(dead_code)]

use compare::build::{empty_image, Fcb, LIST};
use compare::deed::Deed;
use compare::faults::{image_faults, vector_length, vector_of};
use reference::calls::DMA_LENGTH;
use reference::kind::Kind;

pub type Answer = (u32, u32);
pub const OK: Answer = (0, 0);

pub const KNOWN: [u32; 16] = [15, 16, 17, 18, 19, 22, 23, 33, 34, 35, 40, 41, 42, 43, 46, 143];

#[derive(Clone, PartialEq, Eq)]
pub struct World {
    /// The kind of drive that its calls are told.
    pub kind: u32,
    pub image: Vec<u8>,
    pub list: Vec<u8>,
    pub fcb: Vec<u8>,
    pub dma: Vec<u8>,
    pub vector: Vec<u8>,
    /// The vector that calls are lent where a test has set one; else it is the image's.
    pub own_vector: Option<Vec<u8>>,
}

/// The vector that a drive told so has to have; of an image that is not sound, one of its length.
pub fn right_vector(kind: u32, image: &[u8]) -> Vec<u8> {
    let kind = Kind::told(kind).unwrap_or(Kind::First);
    match image_faults(kind, image).is_empty() {
        true => vector_of(kind, image),
        false => vec![0; vector_length(kind)],
    }
}

/// A call in the making; the FCB, count and DMA have plain values until they are set.
pub struct Call<'a> {
    world: &'a mut World,
    function: u32,
    process: u32,
    count: u32,
    fcb: Vec<u8>,
    dma: Vec<u8>,
}

pub fn split(word: u32) -> Answer {
    assert!(word < 65_536, "more than A and H: {word}");
    (word % 256, word / 256)
}

impl World {
    pub fn new(image: Vec<u8>) -> World {
        World::started(image, 64, 64, 64)
    }

    pub fn started(image: Vec<u8>, capacity: u32, open_limit: u32, lock_limit: u32) -> World {
        World::with_users(image, [capacity, open_limit, lock_limit], [0; 16])
    }

    /// On a drive of the second kind.
    pub fn large(image: Vec<u8>) -> World {
        World::of_kind(1, image, [64, 64, 64], [0; 16])
    }

    pub fn with_users(image: Vec<u8>, numbers: [u32; 3], users: [u8; 16]) -> World {
        World::of_kind(0, image, numbers, users)
    }

    pub fn of_kind(kind: u32, image: Vec<u8>, numbers: [u32; 3], users: [u8; 16]) -> World {
        let mut list = vec![0xAA; LIST];
        let answer = reference::start(kind, numbers[0], numbers[1], numbers[2], 0, &users, &mut list);
        assert_eq!(answer, 0);
        World {
            kind,
            image,
            list,
            fcb: Vec::new(),
            dma: Vec::new(),
            vector: Vec::new(),
            own_vector: None,
        }
    }

    pub fn empty(blocks: usize) -> World {
        World::new(empty_image(blocks))
    }

    pub fn ask(&mut self, process: u32, function: u32, fcb: Fcb) -> Call<'_> {
        Call {
            world: self,
            function,
            process,
            count: 1,
            fcb: fcb.0.to_vec(),
            dma: vec![0; DMA_LENGTH],
        }
    }

    /// A call that must succeed, and is no search.
    pub fn must(&mut self, process: u32, function: u32, fcb: Fcb) {
        assert_eq!(self.ask(process, function, fcb).go(), OK);
    }

    /// The vector as the next call finds it.
    pub fn lend_vector(&mut self) {
        let own = self.own_vector.clone();
        self.vector = own.unwrap_or_else(|| right_vector(self.kind, &self.image));
    }

    pub fn entry(&self, slot: usize) -> &[u8] {
        &self.image[32 * slot..32 * slot + 32]
    }

    pub fn record_at(&self, block: usize, record: usize) -> &[u8] {
        let at = 1024 * block + 128 * record;
        &self.image[at..at + 128]
    }

    pub fn place(&self, place: usize) -> &[u8] {
        compare::build::item_at(&self.list, place)
    }
}

impl Call<'_> {
    pub fn count(mut self, count: u32) -> Self {
        self.count = count;
        self
    }

    pub fn id(mut self, id: u8) -> Self {
        self.dma[0] = id;
        self
    }

    pub fn dma(mut self, dma: &[u8]) -> Self {
        self.dma = dma.to_vec();
        self
    }

    pub fn fill(mut self, byte: u8) -> Self {
        self.dma.fill(byte);
        self
    }

    pub fn fcb_bytes(mut self, fcb: &[u8]) -> Self {
        self.fcb = fcb.to_vec();
        self
    }

    /// Each record of the DMA has a byte of its own, one more than that of the record before.
    pub fn rising(mut self, first: u8) -> Self {
        for (byte, record) in (first..).zip(self.dma.chunks_mut(128)) {
            record.fill(byte);
        }
        self
    }

    /// Does the call. A refusal must leave all five buffers unchanged, all else a vector that agrees.
    pub fn go(self) -> Answer {
        let Call {
            world,
            function,
            process,
            count,
            fcb,
            dma,
        } = self;
        world.fcb = fcb;
        world.dma = dma;
        world.lend_vector();
        let before = world.clone();
        let word = reference::call(
            world.kind,
            function,
            process,
            count,
            &mut world.fcb,
            &mut world.dma,
            &mut world.list,
            &mut world.image,
            &mut world.vector,
        );
        let answer = split(word);
        match Deed::of(function, count, word) {
            Deed::Refused => assert!(
                *world == before,
                "refusal {answer:?} of {function} changed a buffer"
            ),
            _ => assert_eq!(
                world.vector,
                right_vector(world.kind, &world.image),
                "the vector after {function}"
            ),
        }
        answer
    }
}

/// A DMA whose first record is `tested` and whose others are `written`.
pub fn two_records(tested: &[u8], written: u8) -> Vec<u8> {
    let mut dma = tested.to_vec();
    dma.resize(DMA_LENGTH, written);
    dma
}
