//! The image, the list and the vector that an engine of this process works on, between guard bytes,
//! and a second set of them for its plain side.

use crate::engine::Engine;
use crate::parts::parts;
use crate::step::{changes, changes_in, Apart, Changes, Reply, Step, ANSWER_APART, BUFFERS};
use reference::calls::{Buffers, Numbers};
use reference::singly::plain_answer;
use std::ops::Range;

const GUARD: usize = 64;
const GUARD_BYTES: [u8; GUARD] = guard_bytes();

const fn guard_bytes() -> [u8; GUARD] {
    let mut bytes = [0; GUARD];
    let mut at = 0;
    while at < GUARD {
        bytes[at] = 0x5A ^ (at as u8).wrapping_mul(37);
        at += 1;
    }
    bytes
}

/// A buffer with guard bytes on both sides.
pub struct Guarded(Vec<u8>);

impl Guarded {
    pub fn new(data: &[u8]) -> Guarded {
        Guarded([&GUARD_BYTES, data, &GUARD_BYTES].concat())
    }

    pub fn data(&self) -> &[u8] {
        &self.0[GUARD..self.0.len() - GUARD]
    }

    pub fn data_mut(&mut self) -> &mut [u8] {
        let end = self.0.len() - GUARD;
        &mut self.0[GUARD..end]
    }

    pub fn guards_hold(&self) -> bool {
        self.0.starts_with(&GUARD_BYTES) && self.0.ends_with(&GUARD_BYTES)
    }

    fn resize(&mut self, length: usize, fill: u8) {
        self.0.truncate(self.0.len() - GUARD);
        self.0.resize(GUARD + length, fill);
        self.0.extend(GUARD_BYTES);
    }

    fn patch(&mut self, at: usize, bytes: &[u8]) {
        if let Some(place) = self.data_mut().get_mut(at..at + bytes.len()) {
            place.copy_from_slice(bytes);
        }
    }
}

/// A buffer that lasts from step to step, with a copy of it before the current one and one that
/// the plain side works on.
struct Lasting {
    now: Guarded,
    before: Vec<u8>,
    plain: Guarded,
}

impl Lasting {
    fn new() -> Lasting {
        Lasting {
            now: Guarded::new(&[]),
            before: Vec::new(),
            plain: Guarded::new(&[]),
        }
    }

    fn resize(&mut self, length: usize, fill: u8) {
        self.now.resize(length, fill);
        self.before.resize(length, fill);
        self.plain.resize(length, fill);
    }

    fn patch(&mut self, at: usize, bytes: &[u8]) {
        self.now.patch(at, bytes);
        self.plain.patch(at, bytes);
        if let Some(place) = self.before.get_mut(at..at + bytes.len()) {
            place.copy_from_slice(bytes);
        }
    }

    /// What changed in these parts since the step began; from here on it counts as before.
    fn settle(&mut self, parts: &[Range<usize>]) -> Changes {
        let changes = changes_in(parts, &self.before, self.now.data());
        match &changes {
            None => self.settle_all(),
            Some(changes) => {
                for change in changes {
                    self.before[change.at..change.at + change.bytes.len()].copy_from_slice(&change.bytes);
                    self.plain.patch(change.at, &change.bytes);
                }
            }
        }
        changes
    }

    fn settle_all(&mut self) {
        self.before.copy_from_slice(self.now.data());
        self.plain.data_mut().copy_from_slice(self.now.data());
    }

    /// True if the plain side has left other bytes in these parts; it goes on from the engine's.
    fn rejoin(&mut self, parts: &[Range<usize>]) -> bool {
        let mut is_apart = false;
        for part in parts {
            let (plain, now) = (
                &mut self.plain.data_mut()[part.clone()],
                &self.now.data()[part.clone()],
            );
            if plain != now {
                plain.copy_from_slice(now);
                is_apart = true;
            }
        }
        is_apart
    }

    fn all(&self) -> Range<usize> {
        0..self.before.len()
    }
}

/// What the plain side has answered, and its FCB and DMA.
struct Plain {
    answer: u32,
    fcb: Guarded,
    dma: Guarded,
}

impl Plain {
    /// Where nothing was asked.
    fn silent() -> Plain {
        Plain {
            answer: 0,
            fcb: Guarded::new(&[]),
            dma: Guarded::new(&[]),
        }
    }
}

pub struct Table {
    image: Lasting,
    list: Lasting,
    vector: Lasting,
}

impl Default for Table {
    fn default() -> Table {
        Table {
            image: Lasting::new(),
            list: Lasting::new(),
            vector: Lasting::new(),
        }
    }
}

impl Table {
    pub fn image(&self) -> &[u8] {
        self.image.now.data()
    }

    pub fn list(&self) -> &[u8] {
        self.list.now.data()
    }

    pub fn vector(&self) -> &[u8] {
        self.vector.now.data()
    }

    /// Does the step; None for those that have no answer.
    pub fn serve<E: Engine + ?Sized>(&mut self, engine: &mut E, step: &Step) -> Option<Reply> {
        match step {
            Step::Image { length, fill } => self.image.resize(*length, *fill),
            Step::PatchImage { at, bytes } => self.image.patch(*at, bytes),
            Step::List { length, fill } => self.list.resize(*length, *fill),
            Step::PatchList { at, bytes } => self.list.patch(*at, bytes),
            Step::Vector { length, fill } => self.vector.resize(*length, *fill),
            Step::PatchVector { at, bytes } => self.vector.patch(*at, bytes),
            Step::Start { users, .. } => return Some(self.ask(engine, step, users, &[])),
            Step::Call { fcb, dma, .. } => return Some(self.ask(engine, step, fcb, dma)),
            Step::Check { .. } | Step::Build { .. } | Step::Whole => {
                return Some(self.ask(engine, step, &[], &[]))
            }
            Step::Look { name, .. } => return Some(self.ask(engine, step, name, &[])),
        }
        None
    }

    fn ask<E: Engine + ?Sized>(&mut self, engine: &mut E, step: &Step, first: &[u8], second: &[u8]) -> Reply {
        let (mut first_now, mut second_now) = (Guarded::new(first), Guarded::new(second));
        let answer = self.question(engine, step, first_now.data_mut(), second_now.data_mut());
        let plain = self.ask_plain_side(engine, step);
        let lasting = [&self.list.now, &self.image.now, &self.vector.now];
        let mut broken_guards = broken([&first_now, &second_now], lasting);
        let mut apart = None;
        let whole = |buffer: &Lasting| [buffer.all()];
        let (list_parts, vector_parts) = (whole(&self.list), whole(&self.vector));
        let image_parts = parts(step, &self.image.before, self.image.now.data());
        if let Some(plain) = plain {
            let lasting = [&self.list.plain, &self.image.plain, &self.vector.plain];
            broken_guards |= broken([&plain.fcb, &plain.dma], lasting) << BUFFERS.len();
            let (fcb_now, dma_now) = (first_now.data(), second_now.data());
            let differ = [
                plain.fcb.data() != fcb_now,
                plain.dma.data() != dma_now,
                self.list.rejoin(&list_parts),
                self.image.rejoin(&image_parts),
                self.vector.rejoin(&vector_parts),
            ];
            apart = told_apart(differ, plain.answer, wanted_of_plain_side(step, answer));
        }
        Reply {
            answer,
            broken_guards,
            apart,
            changes: [
                changes(first, first_now.data()),
                changes(second, second_now.data()),
                self.list.settle(&list_parts),
                self.image.settle(&image_parts),
                self.vector.settle(&vector_parts),
            ],
        }
    }

    /// The same call on the plain side's buffers; None if there is no such call. Where the whole
    /// image is compared, that of the plain side is too.
    fn ask_plain_side<E: Engine + ?Sized>(&mut self, engine: &mut E, step: &Step) -> Option<Plain> {
        let (numbers, fcb, dma) = match step {
            Step::Call { numbers, fcb, dma } => (numbers, fcb, dma),
            Step::Whole => return Some(Plain::silent()),
            _ => return None,
        };
        let (mut fcb, mut dma) = (Guarded::new(fcb), Guarded::new(dma));
        let buffers = Buffers {
            fcb: fcb.data_mut(),
            dma: dma.data_mut(),
            list: self.list.plain.data_mut(),
            image: self.image.plain.data_mut(),
            vector: self.vector.plain.data_mut(),
        };
        let answer = engine.singly(*numbers, buffers)?;
        Some(Plain { answer, fcb, dma })
    }

    fn question<E: Engine + ?Sized>(
        &mut self,
        engine: &mut E,
        step: &Step,
        first: &mut [u8],
        second: &mut [u8],
    ) -> u32 {
        let list = self.list.now.data_mut();
        let image = self.image.now.data_mut();
        let vector = self.vector.now.data_mut();
        match step {
            Step::Start { kind, numbers, .. } => engine.start(*kind, *numbers, first, list),
            Step::Call { numbers, .. } => engine.call(
                *numbers,
                Buffers {
                    fcb: first,
                    dma: second,
                    list,
                    image,
                    vector,
                },
            ),
            Step::Check { told } => engine.check(*told, image),
            Step::Build { told } => engine.vector(*told, image, vector),
            Step::Look {
                told, user, record, ..
            } => engine.look(*told, *user, first, *record, image),
            _ => 0,
        }
    }
}

/// A bit for each buffer whose guard bytes were overwritten.
fn broken(passing: [&Guarded; 2], lasting: [&Guarded; 3]) -> u16 {
    let guarded = passing.into_iter().chain(lasting);
    (0..)
        .zip(guarded)
        .filter(|(_, buffer)| !buffer.guards_hold())
        .map(|(i, _)| 1 << i)
        .sum()
}

fn wanted_of_plain_side(step: &Step, answer: u32) -> u32 {
    match step {
        Step::Call {
            numbers: Numbers { function, .. },
            ..
        } => plain_answer(*function, answer),
        _ => answer,
    }
}

fn told_apart(buffers: [bool; BUFFERS.len()], answer: u32, wanted: u32) -> Option<Apart> {
    let mut parts = 0;
    for (i, apart) in buffers.into_iter().enumerate() {
        parts |= u8::from(apart) << i;
    }
    if answer != wanted {
        parts |= ANSWER_APART;
    }
    (parts != 0).then_some(Apart { parts, answer })
}
