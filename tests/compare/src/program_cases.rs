//! Runs for the program `mpmcalls`: good ones, cut ones and damaged ones.

use crate::generate::Generator;
use crate::random::Random;
use reference::program::{mpmcalls, CALL_LENGTH, IMAGE_LIMIT, START_LENGTH};

pub enum Disk {
    Missing,
    /// A folder stands in the file's place.
    Folder,
    Bytes(Vec<u8>),
}

pub struct ProgramCase {
    pub kind: &'static str,
    pub disk: Disk,
    pub input: Vec<u8>,
    /// What DISK.OUT holds before the run.
    pub old_out: Option<Vec<u8>>,
}

pub struct ProgramCases {
    generator: Generator,
    random: Random,
}

impl ProgramCase {
    /// What must be printed, and what DISK.OUT must hold after the run.
    pub fn expected(&self) -> (Vec<u8>, Option<Vec<u8>>) {
        let disk = match &self.disk {
            Disk::Bytes(bytes) => Some(&bytes[..]),
            Disk::Missing | Disk::Folder => None,
        };
        let (printed, out) = mpmcalls(disk, &self.input);
        (printed, out.or(self.old_out.clone()))
    }
}

impl ProgramCases {
    pub fn new(seed: u64) -> ProgramCases {
        ProgramCases {
            generator: Generator::new(seed),
            random: Random::new(!seed),
        }
    }

    /// What the reference did that it should not have.
    pub fn faults(&self) -> &[String] {
        self.generator.faults()
    }

    pub fn next_case(&mut self) -> ProgramCase {
        let (image, input) = self.generator.program_run();
        let old_out = match self.random.below(10) {
            0..7 => None,
            7 => Some(Vec::new()),
            _ => Some(self.random.bytes(image.len() + 500)),
        };
        let mut case = ProgramCase {
            kind: "good",
            disk: Disk::Bytes(image),
            input,
            old_out,
        };
        match self.random.below(100) {
            0..15 => self.cut_input(&mut case),
            15..25 => self.spoil_mark(&mut case),
            25..35 => self.spoil_start(&mut case),
            35..40 => self.lengthen_input(&mut case),
            40..55 => self.change_disk(&mut case),
            55..57 => self.spoil_anything(&mut case),
            57..60 => shorten_records(&mut case),
            _ => {}
        }
        case
    }

    fn cut_input(&mut self, case: &mut ProgramCase) {
        case.kind = "cut input";
        let length = case.input.len();
        let cut = match self.random.below(4) {
            0 => self.random.below(START_LENGTH + 2),
            1 => length - 1,
            2 => START_LENGTH + CALL_LENGTH + self.random.below(3) - 1,
            _ => self.random.below(length),
        };
        case.input.truncate(cut);
    }

    fn record_starts(&self, case: &ProgramCase) -> Vec<usize> {
        let calls = (START_LENGTH..case.input.len()).step_by(CALL_LENGTH);
        std::iter::once(0).chain(calls).collect()
    }

    fn spoil_mark(&mut self, case: &mut ProgramCase) {
        case.kind = "bad mark";
        let starts = self.record_starts(case);
        let at = self.random.pick(&starts) + self.random.below(2);
        let byte = self.random.pick(&[0, 0x4D, 0x43, 0x53, 0x6D, 0xFF]);
        if let Some(mark) = case.input.get_mut(at) {
            *mark = byte;
        }
    }

    fn spoil_start(&mut self, case: &mut ProgramCase) {
        case.kind = "bad start";
        let at = self.random.between(2, START_LENGTH - 1);
        case.input[at] = self.random.pick(&[0, 16, 65, 128, 255]);
    }

    fn lengthen_input(&mut self, case: &mut ProgramCase) {
        case.kind = "more after the last record";
        let length = self.random.between(1, CALL_LENGTH + 1);
        let more = self.random.bytes(length);
        case.input.extend(more);
    }

    fn change_disk(&mut self, case: &mut ProgramCase) {
        let length = match self.random.below(8) {
            0 => {
                case.kind = "no DISK.IMG";
                case.disk = Disk::Missing;
                return;
            }
            1 => {
                case.kind = "DISK.IMG is a folder";
                case.disk = Disk::Folder;
                return;
            }
            2 => 0,
            3 => IMAGE_LIMIT,
            4 => IMAGE_LIMIT + 1,
            5 => 65 * 1024,
            6 => 256 * 1024,
            _ => self.random.below(IMAGE_LIMIT),
        };
        case.kind = match length > IMAGE_LIMIT {
            true => "image too long",
            false => "image of another length",
        };
        if let Disk::Bytes(image) = &mut case.disk {
            image.resize(length, 0xE5);
        }
    }

    fn spoil_anything(&mut self, case: &mut ProgramCase) {
        case.kind = "nonsense input";
        let length = self.random.below(3 * CALL_LENGTH);
        case.input = self.random.bytes(length);
        if self.random.chance(50) && length > 2 {
            case.input[..2].copy_from_slice(b"MS");
        }
    }
}

/// Gives each call record a DMA of 256 bytes, as it had when a call was for one record.
fn shorten_records(case: &mut ProgramCase) {
    const OLD_LENGTH: usize = 297;
    case.kind = "records of the old length";
    let (start, calls) = case.input.split_at(START_LENGTH);
    let shortened = calls.chunks(CALL_LENGTH).map(|record| &record[..OLD_LENGTH]);
    case.input = std::iter::once(start)
        .chain(shortened)
        .collect::<Vec<_>>()
        .concat();
}
