//! Cases by chance.

use super::books::{book_of, some_blocks, some_book};
use super::damaged::{damage, overwrite};
use super::{packs, pairs, Case, What};
use crate::random::Random;
use reference::kind::Kind;

/// Both rules, each by several numbers.
const RULES: [u32; 6] = [0, 1, 1, 2, 256, 257];

const UNKNOWN_KINDS: [u32; 5] = [2, 3, 255, 256, u32::MAX];

pub struct Cases {
    random: Random,
}

impl Cases {
    pub fn new(seed: u64) -> Cases {
        Cases {
            random: Random::new(seed),
        }
    }

    pub fn next_case(&mut self, what: What) -> Case {
        // A drive of the second kind has at least 514 KB.
        let kind = match self.random.chance(65) {
            true => Kind::First,
            false => Kind::Second,
        };
        self.next_of(what, kind)
    }

    /// A case on a drive of this kind, though another may be told.
    pub fn next_of(&mut self, what: What, kind: Kind) -> Case {
        let mut case = match what {
            What::Salvage => self.salvage(kind),
            What::Pack => packs::some_case(kind, &mut self.random),
            What::Same => pairs::some_case(kind, &mut self.random),
        };
        match self.random.below(100) {
            0 => case.kind = self.random.pick(&UNKNOWN_KINDS),
            1 => case.kind = kind.other().number(),
            2 | 3 => self.spoil_a_length(&mut case),
            4 => {
                self.spoil_a_length(&mut case);
                self.spoil_a_length(&mut case);
            }
            _ => {}
        }
        case
    }

    fn salvage(&mut self, kind: Kind) -> Case {
        let mut image = some_book(kind, &mut self.random);
        match self.random.below(20) {
            0 | 1 => {}
            2 => overwrite(kind, &mut image, &mut self.random),
            _ => damage(kind, &mut image, &mut self.random),
        }
        Case {
            what: What::Salvage,
            kind: kind.number(),
            rule: self.random.pick(&RULES),
            buffers: vec![image, self.random.bytes(kind.entries())],
        }
    }

    /// One buffer is a little or much shorter or longer.
    fn spoil_a_length(&mut self, case: &mut Case) {
        let buffer = self.random.below(case.buffers.len());
        let bytes = &mut case.buffers[buffer];
        let length = bytes.len();
        let other = match self.random.below(8) {
            0 => 0,
            1 => length.saturating_sub(1),
            2 => length + 1,
            3 => length / 2,
            4 => length + 1_024,
            5 => length.saturating_sub(1_024),
            6 => 2_048,
            _ => 2 * length.min(262_144),
        };
        bytes.resize(other, 0xE5);
    }

    /// A sound book of this kind, for tests.
    pub fn book(&mut self, kind: Kind) -> Vec<u8> {
        let blocks = some_blocks(kind, &mut self.random);
        book_of(kind, blocks, &mut self.random)
    }
    /// Another image beside this one, of the same book or with one thing changed, for tests.
    pub fn pair_of(&mut self, kind: Kind, image: &[u8]) -> Vec<u8> {
        pairs::second_of(kind, image, &mut self.random)
    }
}
