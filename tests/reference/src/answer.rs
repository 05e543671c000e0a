/// The high four bits of H count records.
const RECORD_DONE: u8 = 16;

/// The registers A and H after a call.
#[derive(Clone, Copy, Debug, PartialEq, Eq, PartialOrd, Ord)]
pub struct Answer {
    pub a: u8,
    pub h: u8,
}

impl Answer {
    pub const SUCCESS: Answer = Answer { a: 0, h: 0 };

    pub const fn code(a: u8) -> Answer {
        Answer { a, h: 0 }
    }

    pub const fn extended(h: u8) -> Answer {
        Answer { a: 255, h }
    }

    /// This refusal, met after so many records of the call were done.
    pub fn after(self, done: u8) -> Answer {
        Answer {
            h: self.h + RECORD_DONE * done,
            ..self
        }
    }

    pub fn word(self) -> u32 {
        u32::from(self.a) + 256 * u32::from(self.h)
    }

    pub fn from_word(word: u32) -> Option<Answer> {
        let [a, h, 0, 0] = word.to_le_bytes() else {
            return None;
        };
        Some(Answer { a, h })
    }
}

/// A refused call. `why` tells apart the reasons that share one answer; it is for coverage only.
#[derive(Clone, Copy, Debug, PartialEq, Eq)]
pub struct Refusal {
    pub answer: Answer,
    pub why: &'static str,
}

pub fn code(a: u8, why: &'static str) -> Refusal {
    Refusal {
        answer: Answer::code(a),
        why,
    }
}

pub fn extended(h: u8, why: &'static str) -> Refusal {
    Refusal {
        answer: Answer::extended(h),
        why,
    }
}
