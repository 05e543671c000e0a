//! What a call did, told by the call and its answer alone. That an answer is 0 tells it of no call:
//! a run of records may have done some, and a search answers 0 to 3, or 255/0 with an effect.

use reference::calls::Numbers;
use reference::singly::is_run_function;

pub const SEARCHES: [u32; 2] = [17, 18];

const NO_MATCH: u32 = 255;

#[derive(Clone, Copy, Debug, PartialEq, Eq)]
pub enum Deed {
    /// All buffers are as they were.
    Refused,
    Done,
    /// A 33, 34 or 40 has done so many records: all, or those before a refusal.
    Records {
        done: u32,
        all: bool,
    },
    /// A search has found an entry, which is at this place of its directory record.
    Found(u8),
    /// A search has found none, and its caller's position says so.
    NoMatch,
}

impl Deed {
    pub fn of(function: u32, count: u32, answer: u32) -> Deed {
        if SEARCHES.contains(&function) {
            return Deed::of_search(answer);
        }
        match (is_run_function(function), answer) {
            (true, 0) => Deed::Records {
                done: count,
                all: true,
            },
            (false, 0) => Deed::Done,
            (true, refusal) if refusal >> 12 > 0 => Deed::Records {
                done: refusal >> 12,
                all: false,
            },
            _ => Deed::Refused,
        }
    }

    fn of_search(answer: u32) -> Deed {
        match answer {
            0..4 => Deed::Found(answer as u8),
            NO_MATCH => Deed::NoMatch,
            _ => Deed::Refused,
        }
    }

    pub fn of_call(numbers: Numbers, answer: u32) -> Deed {
        Deed::of(numbers.function, numbers.count, answer)
    }

    /// How many records a 33, 34 or 40 has done; 0 for the others.
    pub fn records(self) -> u32 {
        match self {
            Deed::Records { done, .. } => done,
            _ => 0,
        }
    }

    /// No refusal applied, of the call or of one of its records.
    pub fn is_accepted(self) -> bool {
        !matches!(self, Deed::Refused | Deed::Records { all: false, .. })
    }
}
