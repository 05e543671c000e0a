//! The functions for the desk where images come in: each is told a kind of drive and lent some buffers. Cases by
//! chance and by name, what watches over the reference, what they have reached, and the comparison of an engine with
//! it. Every byte of every buffer is compared after every case.

pub mod books;
pub mod cases;
pub mod coverage;
pub mod damaged;
#[cfg(feature = "linked")]
pub mod linked;
pub mod named;
pub mod packs;
pub mod pairs;
pub mod pipe;
pub mod watch;
pub mod wire;

use crate::step::Told;
use crate::table::Guarded;
use std::fmt::Write;

/// The most differing places that a report shows.
const SHOWN: usize = 12;

/// Which function is asked.
#[derive(Clone, Copy, Debug, PartialEq, Eq, PartialOrd, Ord)]
pub enum What {
    Salvage,
    Pack,
    Same,
}

impl What {
    pub const ALL: [What; 3] = [What::Salvage, What::Pack, What::Same];

    pub fn title(self) -> &'static str {
        match self {
            What::Salvage => "salvage",
            What::Pack => "pack",
            What::Same => "same",
        }
    }

    pub fn titled(title: &str) -> Option<What> {
        What::ALL.into_iter().find(|what| what.title() == title)
    }

    /// The buffers that it is lent, in order.
    pub fn buffers(self) -> &'static [&'static str] {
        match self {
            What::Salvage => &["image", "report"],
            What::Pack => &["image", "list", "packed"],
            What::Same => &["first", "second"],
        }
    }
}

/// A function with the kind and the rule that it is told and the buffers that it is lent. Salvage alone is told a rule;
/// of the others it is 0.
#[derive(Clone, Debug, PartialEq, Eq)]
pub struct Case {
    pub what: What,
    pub kind: u32,
    pub rule: u32,
    pub buffers: Vec<Vec<u8>>,
}

impl Case {
    pub fn told(&self) -> Told {
        Told {
            kind: self.kind,
            rule: self.rule,
        }
    }
}

/// What a case has come to.
#[derive(Clone, Debug, PartialEq, Eq)]
pub struct Outcome {
    pub answer: u32,
    /// A bit for each buffer whose guard bytes were overwritten.
    pub broken_guards: u8,
    pub buffers: Vec<Vec<u8>>,
}

/// Whatever serves the functions.
pub trait Desk {
    fn serve(&mut self, case: &Case) -> Result<Outcome, String>;
}

/// A desk of this process: a function on the buffers, which lie between guard bytes.
pub struct Local<F>(pub F);

impl<F: FnMut(What, Told, &mut [&mut [u8]]) -> u32> Desk for Local<F> {
    fn serve(&mut self, case: &Case) -> Result<Outcome, String> {
        let mut guarded: Vec<Guarded> = case.buffers.iter().map(|bytes| Guarded::new(bytes)).collect();
        let mut lent: Vec<&mut [u8]> = guarded.iter_mut().map(Guarded::data_mut).collect();
        let answer = (self.0)(case.what, case.told(), &mut lent);
        let broken = (0..).zip(&guarded).filter(|(_, buffer)| !buffer.guards_hold());
        Ok(Outcome {
            answer,
            broken_guards: broken.map(|(bit, _)| 1 << bit).sum(),
            buffers: guarded.iter().map(|buffer| buffer.data().to_vec()).collect(),
        })
    }
}

/// The reference on lent buffers.
pub fn by_reference(what: What, told: Told, buffers: &mut [&mut [u8]]) -> u32 {
    let Told { kind, rule } = told;
    match (what, buffers) {
        (What::Salvage, [image, report]) => reference::salvage(kind, rule, image, report),
        (What::Pack, [image, list, packed]) => reference::pack(kind, image, list, packed),
        (What::Same, [first, second]) => reference::same(kind, first, second),
        _ => unreachable!("a case has the buffers of its function"),
    }
}

pub fn on_reference(case: &Case) -> Outcome {
    let served = Local(by_reference).serve(case);
    served.expect("a desk of this process always serves")
}

/// What is different, in words; None if nothing is.
pub fn difference(case: &Case, expected: &Outcome, got: &Result<Outcome, String>) -> Option<String> {
    let got = match got {
        Err(trouble) => return Some(format!("{trouble}\n")),
        Ok(got) if got == expected => return None,
        Ok(got) => got,
    };
    let mut text = format!(
        "{} of kind {}, rule {}: answer {}, expected {}\n",
        case.what.title(),
        case.kind,
        case.rule,
        got.answer,
        expected.answer
    );
    if got.broken_guards != 0 {
        // Writing to a String cannot fail.
        let _ = writeln!(text, "  guards broken: {:08b}", got.broken_guards);
    }
    for (i, name) in case.what.buffers().iter().enumerate() {
        text.push_str(&differing_bytes(name, &expected.buffers[i], &got.buffers[i]));
    }
    Some(text)
}

fn differing_bytes(name: &str, expected: &[u8], got: &[u8]) -> String {
    let pairs = expected.iter().zip(got).enumerate();
    let differing: Vec<(usize, (&u8, &u8))> = pairs.filter(|(_, (one, other))| one != other).collect();
    let mut text = String::new();
    for (at, (expected, got)) in differing.iter().take(SHOWN) {
        let _ = writeln!(text, "  {name} at {at}: {got:02X}, expected {expected:02X}");
    }
    if differing.len() > SHOWN {
        let _ = writeln!(text, "  {name}: {} bytes differ in all", differing.len());
    }
    text
}
