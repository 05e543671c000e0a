//! What the cases have reached, read from their bytes by rules of its own.

use super::{packs, pairs, Case, Outcome, What};
use crate::faults::{block_numbers, extent_number, image_faults, is_legal_name};
use reference::kind::Kind;
use reference::rule::Rule;
use std::collections::{BTreeMap, BTreeSet};
use std::fmt::Write;

/// How often each thing was met, of each kind of drive.
#[derive(Default)]
pub struct Coverage {
    cases: BTreeMap<What, u64>,
    met: BTreeMap<(What, String), u64>,
}

impl Coverage {
    pub fn cases(&self) -> u64 {
        self.cases.values().sum()
    }

    pub fn note(&mut self, case: &Case, outcome: &Outcome) {
        *self.cases.entry(case.what).or_default() += 1;
        let seen = match case.what {
            What::Salvage => seen_of_salvage(case, outcome),
            What::Pack => packs::seen(case, outcome),
            What::Same => pairs::seen(case, outcome),
        };
        for one in seen {
            *self.met.entry((case.what, one)).or_default() += 1;
        }
    }

    /// A line for each thing met.
    pub fn table(&self) -> String {
        let mut text = String::new();
        for ((what, one), count) in &self.met {
            // Writing to a String cannot fail.
            let _ = writeln!(text, "{count:>9}  {}: {one}", what.title());
        }
        text
    }

    /// What was not met of those that were asked for, and what was that cannot be.
    pub fn complaints(&self) -> Vec<String> {
        let asked: Vec<What> = self.cases.keys().copied().collect();
        let wanted: BTreeSet<(What, String)> = asked
            .into_iter()
            .flat_map(|what| wanted(what).into_iter().map(move |one| (what, one)))
            .collect();
        let met: BTreeSet<&(What, String)> = self.met.keys().collect();
        let missed = wanted.iter().filter(|one| !met.contains(one));
        let missed = missed.map(|(what, one)| format!("not met: {}: {one}", what.title()));
        let strange = met.iter().filter(|one| !wanted.contains(**one));
        let strange = strange.map(|(what, one)| format!("not to be: {}: {one}", what.title()));
        missed.chain(strange).collect()
    }
}

fn wanted(what: What) -> Vec<String> {
    let of_kind = |kind: Kind| match what {
        What::Salvage => wanted_of_salvage(kind),
        What::Pack => packs::wanted(kind),
        What::Same => pairs::wanted(),
    };
    let of_unknown = match what {
        What::Salvage | What::Same => vec!["unknown kind: 1".to_string()],
        What::Pack => vec!["unknown kind: 255/13".to_string()],
    };
    let known = Kind::ALL.into_iter().flat_map(|kind| {
        let told = move |one: String| format!("kind {}: {one}", kind.number());
        of_kind(kind).into_iter().map(told)
    });
    known.chain(of_unknown).collect()
}

fn strings(all: &[&str]) -> Vec<String> {
    all.iter().map(|one| one.to_string()).collect()
}

// ---- Salvage ----

const SALVAGED: [&str; 29] = [
    "1 for a length of the other kind",
    "1 for a length that no kind has",
    "1 for a length before 2",
    "2 for a report too short",
    "2 for a report too long",
    "2 for the other kind's report",
    "0 of a sound image",
    "0 of a damaged image",
    "0 with no entry left",
    "emptied for its user",
    "emptied for its name",
    "emptied for its ex",
    "emptied for its module",
    "emptied for its module, by CP/M's rule",
    "emptied for its count",
    "emptied for an earlier extent",
    "emptied for its missing extent 0",
    "emptied since its extent 0 was",
    "emptied first entry",
    "emptied last entry",
    "kept behind an emptied one of its extent",
    "zeroed: block 1",
    "zeroed: past the last block",
    "zeroed: named by an earlier entry",
    "zeroed: named inside the entry",
    "zeroed in the first entry",
    "zeroed in the last entry",
    "kept: block of an emptied entry before",
    "kept: a map with numbers out of range in an emptied entry",
];

fn wanted_of_salvage(kind: Kind) -> Vec<String> {
    let numbers = 0..=kind.numbers_per_entry();
    let reports = numbers.map(|zeroed| format!("report {zeroed}"));
    let mut all: Vec<String> = reports.chain(["report 255".to_string()]).collect();
    all.extend(strings(&SALVAGED));
    if kind == Kind::First {
        // With 256 blocks no byte is past the last, and 1 alone is out of range.
        all.push("256 blocks".to_string());
    }
    all
}

fn seen_of_salvage(case: &Case, outcome: &Outcome) -> BTreeSet<String> {
    let Some(kind) = Kind::told(case.kind) else {
        return BTreeSet::from([format!("unknown kind: {}", outcome.answer)]);
    };
    let (image, report) = (&case.buffers[0], case.buffers[1].len());
    let seen = match outcome.answer {
        0 => seen_of_salvaged(kind, case, outcome),
        answer => {
            let other_kinds = kind.other().blocks_of(image.len()).is_some();
            let why = match (answer, report.cmp(&kind.entries())) {
                (1, _) if other_kinds => "1 for a length of the other kind",
                (1, std::cmp::Ordering::Equal) => "1 for a length that no kind has",
                (1, _) => "1 for a length before 2",
                (2, _) if report == kind.other().entries() => "2 for the other kind's report",
                (2, std::cmp::Ordering::Less) => "2 for a report too short",
                (2, std::cmp::Ordering::Greater) => "2 for a report too long",
                _ => "another answer",
            };
            BTreeSet::from([why.to_string()])
        }
    };
    let told = |one: String| format!("kind {}: {one}", kind.number());
    seen.into_iter().map(told).collect()
}

/// The entries of an image before and after salvage.
struct Salvaged<'a> {
    kind: Kind,
    rule: Rule,
    blocks: usize,
    before: Vec<&'a [u8]>,
    after: Vec<&'a [u8]>,
}

fn seen_of_salvaged(kind: Kind, case: &Case, outcome: &Outcome) -> BTreeSet<String> {
    let (image, after) = (&case.buffers[0], &outcome.buffers[0]);
    let salvaged = Salvaged {
        kind,
        rule: Rule::told(case.rule),
        blocks: image.len() / kind.block(),
        before: image[..kind.directory()].chunks(32).collect(),
        after: after[..kind.directory()].chunks(32).collect(),
    };
    let mut seen: BTreeSet<String> = outcome.buffers[1]
        .iter()
        .map(|byte| format!("report {byte}"))
        .collect();
    let sound = image_faults((kind, Rule::told(case.rule)), image).is_empty();
    seen.insert(
        if sound {
            "0 of a sound image"
        } else {
            "0 of a damaged image"
        }
        .to_string(),
    );
    if salvaged.after.iter().all(|entry| entry[0] == 0xE5) {
        seen.insert("0 with no entry left".to_string());
    }
    if salvaged.blocks == 256 {
        seen.insert("256 blocks".to_string());
    }
    for slot in 0..kind.entries() {
        salvaged.note_entry(slot, &mut seen);
    }
    seen
}

fn is_same_extent(one: &[u8], other: &[u8]) -> bool {
    is_same_file(one, other) && extent_number(one) == extent_number(other)
}

fn is_same_file(one: &[u8], other: &[u8]) -> bool {
    one[0] == other[0] && (1..12).all(|i| (one[i] ^ other[i]) & 127 == 0)
}

fn why_bad(rule: Rule, entry: &[u8]) -> Option<&'static str> {
    let tests = [
        (entry[0] > 15, "emptied for its user"),
        (!is_legal_name(&entry[1..12]), "emptied for its name"),
        (entry[12] > 31, "emptied for its ex"),
        (entry[14] > 63, "emptied for its module"),
        (
            rule == Rule::Cpm22 && entry[14] > 15,
            "emptied for its module, by CP/M's rule",
        ),
        (entry[15] > 128, "emptied for its count"),
    ];
    tests.iter().find(|(is_so, _)| *is_so).map(|(_, why)| *why)
}

impl Salvaged<'_> {
    fn is_emptied(&self, slot: usize) -> bool {
        self.before[slot][0] != self.after[slot][0]
    }

    fn is_kept(&self, slot: usize) -> bool {
        self.after[slot][0] != 0xE5
    }

    fn note_entry(&self, slot: usize, seen: &mut BTreeSet<String>) {
        let mut note = |is_so: bool, what: &str| {
            if is_so {
                seen.insert(what.to_string());
            }
        };
        let last = self.kind.entries() - 1;
        if self.is_emptied(slot) {
            note(true, self.why_emptied(slot));
            note(slot == 0, "emptied first entry");
            note(slot == last, "emptied last entry");
            let wild = block_numbers(self.kind, self.after[slot]);
            let wild = wild.iter().any(|number| usize::from(*number) >= self.blocks);
            note(wild, "kept: a map with numbers out of range in an emptied entry");
        }
        if !self.is_kept(slot) {
            return;
        }
        let is_twin =
            |of: &usize| self.is_emptied(*of) && is_same_extent(self.before[*of], self.before[slot]);
        note(
            (0..slot).any(|of| is_twin(&of)),
            "kept behind an emptied one of its extent",
        );
        let is_heir = |number: &u16| *number != 0 && self.names_before(slot, *number, false);
        let heir = block_numbers(self.kind, self.after[slot]).iter().any(is_heir);
        note(heir, "kept: block of an emptied entry before");
        for why in self.why_zeroed(slot) {
            note(true, why);
            note(slot == 0, "zeroed in the first entry");
            note(slot == last, "zeroed in the last entry");
        }
    }

    fn why_emptied(&self, slot: usize) -> &'static str {
        let entry = self.before[slot];
        if let Some(why) = why_bad(self.rule, entry) {
            return why;
        }
        let is_good =
            |of: &usize| self.before[*of][0] != 0xE5 && why_bad(self.rule, self.before[*of]).is_none();
        if (0..slot)
            .filter(is_good)
            .any(|of| is_same_extent(self.before[of], entry))
        {
            return "emptied for an earlier extent";
        }
        let is_first =
            |of: usize| is_same_file(self.before[of], entry) && extent_number(self.before[of]) == 0;
        match (0..self.before.len()).any(is_first) {
            true => "emptied since its extent 0 was",
            false => "emptied for its missing extent 0",
        }
    }

    /// An entry before this one, kept or emptied, names the block after the salvage.
    fn names_before(&self, slot: usize, number: u16, kept: bool) -> bool {
        let is_one = |of: &usize| match kept {
            true => self.is_kept(*of),
            false => self.is_emptied(*of),
        };
        let names = |of: usize| block_numbers(self.kind, self.after[of]).contains(&number);
        (0..slot).filter(is_one).any(names)
    }

    fn why_zeroed(&self, slot: usize) -> Vec<&'static str> {
        let was = block_numbers(self.kind, self.before[slot]);
        let is = block_numbers(self.kind, self.after[slot]);
        let zeroed = was.into_iter().zip(is).filter(|(was, is)| was != is);
        let why = |(number, _): (u16, u16)| match number {
            1 => "zeroed: block 1",
            past if usize::from(past) >= self.blocks => "zeroed: past the last block",
            number if self.names_before(slot, number, true) => "zeroed: named by an earlier entry",
            _ => "zeroed: named inside the entry",
        };
        zeroed.map(why).collect()
    }
}
