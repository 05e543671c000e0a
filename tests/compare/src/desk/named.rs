//! Cases by name, on both kinds of drive: each edge of the rules once.

use super::{packs, pairs, Case, What};
use crate::build::{empty_image_of, image_of, put_entry, Entry};
use reference::kind::Kind;

/// Numbers that tell a rule: 1, and all others the other one.
const RULES: [u32; 6] = [0, 1, 2, 255, 256, 257];

pub struct Named {
    pub title: String,
    pub case: Case,
}

/// The blocks of the drives on which these cases are.
pub fn blocks(kind: Kind) -> usize {
    match kind {
        Kind::First => 40,
        Kind::Second => 300,
    }
}

fn highest(kind: Kind) -> u16 {
    match kind {
        Kind::First => u16::from(u8::MAX),
        Kind::Second => u16::MAX,
    }
}

pub fn cases(what: What) -> Vec<Named> {
    let of_kind = |kind| match what {
        What::Salvage => salvage(kind),
        What::Pack => packs::named(kind),
        What::Same => pairs::named(kind),
    };
    Kind::ALL.into_iter().flat_map(of_kind).collect()
}

// ---- Salvage ----

struct Salvages {
    kind: Kind,
    named: Vec<Named>,
}

fn salvage(kind: Kind) -> Vec<Named> {
    let mut all = Salvages {
        kind,
        named: Vec::new(),
    };
    all.sound_ones();
    all.by_each_rule();
    all.bad_in_themselves();
    all.twins();
    all.headless();
    all.numbers();
    all.repeats();
    all.ends();
    all.refused();
    all.named
}

fn file(text: &str) -> Entry {
    Entry::named(text).count(1)
}

impl Salvages {
    fn add(&mut self, title: &str, kind: u32, image: Vec<u8>, report: Vec<u8>) {
        self.named.push(Named {
            title: format!("salvage: {title}, kind {}", self.kind.number()),
            case: Case {
                what: What::Salvage,
                kind,
                rule: 0,
                buffers: vec![image, report],
            },
        });
    }

    fn image(&mut self, title: &str, image: Vec<u8>) {
        let report = vec![0xAA; self.kind.entries()];
        self.add(title, self.kind.number(), image, report);
    }

    fn entries(&mut self, title: &str, entries: &[Entry]) {
        let image = image_of(self.kind, blocks(self.kind), entries);
        self.image(title, image);
    }

    /// An entry with these numbers, from the first place on.
    fn with(&self, entry: Entry, numbers: &[u16]) -> Entry {
        let places = (0..).zip(numbers);
        places.fold(entry, |entry, (place, number)| {
            entry.block_of(self.kind, place, *number)
        })
    }

    fn sound_ones(&mut self) {
        self.entries("no file at all", &[]);
        let last = blocks(self.kind) as u16 - 1;
        let (one, other) = (self.with(file("A"), &[2, 0, last]), self.with(file("B"), &[3]));
        let later = self.with(file("A").extent(2_047).count(128), &[0, 4]);
        self.entries("a sound book", &[later, one, other.user(15).read_only()]);
        let mut image = empty_image_of(self.kind, blocks(self.kind));
        for slot in 0..self.kind.entries() {
            image[32 * slot + 1..32 * slot + 32].fill(slot as u8);
        }
        self.image("bytes behind an E5h are left as they are", image);
    }

    /// Modules that are good by one rule alone, by every number that tells a rule.
    fn by_each_rule(&mut self) {
        for (module, rule) in [15, 16, 63]
            .into_iter()
            .flat_map(|module| RULES.map(|rule| (module, rule)))
        {
            let later = self.with(file("A"), &[5, 6]).with(14, module);
            let image = image_of(
                self.kind,
                blocks(self.kind),
                &[file("A"), later, self.with(file("B"), &[6])],
            );
            self.image(&format!("module {module} by rule {rule}"), image);
            if let Some(last) = self.named.last_mut() {
                last.case.rule = rule;
            }
        }
    }

    /// The block that the bad entry names is then free for the next one.
    fn bad_in_themselves(&mut self) {
        let bad: [(&str, usize, u8); 12] = [
            ("user 16", 0, 16),
            ("user E4h", 0, 0xE4),
            ("user E6h", 0, 0xE6),
            ("user FFh", 0, 0xFF),
            ("a blank first", 1, b' '),
            ("a question mark", 4, b'?'),
            ("a question mark with its high bit", 4, b'?' | 128),
            ("31 in a name", 11, 31),
            ("127 in a name", 8, 127),
            ("ex 32", 12, 32),
            ("module 64", 14, 64),
            ("count 129", 15, 129),
        ];
        for (title, at, byte) in bad {
            let first = self.with(file("BAD"), &[5, 6]).with(at, byte);
            let second = self.with(file("GOOD"), &[6, 7]);
            self.entries(title, &[first, second]);
        }
        let good = [(0, 15), (1, b'~'), (4, 0xA0), (12, 31), (14, 63), (15, 128)];
        for (at, byte) in good {
            let entry = self.with(file("GOOD"), &[5, 6]).with(at, byte);
            self.entries(
                &format!("byte {at} is {byte}"),
                &[entry, file("GOOD"), file("G OD")],
            );
        }
    }

    fn twins(&mut self) {
        let one = self.with(file("A"), &[2]);
        let other = self.with(file("A").attribute(3).with(13, 9), &[3]);
        self.entries("a twin with other attributes", &[one, other]);
        self.entries("three alike", &[one, one, one]);
        self.entries("twins of two users", &[one, other.user(1)]);
        let later = self.with(file("A").extent(40), &[4]);
        self.entries("twins of a later extent", &[later, one, later]);
        self.entries(
            "ex and module exchanged",
            &[one, file("A").extent(1), file("A").extent(32)],
        );
        let bad = other.count(129);
        self.entries("an emptied entry is no earlier one", &[bad, one]);
        self.entries("an emptied entry and two more", &[bad, one, other]);
        self.entries("a bad twin behind a good one", &[one, bad]);
        // Extent 33 once as ex 33 of module 0, which is bad, and once as ex 1 of module 1.
        let odd = self.with(file("A").with(12, 33), &[5]);
        let even = self.with(file("A").extent(33), &[5]);
        self.entries("an extent number of a bad ex", &[one, odd, even]);
    }

    fn headless(&mut self) {
        let later = self.with(file("A").extent(1), &[2, 3]);
        let last = self.with(file("A").extent(2_047), &[4]);
        self.entries("a file without an extent 0", &[later]);
        let heirs = self.with(file("B"), &[3, 4, 5]);
        self.entries("its blocks are free for others", &[later, heirs, last]);
        self.entries("it is looked for in later entries", &[later, last, file("A")]);
        let bad = self.with(file("A"), &[5]).count(200);
        self.entries("its extent 0 is emptied", &[bad, later, last]);
        self.entries("its extent 0 is emptied behind it", &[later, last, bad]);
        self.entries(
            "its extent 0 is bad and there is another",
            &[bad, later, file("A")],
        );
        self.entries("its extent 0 is another user's", &[later, file("A").user(1)]);
        self.entries("its twins go too", &[later, later, last]);
        self.entries("its extent 0 is empty", &[file("A").user(0xE5), later]);
    }

    fn numbers(&mut self) {
        let (kind, count) = (self.kind, self.kind.numbers_per_entry());
        let n = blocks(kind) as u16;
        for number in [1, n, n + 1, highest(kind), n - 1, 2] {
            for place in [0, count - 1] {
                let entry = file("A").block_of(kind, place, number);
                self.entries(&format!("block {number} at place {place}"), &[entry]);
            }
        }
        for bad in 1..=count {
            let numbers: Vec<u16> = (0..count)
                .map(|place| if place < bad { 1 } else { 9 + place as u16 })
                .collect();
            self.entries(&format!("{bad} out of range"), &[self.with(file("A"), &numbers)]);
        }
        let mixed = self.with(file("A"), &[n, 3, 1, 3, n, 4]);
        self.entries("out of range and named before in one entry", &[mixed]);
        let first = self.with(file("A"), &[n]);
        self.entries(
            "a number out of range twice",
            &[first, self.with(file("B"), &[n, n])],
        );
        let gone = self.with(file("A"), &[n, 1, 7, 7]).user(16);
        self.entries("the map of an emptied entry stays", &[gone]);
        let low = self.with(file("A"), &[2, 258 % n, 3]);
        self.entries(
            "numbers that share a byte",
            &[low, self.with(file("B"), &[259 % n])],
        );
        let mut end = image_of(kind, kind.most_blocks(), &[]);
        put_entry(
            &mut end,
            0,
            self.with(file("A"), &[kind.most_blocks() as u16 - 1, 2]),
        );
        self.image("the longest drive's last block", end);
        let past = self.with(file("A"), &[kind.fewest_blocks() as u16, 2]);
        self.image(
            "the shortest drive",
            image_of(kind, kind.fewest_blocks(), &[past]),
        );
    }

    fn repeats(&mut self) {
        let count = self.kind.numbers_per_entry();
        for repeated in 1..count {
            let numbers: Vec<u16> = (0..count)
                .map(|place| 3 + place.saturating_sub(repeated) as u16)
                .collect();
            self.entries(
                &format!("{repeated} named inside"),
                &[self.with(file("A"), &numbers)],
            );
        }
        let numbers: Vec<u16> = (3..3 + count as u16).collect();
        for repeated in 1..=count {
            let entries = [
                self.with(file("A"), &numbers),
                self.with(file("B"), &numbers[..repeated]),
            ];
            self.entries(&format!("{repeated} named by another"), &entries);
        }
        let thrice = [file("A"), file("B"), file("C")].map(|entry| self.with(entry, &[5]));
        self.entries("named by three", &thrice);
        let last = self.with(file("A"), &[5]);
        let mut image = image_of(self.kind, blocks(self.kind), &[self.with(file("B"), &[6, 5])]);
        put_entry(&mut image, self.kind.entries() - 1, last);
        self.image("named by the first entry and the last", image);
        let zeros = [self.with(file("A"), &[0, 0, 5, 0]), self.with(file("B"), &[0, 0])];
        self.entries("none is named twice", &zeros);
        let n = blocks(self.kind) as u16;
        self.entries(
            "the first naming stays",
            &[self.with(file("A"), &[n, 4, 4]), self.with(file("B"), &[4, 5])],
        );
    }

    fn ends(&mut self) {
        let entries = self.kind.entries();
        for slot in [0, entries / 2 - 1, entries / 2, entries - 1] {
            let mut image = empty_image_of(self.kind, blocks(self.kind));
            put_entry(&mut image, slot, file("A").user(99));
            self.image(&format!("entry {slot} alone is bad"), image.clone());
            put_entry(&mut image, slot, self.with(file("A"), &[1, 4]));
            self.image(&format!("entry {slot} alone has a bad number"), image);
        }
        self.entries("all entries bad", &vec![file("A").user(77); entries]);
        self.entries("all entries alike", &vec![self.with(file("A"), &[2]); entries]);
        self.entries(
            "all entries without an extent 0",
            &vec![file("A").extent(3); entries],
        );
        let one = |slot: usize| self.with(file("A").extent(slot as u32), &[2]);
        let same_block: Vec<Entry> = (0..entries).map(one).collect();
        self.entries("one block for all entries", &same_block);
    }

    fn refused(&mut self) {
        let (kind, entries) = (self.kind, self.kind.entries());
        let bad = |blocks: usize| image_of(kind, blocks, &[file("A").user(99)]);
        let good = bad(blocks(kind));
        for length in [0, 1, entries - 1, entries + 1, kind.other().entries(), 1_024] {
            self.add(
                &format!("a report of {length}"),
                kind.number(),
                good.clone(),
                vec![7; length],
            );
        }
        let lengths = [
            0,
            1,
            2_048,
            3_071,
            3_073,
            256 * 1_024 + 1,
            257 * 1_024,
            256 * 2_048,
            4_097 * 2_048,
        ];
        for length in lengths {
            let image = vec![0x99; length];
            self.add(
                &format!("an image of {length}"),
                kind.number(),
                image.clone(),
                vec![7; entries],
            );
            self.add(
                &format!("an image of {length} and no report"),
                kind.number(),
                image,
                vec![],
            );
        }
        let other = kind.other().number();
        self.add("told as the other kind", other, good.clone(), vec![7; entries]);
        self.add(
            "told as the other kind, its report",
            other,
            good.clone(),
            vec![7; kind.other().entries()],
        );
        for unknown in [2, 255, 256, 257, u32::MAX] {
            self.add(
                &format!("told as kind {unknown}"),
                unknown,
                good.clone(),
                vec![7; entries],
            );
            self.add(
                &format!("told as kind {unknown}, no report"),
                unknown,
                good.clone(),
                vec![],
            );
        }
    }
}
