//! Makes sessions at random from a seed: a drive, a list, and calls that run on, with damage,
//! wrong lengths and wild numbers in between.

use crate::build::{empty_image_of, place_start, Entry, Fcb, LIST, POSITIONS, RULE};
use crate::coverage::{Coverage, Half, FUNCTIONS};
use crate::damage::{break_directory, break_list, break_several, break_vector};
use crate::deed::SEARCHES;
use crate::faults::{self, check_answer, vector_length, ImageRule, Item, ListRule, VectorRule};
use crate::hints::{names_in, SLOTS};
use crate::history::blocks_of_groups;
use crate::named::{self, Case};
use crate::random::Random;
use crate::stage::{Made, Stage};
use crate::step::{changes, put_back, Step, Told};
use reference::calls::{Numbers, DMA_LENGTH, MOST_RECORDS};
use reference::kind::Kind;
use reference::program::{CALL_MARK, START_MARK};
use reference::rule::Rule;
use reference::singly::is_run_function;
use std::collections::BTreeSet;

const NAMES: [&[u8; 11]; 8] = [
    b"ORDERS  DAT",
    b"ORDERS  DAU",
    b"STOCK      ",
    b"A          ",
    b"~~~~~~~~~~~",
    b"!  x   @ yz",
    b"ordersxxdat",
    b"QRDERS  DAT",
];

const ILLEGAL: [&[u8; 11]; 6] = [
    b" RDERS  DAT",
    b"ORDERS  DA?",
    b"?RDERS  DAT",
    b"ORD\x1fRS  DAT",
    b"ORDERS \x7fDAT",
    b"\0\0\0\0\0\0\0\0\0\0\0",
];

/// Records at the edges of blocks, extents and modules.
const EDGE_RECORDS: [u32; 33] = [
    0, 1, 6, 7, 8, 9, 15, 16, 17, 31, 32, 33, 111, 112, 119, 120, 127, 128, 129, 135, 136, 4_080, 4_088,
    4_095, 4_096, 4_097, 8_176, 8_191, 262_015, 262_016, 262_128, 262_135, 262_143,
];

const EXTENTS: [u32; 7] = [1, 2, 31, 32, 33, 63, 511];

/// Numbers that tell the rule of MP/M II.
const NO_RULES: [u32; 6] = [0, 2, 255, 256, 257, u32::MAX];

const WEIGHTS: [(u32, usize); 16] = [
    (15, 15),
    (16, 4),
    (17, 7),
    (18, 11),
    (19, 6),
    (22, 9),
    (23, 6),
    (33, 10),
    (34, 14),
    (35, 5),
    (40, 12),
    (41, 10),
    (42, 15),
    (43, 5),
    (46, 3),
    (143, 1),
];

/// So many sessions in a hundred have a drive of one slot.
const OF_ONE_SLOT: usize = 10;

/// Records of a file whose locks fall into one slot: their numbers are the same but for multiples of 256.
const RECORDS_OF_ONE_SLOT: [u32; 3] = [0, 256, 4_096];

/// The rules that are broken more often there: what finds it looks in the slot, but for the block.
const DIRECTORY_RULES_OF_SLOTS: [ImageRule; 3] = [
    ImageRule::BlockTwice,
    ImageRule::ExtentTwice,
    ImageRule::ExtentZero,
];
const LIST_RULES_OF_SLOTS: [ListRule; 3] = [
    ListRule::OneOpenPerFile,
    ListRule::ModesBeside,
    ListRule::LockTwice,
];

/// Numbers that tell no kind of drive.
const UNKNOWN_KINDS: [u32; 7] = [2, 3, 255, 256, 257, 1 << 31, u32::MAX];

/// Who takes part in a session.
struct Cast {
    users: [u8; 16],
    processes: Vec<u8>,
    names: Vec<[u8; 11]>,
    /// Processes that share files from the beginning and get in each other's way.
    lively: bool,
    /// The slot of the engine's (`hints.rs`) into which the names fall, where all do.
    slot: Option<usize>,
}

impl Cast {
    /// The user of the first process.
    fn first_user(&self) -> u8 {
        self.users[usize::from(self.processes[0])]
    }
}

/// An open or a lock of the list as it stands.
#[derive(Clone, Copy)]
struct Held {
    place: u8,
    process: u8,
    name: [u8; 11],
    mode: u8,
    record: u32,
}

/// The first record of a call, and how many come before the one that it may have to stop at.
#[derive(Clone, Copy)]
struct Aim {
    first: u32,
    before: u32,
}

/// Who calls, about which file and, where it matters, which records.
struct Target {
    process: u8,
    name: [u8; 11],
    aim: Option<Aim>,
}

pub struct Generator {
    random: Random,
    stage: Stage,
    /// The kind of the session's drive.
    kind: Kind,
    /// The rule of its list.
    rule: Rule,
}

impl Generator {
    pub fn new(seed: u64) -> Generator {
        Generator {
            random: Random::new(seed),
            stage: Stage::default(),
            kind: Kind::First,
            rule: Rule::MpmII,
        }
    }

    pub fn coverage(&self) -> &Coverage {
        &self.stage.coverage
    }

    /// What the reference did that it should not have.
    pub fn faults(&self) -> &[String] {
        self.stage.faults()
    }

    /// A named case as a session.
    pub fn named_case(&mut self, case: &Case) -> Vec<Made> {
        named::play(case, &mut self.stage, &mut self.random);
        self.stage.take_made()
    }

    /// All named cases.
    pub fn named(&mut self) -> Vec<(String, Vec<Made>)> {
        named::cases()
            .iter()
            .map(|case| (case.title(), self.named_case(case)))
            .collect()
    }

    /// One session on a drive of its own.
    pub fn session(&mut self) -> Vec<Made> {
        let kind = match self.random.chance(65) {
            true => Kind::First,
            false => Kind::Second,
        };
        self.session_of(kind)
    }

    /// One session on a drive of this kind.
    pub fn session_of(&mut self, kind: Kind) -> Vec<Made> {
        self.kind = kind;
        let slot = self.random.chance(OF_ONE_SLOT).then(|| self.random.below(SLOTS));
        let blocks = match (kind, slot) {
            (Kind::First, Some(_)) => self.random.between(12, 48),
            (Kind::First, None) => self.blocks_of_first_kind(),
            (Kind::Second, _) => self.blocks_of_second_kind(),
        };
        self.session_on(blocks, slot);
        self.stage.take_made()
    }

    fn blocks_of_first_kind(&mut self) -> usize {
        match self.random.below(100) {
            0..80 => self.random.between(3, 12),
            80..92 => self.random.between(3, 64),
            92..96 => self.random.between(3, 255),
            _ => 256,
        }
    }

    /// Mostly few, so that they can be used up; 1,026 are all that the directory can name.
    fn blocks_of_second_kind(&mut self) -> usize {
        match self.random.below(100) {
            0..40 => 257,
            40..55 => 258,
            55..86 => self.random.between(259, 520),
            86..90 => self.random.pick(&[1_025, 1_026]),
            90..95 => 1_027,
            95..97 => self.random.between(1_028, 4_095),
            _ => 4_096,
        }
    }

    /// A drive that the program `mpmcalls` takes, and an input of calls upon it.
    pub fn program_run(&mut self) -> (Vec<u8>, Vec<u8>) {
        self.stage.begin();
        let cast = self.cast();
        self.kind = Kind::First;
        self.choose_rule();
        let most_blocks = self.random.pick(&[6, 12, 12, 64]);
        let blocks = self.random.between(3, most_blocks);
        let mut image = self.drive(&cast, blocks, 0xE5);
        if self.random.chance(10) {
            self.spoil(&mut image);
        }
        self.begin_session(&cast, &image, 0xE5);
        for _ in 0..self.random.below(40) {
            let step = match self.random.chance(4) {
                true => self.a_call_with_wild_byte(&cast),
                false => self.a_call(&cast),
            };
            self.stage.serve(step);
        }
        let made = self.stage.take_made();
        (
            image,
            made.iter().flat_map(|made| program_record(&made.step)).collect(),
        )
    }

    fn spoil(&mut self, image: &mut Vec<u8>) {
        let rule = self.random.pick(&ImageRule::ALL);
        match break_directory(rule, (self.kind, self.rule), image, &mut self.random) {
            Some(directory) => image[..directory.len()].copy_from_slice(&directory),
            None => image.truncate(self.random.below(image.len())),
        }
    }

    fn a_call_with_wild_byte(&mut self, cast: &Cast) -> Step {
        let mut step = self.a_call(cast);
        if let Step::Call { numbers, .. } = &mut step {
            let wild = u32::from(self.random.byte());
            match self.random.below(3) {
                0 => numbers.function = wild,
                1 => numbers.process = wild,
                _ => numbers.count = wild,
            }
        }
        step
    }

    fn choose_rule(&mut self) {
        self.rule = match self.random.chance(65) {
            true => Rule::MpmII,
            false => Rule::Cpm22,
        };
    }

    /// The session's rule by its number, and now and then by another or another rule.
    fn told(&mut self, kind: u32) -> Told {
        let rule = match self.random.chance(90) {
            true => self.rule.number(),
            false => self.random.pick(&[0, 1, 2, 256, 257, u32::MAX]),
        };
        Told { kind, rule }
    }

    /// The drive as its list has it judged.
    fn own_told(&self) -> Told {
        Told {
            kind: self.kind.number(),
            rule: self.rule.number(),
        }
    }

    fn last_extent(&self) -> u32 {
        self.rule.record_limit() / 128 - 1
    }

    fn session_on(&mut self, blocks: usize, slot: Option<usize>) {
        self.choose_rule();
        self.stage.begin();
        let cast = match slot {
            Some(slot) => self.cast_of_one_slot(slot),
            None => self.cast(),
        };
        let fill = self.random.pick(&[0xE5, 0, 0x5A]);
        let image = self.drive(&cast, blocks, fill);
        self.begin_session(&cast, &image, fill);
        for _ in 0..self.random.between(40, 160) {
            self.act(&cast);
        }
    }

    fn begin_session(&mut self, cast: &Cast, image: &[u8], fill: u8) {
        self.stage.set_image(image, fill);
        let length = LIST;
        let fill = self.random.byte();
        self.stage.serve(Step::List { length: 0, fill });
        self.stage.serve(Step::List { length, fill });
        self.begin_vector();
        self.start(cast);
        if cast.lively {
            self.share_files(cast);
        }
        if cast.slot.is_some() {
            self.lock_one_slot();
        }
    }

    /// A buffer of any content, and the vector built in it.
    fn begin_vector(&mut self) {
        let length = vector_length(self.kind);
        let fill = self.random.pick(&[0, 0xFF, 0xA5]);
        self.stage.serve(Step::Vector { length: 0, fill });
        self.stage.serve(Step::Vector { length, fill });
        let told = self.own_told();
        self.stage.serve(Step::Build { told });
    }

    /// Every process opens every file unlocked, the first one making those that are not there.
    fn share_files(&mut self, cast: &Cast) {
        for name in &cast.names {
            for (number, &process) in cast.processes.iter().enumerate() {
                let unlocked = Fcb::of(*name).unlocked();
                self.plain_call(process, 15, unlocked);
                if number == 0 {
                    self.plain_call(process, 22, unlocked);
                    let record = self.edge_record();
                    self.plain_call(process, 34, unlocked.record(record));
                }
            }
        }
    }

    /// Whoever has a file open locks some of its records that fall into one slot.
    fn lock_one_slot(&mut self) {
        for open in self.opens() {
            for record in RECORDS_OF_ONE_SLOT {
                if self.random.chance(60) {
                    let fcb = Fcb::of(open.name).unlocked().record(record);
                    self.call_with(open.process, 42, fcb, vec![open.place, 0]);
                }
            }
        }
    }

    fn plain_call(&mut self, process: u8, function: u32, fcb: Fcb) {
        self.call_with(process, function, fcb, vec![process; DMA_LENGTH]);
    }

    /// The DMA is filled up with zeros.
    fn call_with(&mut self, process: u8, function: u32, fcb: Fcb, mut dma: Vec<u8>) {
        dma.resize(DMA_LENGTH, 0);
        let numbers = Numbers {
            kind: self.kind.number(),
            function,
            process: u32::from(process),
            count: 1,
        };
        self.stage.serve(Step::Call {
            numbers,
            fcb: fcb.0.to_vec(),
            dma,
        });
    }

    fn cast(&mut self) -> Cast {
        let lively = self.random.chance(60);
        let mut users = [0; 16];
        if self.random.chance(if lively { 15 } else { 50 }) {
            let some = [0, self.random.below(16) as u8, 15];
            users = std::array::from_fn(|_| self.random.pick(&some));
        }
        let mut processes: Vec<u8> = (0..16).collect();
        self.random.shuffle(&mut processes);
        processes.truncate(self.random.between(2, 4));
        let mut names: Vec<[u8; 11]> = NAMES.iter().map(|name| **name).collect();
        self.random.shuffle(&mut names);
        names.truncate(match lively {
            true => self.random.between(1, 2),
            false => self.random.between(2, 4),
        });
        Cast {
            users,
            processes,
            names,
            lively,
            slot: None,
        }
    }

    fn cast_of_one_slot(&mut self, slot: usize) -> Cast {
        let cast = self.cast();
        let number = self.random.between(2, 4);
        Cast {
            names: self.names_in(slot, (cast.first_user(), 0), number),
            lively: self.random.chance(85),
            slot: Some(slot),
            ..cast
        }
    }

    /// Names that differ from the first byte on, or late.
    fn names_in(&mut self, slot: usize, of: (u8, u32), number: usize) -> Vec<[u8; 11]> {
        let stem: &[u8] = self.random.pick(&[b"", b"ORD", b"ORDERS"]);
        names_in(slot, of, stem, number, &mut self.random)
    }

    fn start(&mut self, cast: &Cast) {
        let capacity = match cast.lively {
            true if cast.slot.is_some() => self.random.pick(&[24, 40, 64]),
            true => self.random.pick(&[4, 5, 6, 8, 10, 16, 24, 40, 64]),
            false => self.random.pick(&[1, 2, 3, 4, 5, 6, 8, 16, 40, 64]),
        };
        let open_limit = self.random.pick(&[1, 2, 2, 3, 4, 64]);
        let lock_limit = self.random.pick(&[1, 2, 3, 4, 15, 16, 17, 64]);
        self.stage.serve(Step::Start {
            kind: self.kind.number(),
            numbers: [capacity, open_limit, lock_limit, self.rule.number()],
            users: cast.users.to_vec(),
        });
    }

    fn drive(&mut self, cast: &Cast, blocks: usize, fill: u8) -> Vec<u8> {
        let mut image = empty_image_of(self.kind, blocks);
        if fill != 0xE5 {
            image[self.kind.directory()..].fill(fill);
        }
        if self.random.chance(60) {
            self.spoil_unread_bytes(&mut image);
        }
        match cast.slot {
            Some(slot) => self.add_files_of_one_slot(slot, cast, &mut image),
            None if self.random.chance(70) => self.add_files(cast, &mut image),
            None => {}
        }
        if self.random.chance(30) {
            self.add_small_files(cast, &mut image);
        }
        // The larger drives run out of blocks and entries only where both are seen to here.
        let (used_up, crowded) = match self.kind {
            Kind::First => (25, 30),
            Kind::Second => (45, 50),
        };
        if self.random.chance(used_up) {
            self.use_up_blocks(&mut image);
        }
        if self.random.chance(crowded) {
            self.crowd(&mut image);
        }
        image
    }

    /// Empty entries need only their first byte.
    fn spoil_unread_bytes(&mut self, image: &mut [u8]) {
        for entry in image[..self.kind.directory()].chunks_mut(32) {
            let byte = self.random.byte();
            entry[1..].fill(byte);
        }
    }

    fn empty_slots(&mut self, image: &[u8]) -> Vec<usize> {
        let entries = 0..self.kind.entries();
        let mut slots: Vec<usize> = entries.filter(|slot| image[32 * slot] == 0xE5).collect();
        if self.random.chance(50) {
            self.random.shuffle(&mut slots);
        }
        slots
    }

    fn add_files(&mut self, cast: &Cast, image: &mut [u8]) {
        let mut slots = self.empty_slots(image).into_iter();
        let mut free = self.free_blocks(image);
        self.random.shuffle(&mut free);
        let users: BTreeSet<u8> = cast
            .processes
            .iter()
            .map(|&process| cast.users[usize::from(process)])
            .collect();
        for user in users {
            for name in &cast.names {
                if self.random.chance(40) {
                    continue;
                }
                for extent in self.some_extents() {
                    let entry = self.an_entry(user, *name, extent, &mut free);
                    let Some(slot) = slots.next() else {
                        return;
                    };
                    image[32 * slot..32 * slot + 32].copy_from_slice(&entry.0);
                }
            }
        }
    }

    /// The cast's files, with records whose locks fall into one slot too; and others of which extent 0 or a later one
    /// falls there.
    fn add_files_of_one_slot(&mut self, slot: usize, cast: &Cast, image: &mut [u8]) {
        let user = cast.first_user();
        let mut free = self.free_blocks(image);
        let mut entries: Vec<Entry> = Vec::new();
        for name in &cast.names {
            for record in RECORDS_OF_ONE_SLOT {
                let block = free.pop().unwrap_or(0);
                let entry = Entry::of(user, *name, record / 128).count(128);
                entries.push(entry.block_of(self.kind, 0, block));
            }
        }
        let others = self.random.below((self.kind.entries() - entries.len()) / 3);
        for extent in [0, self.an_extent()] {
            let mut names = self.names_in(slot, (user, extent), others);
            names.retain(|name| !cast.names.contains(name));
            for name in names {
                let extents = BTreeSet::from([0, extent]);
                entries.extend(extents.iter().map(|extent| Entry::of(user, name, *extent)));
            }
        }
        self.random.shuffle(&mut entries);
        for (place, entry) in self.empty_slots(image).into_iter().zip(entries) {
            image[32 * place..32 * place + 32].copy_from_slice(&entry.0);
        }
    }

    /// Files without records, for searches to go along.
    fn add_small_files(&mut self, cast: &Cast, image: &mut [u8]) {
        let process = self.random.pick(&cast.processes);
        let user = cast.users[usize::from(process)];
        let slots = self.empty_slots(image);
        let number = self.random.between(1, 20);
        for (number, slot) in (0..number as u8).zip(slots) {
            let mut entry = Entry::of(user, *b"SMALL   LST", 0);
            entry.0[6] = b'A' + number;
            if self.random.chance(40) {
                self.add_high_bits(&mut entry.0[1..12]);
            }
            image[32 * slot..32 * slot + 32].copy_from_slice(&entry.0);
        }
    }

    /// Extent 0, which a file must have, and perhaps others.
    fn some_extents(&mut self) -> BTreeSet<u32> {
        let mut extents = BTreeSet::from([0]);
        let last = self.last_extent();
        if self.random.chance(10) {
            extents.insert(last);
        }
        while self.random.chance(35) {
            extents.insert(self.an_extent());
        }
        extents
    }

    /// A later extent, at an edge of what there is by the session's rule.
    fn an_extent(&mut self) -> u32 {
        let last = self.last_extent();
        match self.random.below(10) {
            0 => last,
            1 => last - 1,
            _ => self.random.pick(&EXTENTS),
        }
    }

    /// A record at the edge of a block, an extent or a module; those at the end of a file are of the session's rule.
    fn edge_record(&mut self) -> u32 {
        let record = self.random.pick(&EDGE_RECORDS);
        match record >= 262_144 - 4_096 {
            true => self.rule.record_limit() - (262_144 - record),
            false => record,
        }
    }

    fn an_entry(&mut self, user: u8, name: [u8; 11], extent: u32, free: &mut Vec<u16>) -> Entry {
        let mut entry = Entry::of(user, name, extent)
            .with(13, self.random.byte())
            .count(self.random.below(129) as u8);
        if self.random.chance(40) {
            for at in 1..12 {
                entry.0[at] |= self.random.byte() & 128;
            }
        }
        if !self.random.chance(15) {
            entry.0[9] &= 127;
        }
        let indices: BTreeSet<usize> = self.some_blocks().into_iter().collect();
        for index in indices {
            entry = entry.block_of(self.kind, index, free.pop().unwrap_or(0));
        }
        entry
    }

    /// Places in a map: a few here and there, or the first or last ones, for runs to go along.
    fn some_blocks(&mut self) -> Vec<usize> {
        let last = self.kind.numbers_per_entry() - 1;
        match self.random.below(10) {
            0..3 => vec![last - 1, last],
            3 => vec![0, 1, 2],
            4 => vec![0, 1, last - 1, last],
            _ => [0, 1, self.random.below(last + 1), last]
                .into_iter()
                .filter(|_| self.random.chance(45))
                .collect(),
        }
    }

    fn free_blocks(&self, image: &[u8]) -> Vec<u16> {
        let groups = blocks_of_groups(self.kind, image);
        let used: BTreeSet<u16> = groups.iter().map(|(_, block)| *block).collect();
        let blocks = image.len() / self.kind.block();
        (2..blocks as u16).filter(|block| !used.contains(block)).collect()
    }

    /// Leaves at most three blocks free, or where the entries are too few for that, as many as
    /// they cannot name. On larger drives of the first kind nothing is done.
    fn use_up_blocks(&mut self, image: &mut [u8]) {
        const SPARED_ENTRIES: usize = 6;
        let mut free = self.free_blocks(image);
        if self.random.chance(50) {
            self.random.shuffle(&mut free);
        }
        let leave = self.random.pick(&[0, 0, 1, 2, 3]);
        free.truncate(free.len().saturating_sub(leave));
        let slots = self.empty_slots(image);
        if self.kind == Kind::First && free.len() > 16 {
            return;
        }
        let entries = free.chunks(self.kind.numbers_per_entry());
        let slots = slots.iter().skip(SPARED_ENTRIES);
        for ((extent, blocks), slot) in (0..).zip(entries).zip(slots) {
            let mut entry = Entry::of(7, *b"HOARD   XXX", extent);
            for (index, block) in blocks.iter().enumerate() {
                entry = entry.block_of(self.kind, index, *block);
            }
            image[32 * slot..32 * slot + 32].copy_from_slice(&entry.0);
        }
    }

    /// Leaves at most two entries empty.
    fn crowd(&mut self, image: &mut [u8]) {
        let slots = self.empty_slots(image);
        let leave = self.random.below(3);
        for (extent, slot) in slots.into_iter().skip(leave).enumerate() {
            let entry = Entry::of(7, *b"FILLER  XXX", extent as u32);
            image[32 * slot..32 * slot + 32].copy_from_slice(&entry.0);
        }
    }

    fn act(&mut self, cast: &Cast) {
        match self.random.below(100) {
            0..2 => self.with_damaged_directory(cast),
            2..4 => self.with_damaged_list(cast),
            4 => self.with_wrong_image_length(cast),
            5 => self.with_wrong_list_length(cast),
            6 => self.with_wrong_length(cast),
            7..9 => self.with_wild_number(cast),
            9..11 => self.look(cast),
            11 => self.check(),
            12 => self.shuffle_places(),
            13 => self.start_again(cast),
            14..16 => self.with_stray_bytes(cast),
            16 => self.with_several_faults(cast),
            17 => self.with_moved_positions(cast),
            18..20 => self.with_wrong_bit(cast),
            20 => self.with_wrong_vector_length(cast),
            21 => self.build_again(),
            _ => self.call(cast),
        }
    }

    fn check(&mut self) {
        let kind = match self.random.chance(80) {
            true => self.kind.number(),
            false => self.wrong_kind(),
        };
        let told = self.told(kind);
        self.stage.serve(Step::Check { told });
    }

    /// The other kind, or none at all.
    fn wrong_kind(&mut self) -> u32 {
        match self.random.chance(50) {
            true => self.kind.other().number(),
            false => self.random.pick(&UNKNOWN_KINDS),
        }
    }

    fn call(&mut self, cast: &Cast) {
        let step = self.a_call(cast);
        self.stage.serve(step);
    }

    fn a_call(&mut self, cast: &Cast) -> Step {
        let function = self.function();
        self.a_call_of(function, cast)
    }

    fn function(&mut self) -> u32 {
        let total = WEIGHTS.iter().map(|(_, weight)| weight).sum();
        let mut at = self.random.below(total);
        for (function, weight) in WEIGHTS {
            if at < weight {
                return function;
            }
            at -= weight;
        }
        46
    }

    fn a_call_of(&mut self, function: u32, cast: &Cast) -> Step {
        if SEARCHES.contains(&function) {
            return self.a_search(function, cast);
        }
        let Target { process, name, aim } = self.target(function, cast);
        let user = cast.users[usize::from(process)];
        let open = self
            .opens()
            .into_iter()
            .find(|open| open.process == process && open.name == name);
        let aim = aim.unwrap_or_else(|| self.aim(function, user, &name, cast));
        let record = aim.first;
        let count = match is_run_function(function) {
            true => self.count_of_run(aim.before),
            false => self.count(),
        };
        let fcb = self.fcb(function, name, record, open, cast);
        let mut dma = self.dma(function, count);
        match (function, open) {
            (42 | 43, Some(open)) => self.put_file_id(&mut dma, open),
            (41, _) => self.put_tested_record(&mut dma, user, &name, record),
            _ => {}
        }
        let numbers = Numbers {
            kind: self.kind.number(),
            function,
            process: u32::from(process),
            count,
        };
        Step::Call { numbers, fcb, dma }
    }

    /// Next is mostly asked by a process that has a search under way; where none has, one begins.
    fn a_search(&mut self, function: u32, cast: &Cast) -> Step {
        let under_way = self.processes_searching();
        let process = self.process(cast);
        if function == 17 || self.random.chance(20) {
            return self.a_search_by(process, function, cast);
        }
        match self.random.pick_any(&under_way) {
            Some(process) => self.a_search_by(process, 18, cast),
            None => self.a_search_by(process, 17, cast),
        }
    }

    fn a_search_by(&mut self, process: u8, function: u32, cast: &Cast) -> Step {
        let name = self.pattern(cast.users[usize::from(process)], cast);
        let record = self.random.below(300) as u32;
        let mut fcb = self.fcb(function, name, record, None, cast);
        match self.random.below(100) {
            0..55 => fcb[12] = b'?',
            55..65 => fcb[12] = self.random.pick(&[b'?' | 128, 0, 1, 31]),
            _ => {}
        }
        let count = self.count();
        let numbers = Numbers {
            kind: self.kind.number(),
            function,
            process: u32::from(process),
            count,
        };
        let dma = self.dma(function, count);
        Step::Call { numbers, fcb, dma }
    }

    fn processes_searching(&self) -> Vec<u8> {
        let list = self.stage.list();
        if list.len() != LIST {
            return Vec::new();
        }
        let positions = (0..).zip(&list[POSITIONS]);
        let end = self.kind.entries();
        let under_way = positions.filter(|(_, position)| usize::from(**position) < end);
        under_way.map(|(process, _)| process).collect()
    }

    /// What to search for: all, the name of some file with marks in some places, or anything else.
    fn pattern(&mut self, user: u8, cast: &Cast) -> [u8; 11] {
        let mut name = match self.random.below(100) {
            0..45 => return [b'?'; 11],
            45..75 => self.a_name_there(user).unwrap_or(cast.names[0]),
            75..90 => self.random.pick(&cast.names),
            90..95 => *self.random.pick(&ILLEGAL),
            _ => std::array::from_fn(|_| self.random.byte()),
        };
        let marks = self.random.pick(&[0, 1, 1, 2, 5, 10]);
        for _ in 0..marks {
            name[self.random.below(11)] = self.random.pick(b"?????*");
        }
        name
    }

    /// The name of some entry of the user.
    fn a_name_there(&mut self, user: u8) -> Option<[u8; 11]> {
        if self.has_no_directory() {
            return None;
        }
        let names: Vec<[u8; 11]> = faults::used_entries(self.kind, self.stage.image())
            .filter(|entry| entry[0] == user)
            .map(|entry| std::array::from_fn(|i| entry[1 + i] & 127))
            .collect();
        self.random.pick_any(&names)
    }

    fn target(&mut self, function: u32, cast: &Cast) -> Target {
        let is_of_records = matches!(function, 33 | 34 | 40..=43);
        if is_of_records && self.random.chance(35) {
            if let Some(target) = self.contested_record(function, cast) {
                return target;
            }
        }
        if (is_of_records || function == 16) && self.random.chance(85) {
            let opens = self.opens();
            if let Some(open) = self.random.pick_any(&opens) {
                return Target {
                    process: open.process,
                    name: open.name,
                    aim: None,
                };
            }
        }
        let process = self.process(cast);
        Target {
            process,
            name: self.name_for(function, process, cast),
            aim: None,
        }
    }

    /// A record that is locked, or one before it, for its holder or for a rival.
    fn contested_record(&mut self, function: u32, cast: &Cast) -> Option<Target> {
        let locks = self.locks();
        let lock = self.random.pick_any(&locks)?;
        let user = |process: u8| cast.users[usize::from(process)];
        let rivals: Vec<Held> = self
            .opens()
            .into_iter()
            .filter(|open| open.process != lock.process && open.name == lock.name)
            .filter(|open| user(open.process) == user(lock.process))
            .collect();
        let rival = self.random.pick_any(&rivals).filter(|_| self.random.chance(60));
        let before = match is_run_function(function) {
            true => self.records_before(),
            false => self.random.pick(&[0, 0, 0, 1, 2]),
        };
        Some(Target {
            process: rival.map_or(lock.process, |rival| rival.process),
            name: lock.name,
            aim: Some(aim_at(lock.record, before)),
        })
    }

    fn process(&mut self, cast: &Cast) -> u8 {
        match self.random.chance(97) {
            true => self.random.pick(&cast.processes),
            false => self.random.below(16) as u8,
        }
    }

    fn count(&mut self) -> u32 {
        match self.random.below(100) {
            0..60 => 1,
            60..75 => 2,
            75..82 => MOST_RECORDS,
            82 => 0,
            83 => MOST_RECORDS + 1,
            _ => self.random.between(1, MOST_RECORDS as usize) as u32,
        }
    }

    /// Mostly enough records to meet the one after those before it.
    fn count_of_run(&mut self, before: u32) -> u32 {
        match self.random.below(100) {
            0..20 => self.count(),
            20..40 => MOST_RECORDS,
            _ => self.random.between(before as usize + 1, MOST_RECORDS as usize) as u32,
        }
    }

    fn records_before(&mut self) -> u32 {
        self.random.below(MOST_RECORDS as usize) as u32
    }

    fn opens(&self) -> Vec<Held> {
        self.held(|item| item.is_open())
    }

    fn locks(&self) -> Vec<Held> {
        self.held(|item| item.is_lock())
    }

    fn held(&self, is_wanted: impl Fn(&Item) -> bool) -> Vec<Held> {
        let list = self.stage.list();
        if list.len() != LIST {
            return Vec::new();
        }
        faults::items(list)
            .iter()
            .filter(|(_, item)| is_wanted(item) && item.process() < 16)
            .map(|(place, item)| Held {
                place: *place as u8,
                process: item.process(),
                name: std::array::from_fn(|i| item.name()[i]),
                mode: item.mode(),
                record: item.record(),
            })
            .collect()
    }

    fn name_for(&mut self, function: u32, process: u8, cast: &Cast) -> [u8; 11] {
        if self.random.chance(3) {
            return *self.random.pick(&ILLEGAL);
        }
        if function == 22 && self.random.chance(40) {
            return self.fresh_name();
        }
        if function == 19 && self.random.chance(30) {
            if let Some(name) = self.own_file(process) {
                return name;
            }
        }
        if matches!(function, 19 | 23) && self.random.chance(60) {
            if let Some(name) = self.idle_file(cast.users[usize::from(process)]) {
                return name;
            }
        }
        self.random.pick(&cast.names)
    }

    fn fresh_name(&mut self) -> [u8; 11] {
        let mut name = *b"NEW     TMP";
        name[3] = b'0' + self.random.below(10) as u8;
        name
    }

    /// A file that the process has open.
    fn own_file(&mut self, process: u8) -> Option<[u8; 11]> {
        let opens = self.opens().into_iter();
        let own: Vec<[u8; 11]> = opens
            .filter(|open| open.process == process)
            .map(|open| open.name)
            .collect();
        self.random.pick_any(&own)
    }

    /// A file on the image that nobody has open.
    fn idle_file(&mut self, user: u8) -> Option<[u8; 11]> {
        if self.has_no_directory() || self.stage.list().len() != LIST {
            return None;
        }
        let open: BTreeSet<Vec<u8>> = faults::items(self.stage.list())
            .iter()
            .map(|(_, item)| item.name().to_vec())
            .collect();
        let idle: Vec<[u8; 11]> = faults::used_entries(self.kind, self.stage.image())
            .filter(|entry| entry[0] == user)
            .map(|entry| std::array::from_fn(|i| entry[1 + i] & 127))
            .filter(|name: &[u8; 11]| !open.contains(&name[..]))
            .collect();
        self.random.pick_any(&idle)
    }

    fn aim(&mut self, function: u32, user: u8, name: &[u8; 11], cast: &Cast) -> Aim {
        if !is_run_function(function) || self.random.chance(40) {
            return aim_at(self.record(user, name, cast), 0);
        }
        let end = self.end_of_run(user, name);
        aim_at(end, self.records_before())
    }

    /// A record at which a run may have to stop: the first of a block or extent that is missing
    /// behind one that is there, or else the first of any extent or the one past the last.
    fn end_of_run(&mut self, user: u8, name: &[u8; 11]) -> u32 {
        let groups = self.groups(user, name);
        let mut missing: Vec<u32> = groups
            .iter()
            .map(|number| number + 1)
            .filter(|number| !groups.contains(number))
            .collect();
        if missing.is_empty() || self.random.chance(15) {
            let any_extent = 128 * self.an_extent();
            return self.random.pick(&[self.rule.record_limit(), any_extent]);
        }
        let in_an_extent = self.kind.numbers_per_entry() as u32;
        let opens_an_extent = |number: &u32| number.is_multiple_of(in_an_extent);
        if missing.iter().any(opens_an_extent) && self.random.chance(60) {
            missing.retain(opens_an_extent);
        }
        self.kind.records_per_block() * self.random.pick(&missing)
    }

    /// The image was cut, and the directory with it.
    fn has_no_directory(&self) -> bool {
        self.stage.image().len() < self.kind.directory()
    }

    /// The groups of a file that have a block.
    fn groups(&self, user: u8, name: &[u8; 11]) -> BTreeSet<u32> {
        if self.has_no_directory() {
            return BTreeSet::new();
        }
        blocks_of_groups(self.kind, self.stage.image())
            .iter()
            .filter(|(group, _)| group.file.user == user && group.file.name == *name)
            .map(|(group, _)| group.number)
            .collect()
    }

    fn record(&mut self, user: u8, name: &[u8; 11], cast: &Cast) -> u32 {
        if cast.slot.is_some() && self.random.chance(60) {
            return self.random.pick(&RECORDS_OF_ONE_SLOT);
        }
        if cast.lively && self.random.chance(50) {
            if let Some(record) = self.record_with_block(user, name) {
                return record;
            }
        }
        match self.random.below(100) {
            0..50 => self
                .record_with_block(user, name)
                .unwrap_or_else(|| self.random.below(20) as u32),
            50..85 => self.edge_record(),
            85..92 => self.random.below(300) as u32,
            92..96 => self.random.below(262_144) as u32,
            _ => {
                let end = self.rule.record_limit();
                self.random.pick(&[
                    end,
                    end,
                    end + 1,
                    end + 15,
                    262_144,
                    0x40_0000,
                    0xFF_0000,
                    0xFF_FFFF,
                ])
            }
        }
    }

    /// A record of a block that the file has, or one just beside it.
    fn record_with_block(&mut self, user: u8, name: &[u8; 11]) -> Option<u32> {
        let groups: Vec<u32> = self.groups(user, name).into_iter().collect();
        let size = self.kind.records_per_block();
        let first = size * self.random.pick_any(&groups)?;
        let offset = self.random.between(0, size as usize + 1) as u32;
        Some(match offset > size {
            true => first.saturating_sub(1),
            false => first + offset,
        })
    }

    fn fcb(
        &mut self,
        function: u32,
        name: [u8; 11],
        record: u32,
        open: Option<Held>,
        cast: &Cast,
    ) -> Vec<u8> {
        let mut fcb = match self.random.chance(50) {
            true => self.random.bytes(36),
            false => vec![0; 36],
        };
        fcb[0] = match self.random.chance(97) {
            true => self.random.below(2) as u8,
            false => self.random.pick(&[2, 3, 16, 0x80, 0x81, 0xE5, 0xFF]),
        };
        fcb[1..12].copy_from_slice(&name);
        if self.random.chance(30) {
            self.add_high_bits(&mut fcb[1..12]);
        }
        self.ask_mode(&mut fcb, open);
        if function == 23 {
            let new = self.new_name(name, cast);
            fcb[17..28].copy_from_slice(&new);
            if self.random.chance(30) {
                self.add_high_bits(&mut fcb[17..28]);
            }
        }
        fcb[33..36].copy_from_slice(&record.to_le_bytes()[..3]);
        fcb
    }

    fn add_high_bits(&mut self, bytes: &mut [u8]) {
        for byte in bytes {
            *byte |= self.random.byte() & 128;
        }
    }

    fn ask_mode(&mut self, fcb: &mut [u8], open: Option<Held>) {
        let same = open.filter(|_| self.random.chance(70)).map(|open| open.mode);
        let mode = same.unwrap_or_else(|| self.random.pick(&[0, 1, 1, 1, 1, 1, 2, 2, 3]));
        let bits = [(5, mode & 1 != 0), (6, mode & 2 != 0)];
        for (at, high) in bits {
            fcb[at] = (fcb[at] & 127) | (u8::from(high) << 7);
        }
    }

    fn new_name(&mut self, old: [u8; 11], cast: &Cast) -> [u8; 11] {
        match self.random.below(100) {
            0..5 => *self.random.pick(&ILLEGAL),
            5..15 => old,
            15..50 => self.fresh_name(),
            _ => self.random.pick(&cast.names),
        }
    }

    /// Bytes at random, a byte for each record, or one for all; behind the records that the call
    /// may look at mostly one byte, which the pipe need not carry.
    fn dma(&mut self, function: u32, count: u32) -> Vec<u8> {
        let records = match is_run_function(function) {
            true => count.clamp(1, MOST_RECORDS) as usize,
            false => 2,
        };
        let mut dma = vec![self.random.byte(); DMA_LENGTH];
        match self.random.below(100) {
            0..50 => {
                let bytes = self.random.bytes(128 * records);
                dma[..128 * records].copy_from_slice(&bytes);
            }
            50..70 => {
                for record in dma.chunks_mut(128).take(records) {
                    record.fill(self.random.byte());
                }
            }
            70..73 => dma = self.random.bytes(DMA_LENGTH),
            _ => {}
        }
        dma
    }

    fn put_file_id(&mut self, dma: &mut [u8], open: Held) {
        let (low, high) = match self.random.below(100) {
            0..90 => (open.place, 0),
            90..94 => (self.random.byte(), 0),
            94..97 => (open.place, self.random.pick(&[1, 128, 255])),
            _ => return,
        };
        dma[..2].copy_from_slice(&[low, high]);
    }

    fn put_tested_record(&mut self, dma: &mut [u8], user: u8, name: &[u8; 11], record: u32) {
        let image = self.stage.image();
        let Some(at) = reference::look(self.kind.number(), 0, u32::from(user), name, record, image) else {
            return;
        };
        if self.random.chance(10) {
            return;
        }
        dma[..128].copy_from_slice(&image[at..at + 128]);
        if self.random.chance(15) {
            let different = self.random.pick(&[0, 1, 63, 126, 127]);
            dma[different] ^= 1 << self.random.below(8);
        }
    }

    fn look(&mut self, cast: &Cast) {
        let (user, mut name) = self.file_to_look_at(cast);
        let record = self.record(user, &name, cast);
        if self.random.chance(20) {
            self.add_high_bits(&mut name);
        }
        let mut step = (u32::from(user), name.to_vec(), record);
        match self.random.below(20) {
            0 => step.0 += self.random.pick(&[16, 256, 0x1_0000, 0x8000_0000]),
            1 => step.1.truncate(self.random.below(11)),
            2 => step.1.push(b' '),
            3 => step.1 = self.random.pick(&ILLEGAL).to_vec(),
            4 => {
                step.2 = step
                    .2
                    .wrapping_add(self.random.pick(&[262_144, 0x100_0000, u32::MAX]))
            }
            _ => {}
        }
        let (user, name, record) = step;
        let kind = match self.random.chance(92) {
            true => self.kind.number(),
            false => self.wrong_kind(),
        };
        let told = self.told(kind);
        self.stage.serve(Step::Look {
            told,
            user,
            name,
            record,
        });
    }

    fn file_to_look_at(&mut self, cast: &Cast) -> (u8, [u8; 11]) {
        if !self.has_no_directory() && self.random.chance(60) {
            let blocks = blocks_of_groups(self.kind, self.stage.image());
            if let Some((group, _)) = self.random.pick_any(&blocks) {
                return (group.file.user, group.file.name);
            }
        }
        let process = self.process(cast);
        (cast.users[usize::from(process)], self.random.pick(&cast.names))
    }

    /// Moves items to other places, which may not matter to anybody.
    fn shuffle_places(&mut self) {
        let capacity = usize::from(self.stage.list()[0]);
        let at = place_start(0);
        let mut places: Vec<Vec<u8>> = self.stage.list()[at..place_start(capacity)]
            .chunks(20)
            .map(<[u8]>::to_vec)
            .collect();
        self.random.shuffle(&mut places);
        let bytes = places.concat();
        self.stage.serve(Step::PatchList { at, bytes });
    }

    /// A Start that is refused, and now and then one that is not.
    fn start_again(&mut self, cast: &Cast) {
        if self.random.chance(20) {
            return self.start(cast);
        }
        let mut numbers = [1, 2, 64, self.rule.number()];
        let mut users = cast.users.to_vec();
        let mut kind = self.kind.number();
        match self.random.below(6) {
            5 => numbers[3] = self.random.pick(&NO_RULES[1..]),
            4 => kind = self.random.pick(&UNKNOWN_KINDS),
            0 => users[self.random.below(16)] = self.random.pick(&[16, 0x80, 0xFF]),
            1 => users.truncate(self.random.below(16)),
            2 => users.push(0),
            _ => numbers[self.random.below(3)] = self.random.pick(&[0, 65, 256, 257, 320, u32::MAX]),
        }
        self.stage.serve(Step::Start { kind, numbers, users });
    }

    fn with_wrong_length(&mut self, cast: &Cast) {
        let mut step = self.a_call(cast);
        if let Step::Call { fcb, dma, .. } = &mut step {
            match self.random.chance(50) {
                true => fcb.resize(self.random.pick(&[0, 1, 34, 35, 37, 72]), 0),
                false => dma.resize(self.random.pick(&[0, 1, 128, 256, 2_047, 2_049, 4_096]), 0),
            }
        }
        self.stage.serve(step);
    }

    /// Of any function as often as of another, or as often as it is called.
    fn with_wild_number(&mut self, cast: &Cast) {
        let function = match self.random.chance(50) {
            true => self.random.pick(&FUNCTIONS),
            false => self.function(),
        };
        let mut step = self.a_call_of(function, cast);
        if let Step::Call { numbers, .. } = &mut step {
            match self.random.below(5) {
                3 => return self.with_wrong_kind(step),
                4 => {
                    numbers.kind = self.wrong_kind();
                    numbers.function = self.wild_function(numbers.function);
                }
                0 => numbers.function = self.wild_function(numbers.function),
                1 => numbers.process = self.wild(numbers.process, &[16, 17, 255]),
                _ => numbers.count = self.wild(numbers.count, &[0, 17, 255]),
            }
        }
        self.stage.serve(step);
    }

    /// Told the other kind, a call is refused for the vector's length, or for the image where the
    /// vector is as long as the other kind's.
    fn with_wrong_kind(&mut self, mut step: Step) {
        let told = self.wrong_kind();
        if let Step::Call { numbers, .. } = &mut step {
            numbers.kind = told;
        }
        let vector = self.stage.vector().to_vec();
        self.stage.damaged();
        if self.random.chance(50) {
            let length = vector_length(self.kind.other());
            self.stage.serve(Step::Vector { length, fill: 0 });
        }
        self.stage.serve(step);
        self.stage.set_vector(&vector);
        self.stage.repaired();
    }

    fn wild_function(&mut self, function: u32) -> u32 {
        match self.random.chance(50) {
            true => self.wild(function, &[0, 14, 20, 21, 24, 32, 36, 44, 47, 142, 144, 255]),
            false => self.random.below(256) as u32,
        }
    }

    /// One of these, or a number whose low byte alone would do.
    fn wild(&mut self, good: u32, plain: &[u32]) -> u32 {
        match self.random.chance(50) {
            true => self.random.pick(plain),
            false => good + self.random.pick(&[256, 512, 0x1_0000, 0x100_0000, 0x8000_0000]),
        }
    }

    fn with_damaged_directory(&mut self, cast: &Cast) {
        let rule = match cast.slot {
            Some(_) if self.random.chance(60) => self.random.pick(&DIRECTORY_RULES_OF_SLOTS),
            _ => self.random.pick(&ImageRule::ALL),
        };
        let before = self.stage.image()[..self.kind.directory()].to_vec();
        let judged_as = (self.kind, self.rule);
        let Some(damaged) = break_directory(rule, judged_as, self.stage.image(), &mut self.random) else {
            return;
        };
        let half = half_damaged(&before, &damaged);
        self.stage.coverage.note_image_rule(self.kind, rule, half);
        self.stage.damaged();
        self.patch_image(&before, &damaged);
        self.check();
        if self.random.chance(30) {
            self.look(cast);
            self.build();
        }
        let list = self.stage.list().to_vec();
        if self.random.chance(20) {
            let bytes = vec![self.random.pick(&[2, 3, 255])];
            self.stage.serve(Step::PatchList { at: RULE, bytes });
        }
        for _ in 0..self.random.between(1, 3) {
            self.call(cast);
        }
        self.stage.set_list(&list);
        self.patch_image(&damaged, &before);
        self.stage.repaired();
    }

    /// Directories with more than one thing wrong, each asked for its lowest bad entry.
    fn with_several_faults(&mut self, cast: &Cast) {
        let before = self.stage.image()[..self.kind.directory()].to_vec();
        self.stage.damaged();
        for _ in 0..self.random.between(1, 6) {
            let judged_as = (self.kind, self.rule);
            let damaged = break_several(judged_as, self.stage.image(), &mut self.random);
            self.patch_image(&before, &damaged);
            self.check();
            let is_bad = check_answer(judged_as, self.stage.image()) != 0;
            if is_bad && self.random.chance(20) {
                self.call(cast);
            }
            self.patch_image(&damaged, &before);
        }
        self.stage.repaired();
    }

    fn patch_image(&mut self, from: &[u8], to: &[u8]) {
        for change in changes(from, to).into_iter().flatten() {
            self.stage.serve(Step::PatchImage {
                at: change.at,
                bytes: change.bytes,
            });
        }
    }

    fn with_damaged_list(&mut self, cast: &Cast) {
        let rule = match cast.slot {
            Some(_) if self.random.chance(60) => self.random.pick(&LIST_RULES_OF_SLOTS),
            _ => self.random.pick(&ListRule::ALL),
        };
        let before = self.stage.list().to_vec();
        let Some(damaged) = break_list(rule, self.kind, &before, self.stage.image(), &mut self.random) else {
            return;
        };
        self.stage.coverage.note_list_rule(self.kind, rule);
        self.stage.damaged();
        self.patch_list(&before, &damaged);
        for _ in 0..self.random.between(1, 3) {
            self.call(cast);
        }
        self.patch_list(&damaged, &before);
        self.stage.repaired();
    }

    /// Calls beside a vector of which one bit is wrong, and sometimes the list is damaged too.
    fn with_wrong_bit(&mut self, cast: &Cast) {
        let rule = self.random.pick(&VectorRule::ALL);
        let (vector, list) = (self.stage.vector().to_vec(), self.stage.list().to_vec());
        let image = self.stage.image();
        let Some(damaged) = break_vector(rule, self.kind, &vector, image, &mut self.random) else {
            return;
        };
        self.stage.coverage.note_vector_rule(self.kind, rule);
        self.stage.damaged();
        self.stage.set_vector(&damaged);
        let broken = self.random.pick(&ListRule::ALL);
        if self.random.chance(20) {
            let damaged = break_list(broken, self.kind, &list, self.stage.image(), &mut self.random);
            self.patch_list(&list, &damaged.unwrap_or(list.clone()));
        }
        for _ in 0..self.random.between(1, 3) {
            self.call(cast);
        }
        self.stage.set_list(&list);
        self.stage.set_vector(&vector);
        self.stage.repaired();
    }

    fn with_wrong_vector_length(&mut self, cast: &Cast) {
        let vector = self.stage.vector().to_vec();
        let (right, other) = (vector_length(self.kind), vector_length(self.kind.other()));
        let length = self
            .random
            .pick(&[0, 1, right - 1, right - 1, right + 1, right + 1, 2 * right, other]);
        let fill = self.random.pick(&[0, 0xFF]);
        self.stage.damaged();
        self.stage.serve(Step::Vector { length, fill });
        self.call(cast);
        if self.random.chance(40) {
            self.build();
        }
        self.stage.set_vector(&vector);
        self.stage.repaired();
    }

    /// Built over other bytes; where that is refused, these stay, and the old ones are put back.
    fn build_again(&mut self) {
        let vector = self.stage.vector().to_vec();
        let bytes = self.random.bytes(vector.len());
        self.stage.damaged();
        self.stage.serve(Step::PatchVector { at: 0, bytes });
        self.build();
        self.stage.set_vector(&vector);
        self.stage.repaired();
    }

    /// Mostly of the drive's kind.
    fn build(&mut self) {
        let kind = match self.random.chance(60) {
            true => self.kind.number(),
            false => self.wrong_kind(),
        };
        let told = self.told(kind);
        self.stage.serve(Step::Build { told });
    }

    /// Searches that go on where no search has left off: at either end of the directory, or anywhere.
    fn with_moved_positions(&mut self, cast: &Cast) {
        let before = self.stage.list().to_vec();
        let end = self.kind.entries();
        self.stage.damaged();
        for _ in 0..self.random.between(1, 3) {
            let process = self.process(cast);
            let anywhere = self.random.below(end + 1);
            let position = self
                .random
                .pick(&[0, 0, 1, end - 2, end - 1, end - 1, end, anywhere]);
            self.stage.serve(Step::PatchList {
                at: POSITIONS.start + usize::from(process),
                bytes: vec![position as u8],
            });
            let functions: &[u32] = self.random.pick(&[&[18], &[18, 18], &[143, 18], &[17, 18, 18]]);
            for function in functions {
                let step = match function {
                    143 => self.a_call_of(143, cast),
                    _ => self.a_search_by(process, *function, cast),
                };
                self.stage.serve(step);
            }
        }
        self.stage.set_list(&before);
        self.stage.repaired();
    }

    fn patch_list(&mut self, from: &[u8], to: &[u8]) {
        for change in changes(from, to).into_iter().flatten() {
            self.stage.serve(Step::PatchList {
                at: change.at,
                bytes: change.bytes,
            });
        }
    }

    /// A few bytes of the directory and the list become others, which may or may not be sound.
    fn with_stray_bytes(&mut self, cast: &Cast) {
        const QUICKLY_PUT_BACK: usize = 600 * 1024;
        if self.stage.image().len() > QUICKLY_PUT_BACK {
            return;
        }
        let (image, list) = (self.stage.image().to_vec(), self.stage.list().to_vec());
        let vector = self.stage.vector().to_vec();
        self.stage.damaged();
        for _ in 0..self.random.between(1, 2) {
            self.stray_byte(&image, &list);
        }
        self.check();
        self.look(cast);
        // Without it, a block that was named or given up makes the vector disagree.
        if self.random.chance(70) {
            let told = self.own_told();
            self.stage.serve(Step::Build { told });
        }
        for _ in 0..self.random.between(1, 4) {
            self.call(cast);
        }
        let steps = put_back(&image, self.stage.image());
        self.stage.serve_all(steps);
        self.stage.set_list(&list);
        self.stage.set_vector(&vector);
        self.stage.repaired();
    }

    fn stray_byte(&mut self, image: &[u8], list: &[u8]) {
        let blocks = image.len() / self.kind.block();
        let any = self.random.byte();
        let edges = [
            0,
            1,
            2,
            15,
            16,
            31,
            32,
            63,
            64,
            65,
            127,
            128,
            129,
            0xE5,
            blocks - 1,
            blocks,
            blocks / 256,
        ];
        let edge = self.random.pick(&edges) as u8;
        let bytes = vec![self.random.pick(&[any, edge, edge])];
        if self.random.chance(50) {
            let at = self.stray_place(image);
            self.stage.serve(Step::PatchImage { at, bytes });
            return;
        }
        let used = place_start(usize::from(list[0]).min(64));
        let at = match self.random.chance(20) {
            true => POSITIONS.start + self.random.below(POSITIONS.len()),
            false => self.random.below(used),
        };
        self.stage.serve(Step::PatchList { at, bytes });
    }

    /// A byte of the directory, mostly one of a used entry.
    fn stray_place(&mut self, image: &[u8]) -> usize {
        let directory = self.kind.directory();
        let used: Vec<usize> = (0..directory)
            .step_by(32)
            .filter(|&at| image[at] != 0xE5)
            .collect();
        match self.random.pick_any(&used) {
            Some(entry) if self.random.chance(60) => entry + self.random.below(32),
            _ => self.random.below(directory),
        }
    }

    fn with_wrong_list_length(&mut self, cast: &Cast) {
        let before = self.stage.list().to_vec();
        let length = self
            .random
            .pick(&[0, 19, 1298, 1299, 1300, 1314, 1315, 1317, 2632]);
        self.stage.damaged();
        self.stage.serve(Step::List { length, fill: 0 });
        self.call(cast);
        if self.random.chance(20) {
            self.start(cast);
        }
        self.stage.set_list(&before);
        self.stage.repaired();
    }

    /// The wrong lengths keep to what is quickly put back.
    fn with_wrong_image_length(&mut self, cast: &Cast) {
        let length = self.stage.image().len();
        let block = self.kind.block();
        let blocks = length / block;
        let wrong = match self.random.below(4) {
            0..2 if blocks == self.kind.most_blocks() => length + block,
            0..2 if self.kind == Kind::Second && blocks == 257 => length - block,
            0 if length <= 12_288 => self.random.pick(&[0, 1, 1024, 2048, 2049]),
            1 => length - 1,
            2 => length + block / 2,
            _ => length + 1,
        };
        let tail = self.stage.image()[wrong.min(length)..].to_vec();
        self.stage
            .coverage
            .note_image_rule(self.kind, ImageRule::Length, Half::Lower);
        self.stage.damaged();
        self.resize_image(wrong);
        if self.random.chance(30) {
            self.check();
            self.look(cast);
            self.build();
        }
        self.call(cast);
        self.resize_image(length);
        if !tail.is_empty() {
            self.stage.serve(Step::PatchImage {
                at: wrong,
                bytes: tail,
            });
        }
        self.stage.repaired();
    }

    fn resize_image(&mut self, length: usize) {
        self.stage.serve(Step::Image { length, fill: 0xE5 });
    }
}

/// The half of the entries in which the first damaged one stands.
pub fn half_damaged(before: &[u8], damaged: &[u8]) -> Half {
    let first = before.iter().zip(damaged).position(|(old, new)| old != new);
    Half::of(first.unwrap_or(0) / 32)
}

fn aim_at(record: u32, before: u32) -> Aim {
    let first = record.saturating_sub(before);
    Aim {
        first,
        before: record - first,
    }
}

/// The step as a record of the program's input; nothing for steps that are none.
fn program_record(step: &Step) -> Vec<u8> {
    match step {
        Step::Start { numbers, users, .. } => {
            let [capacity, open_limit, lock_limit, rule] = numbers.map(|number| number as u8);
            [
                &START_MARK[..],
                &[capacity, open_limit, lock_limit],
                users,
                &[rule],
            ]
            .concat()
        }
        Step::Call { numbers, fcb, dma } => {
            let numbers = [numbers.function, numbers.process, numbers.count].map(|number| number as u8);
            [&CALL_MARK[..], &numbers, fcb, dma].concat()
        }
        _ => Vec::new(),
    }
}
