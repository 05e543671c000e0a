//! Runs steps on the reference, keeps them with their replies, and watches over every one:
//! coverage, the history, buffers that may not change, runs made once more as single calls, and
//! the second reading of soundness.

use crate::build::{LIST, POSITIONS, RULE};
use crate::comparison::describe_step;
use crate::coverage::{orders, Coverage, Crowd, End, Last, Meanwhile};
use crate::deed::{Deed, SEARCHES};
use crate::engine::Reference;
use crate::faults::{
    bit_is_set, block_of, check_answer, extent_number, image_faults, is_legal_name, judged, last_record,
    list_faults, position_behind, record_at, rule_beside, searched, size_of, vector_faults, vector_length,
    Item, ListRule,
};
use crate::hints::{has_crowd_of_items, is_in_crowd, most_of_one_slot, CROWD_OF_ENTRIES};
use crate::history::{groups_with_block, History, Kept, Noted};
use crate::parts::SHORT_IMAGE;
use crate::step::{set_image, set_list, set_vector, Change, Reply, Step, Told, BUFFERS};
use crate::table::Table;
use reference::calls::Numbers;
use reference::kind::Kind;
use reference::rule::Rule;
use reference::singly::is_run_function;
use std::collections::BTreeSet;

const WRONG_NUMBERS: u32 = 255 + 256 * 13;
const UNSOUND_IMAGE: u32 = 255 + 256;
const UNSOUND_LIST: u32 = 255 + 256 * 12;
const WRONG_VECTOR: u32 = 255 + 256 * 14;

/// The second reading of soundness is slow; it is taken of one call in so many.
const SOUNDNESS_INTERVAL: u64 = 16;

/// How much of a long image may be compared for a step, taken over many steps.
const WHOLE_PART: usize = 16 * 1024;

/// The entries of a drive of the second kind can name so many blocks; with more there is always
/// one free.
const NAMEABLE_BLOCKS: usize = 128 * 8;

/// A step and what the reference replied.
#[derive(Clone, Debug)]
pub struct Made {
    pub step: Step,
    pub reply: Option<Reply>,
}

/// What a call found, to be held against what it leaves.
struct Before {
    kept: Vec<Kept>,
    /// The caller's position, if it has one.
    position: Option<u8>,
    vector: Vec<u8>,
}

#[derive(Default)]
pub struct Stage {
    table: Table,
    reference: Reference,
    history: Option<History>,
    /// While the image, the list or the vector is damaged on purpose.
    damaged: bool,
    served: u64,
    /// What has happened since each process's last search.
    meanwhile: [BTreeSet<Meanwhile>; 16],
    /// The image was set or patched by hand, and the vector has not followed it.
    is_stale: bool,
    /// Steps that were answered since a long image was last compared whole.
    since_whole: usize,
    pub coverage: Coverage,
    faults: Vec<String>,
    made: Vec<Made>,
}

impl Stage {
    pub fn image(&self) -> &[u8] {
        self.table.image()
    }

    pub fn list(&self) -> &[u8] {
        self.table.list()
    }

    pub fn vector(&self) -> &[u8] {
        self.table.vector()
    }

    pub fn faults(&self) -> &[String] {
        &self.faults
    }

    pub fn complain(&mut self, fault: String) {
        self.faults.push(fault);
    }

    /// Forgets the history; the next Start begins another.
    pub fn begin(&mut self) {
        self.history = None;
        self.damaged = false;
        self.meanwhile = Default::default();
    }

    /// The steps since the last time; where the image is long, it is compared whole behind them.
    pub fn take_made(&mut self) -> Vec<Made> {
        if self.since_whole > 0 {
            self.compare_whole();
        }
        std::mem::take(&mut self.made)
    }

    fn compare_whole(&mut self) {
        self.since_whole = 0;
        self.serve_one(Step::Whole);
    }

    /// A long image is compared whole once in as many steps as it has parts of 16 KB, so that it
    /// costs no more than a short one does.
    fn compare_whole_now_and_then(&mut self) {
        let length = self.image().len();
        if length <= SHORT_IMAGE {
            self.since_whole = 0;
            return;
        }
        self.since_whole += 1;
        if self.since_whole * WHOLE_PART >= length {
            self.compare_whole();
        }
    }

    pub fn set_image(&mut self, image: &[u8], fill: u8) {
        self.serve_all(set_image(image, fill));
    }

    pub fn set_list(&mut self, list: &[u8]) {
        self.serve_all(set_list(list));
    }

    pub fn set_vector(&mut self, vector: &[u8]) {
        self.serve_all(set_vector(vector));
    }

    /// Has the vector built in a buffer of its length, if the image was altered by hand. Where the
    /// image is not sound, the vector is of no image.
    pub fn follow(&mut self, kind: Kind, rule: Rule) {
        if !std::mem::take(&mut self.is_stale) {
            return;
        }
        let length = vector_length(kind);
        if self.vector().len() != length {
            self.serve(Step::Vector { length, fill: 0xA5 });
        }
        let told = Told {
            kind: kind.number(),
            rule: rule.number(),
        };
        self.serve(Step::Build { told });
    }

    pub fn serve_all(&mut self, steps: Vec<Step>) {
        for step in steps {
            self.serve(step);
        }
    }

    /// From here until `repaired` the buffers do not follow the history.
    pub fn damaged(&mut self) {
        self.damaged = true;
    }

    pub fn repaired(&mut self) {
        self.damaged = false;
    }

    pub fn serve(&mut self, step: Step) -> Option<Reply> {
        if matches!(step, Step::Image { .. }) && self.since_whole > 0 {
            self.compare_whole();
        }
        self.is_stale |= matches!(step, Step::Image { .. } | Step::PatchImage { .. });
        let reply = self.serve_one(step);
        if reply.is_some() {
            self.compare_whole_now_and_then();
        }
        reply
    }

    fn serve_one(&mut self, step: Step) -> Option<Reply> {
        let before = self.before(&step);
        let reply = self.table.serve(&mut self.reference, &step);
        if let Some(reply) = &reply {
            self.watch(&step, reply, &before);
        }
        self.made.push(Made {
            step,
            reply: reply.clone(),
        });
        reply
    }

    fn before(&self, step: &Step) -> Before {
        let Step::Call { numbers, .. } = step else {
            return Before {
                kept: Vec::new(),
                position: None,
                vector: Vec::new(),
            };
        };
        let followed = self.history.as_ref().filter(|_| !self.damaged);
        let list = self.table.list();
        let positions = list.get(POSITIONS).filter(|_| list.len() == LIST);
        Before {
            kept: followed.map_or_else(Vec::new, |history| {
                history.locked_by_others(numbers.process, self.table.image())
            }),
            position: positions
                .and_then(|all| all.get(numbers.process as usize))
                .copied(),
            vector: self.table.vector().to_vec(),
        }
    }

    fn watch(&mut self, step: &Step, reply: &Reply, before: &Before) {
        self.served += 1;
        let faults_before = self.faults.len();
        match step {
            Step::Start { kind, numbers, users } => self.watch_start(*kind, *numbers, users, reply),
            Step::Call { .. } => self.watch_call(step, reply, before),
            Step::Check { told } => self.watch_check(*told, reply),
            Step::Build { told } => self.watch_build(*told, reply),
            Step::Look { .. } => self.watch_look(step, reply),
            _ => {}
        }
        let may_change = buffers_that_may_change(step, reply.answer);
        for (changes, may_change) in reply.changes.iter().zip(may_change) {
            if !may_change && *changes != Some(Vec::new()) {
                self.complain("a buffer changed that may not".to_string());
            }
        }
        if reply.apart.is_some() {
            self.complain("a run and its single calls differ".to_string());
        }
        if self.faults.len() > faults_before {
            self.complain(format!("  at {}", describe_step(step)));
        }
    }

    fn watch_start(&mut self, told: u32, numbers: [u32; 4], users: &[u8], reply: &Reply) {
        self.coverage.note_start(told, reply.answer);
        let [capacity, open_limit, lock_limit, rule] = numbers;
        if rule > 1 && reply.answer != WRONG_NUMBERS {
            self.complain(format!("Start has taken rule {rule}"));
        }
        let (0, Some(kind)) = (reply.answer, Kind::told(told)) else {
            return;
        };
        let users: Option<[u8; 16]> = users.try_into().ok();
        let image = self.table.image();
        self.history = users
            .filter(|_| image_faults((kind, Rule::told(rule)), image).is_empty())
            .map(|users| {
                let limits = [capacity, open_limit, lock_limit];
                History::new(kind, limits, users, groups_with_block(kind, image))
            });
        if self.table.list()[RULE] != rule as u8 {
            self.complain(format!("Start has not chosen rule {rule}"));
        }
    }

    fn watch_check(&mut self, told: Told, reply: &Reply) {
        self.coverage.note_check(told.kind, reply.answer);
        let judged_as = Kind::told(told.kind).map(|kind| (kind, Rule::told(told.rule)));
        let wanted = judged_as.map_or(1, |judged_as| check_answer(judged_as, self.table.image()));
        if reply.answer != wanted {
            self.complain(format!("check says {}, the bytes {wanted}", reply.answer));
        }
        let Some((kind, rule)) = judged_as else {
            return;
        };
        let faults = image_faults((kind, rule), self.table.image());
        if faults.is_empty() != (wanted == 0) {
            self.complain(format!("the bytes say {wanted}, the faults are {faults:?}"));
        }
        if wanted > 1 {
            for order in orders(&judged((kind, rule), self.table.image())) {
                self.coverage.note_order(kind, order);
            }
            self.note_crowd_told(kind, wanted);
        }
    }

    /// Notes what the image check has told of an entry whose slot has a crowd: that of its extent, or that of the
    /// extent 0 which its file lacks.
    fn note_crowd_told(&mut self, kind: Kind, answer: u32) {
        let (entry, image) = (answer as usize / 256, self.table.image());
        let own = extent_number(&image[32 * entry..32 * entry + 32]) as u32;
        let (crowd, extent) = match answer % 256 {
            6 => (Crowd::BlockTwice, own),
            7 => (Crowd::ExtentTwice, own),
            8 => (Crowd::ExtentZero, 0),
            _ => return,
        };
        if is_in_crowd(kind, image, entry, extent) {
            self.coverage.note_crowd(kind, crowd);
        }
    }

    fn watch_build(&mut self, told: Told, reply: &Reply) {
        self.coverage.note_build(told.kind, reply.answer);
        let (vector, image) = (self.table.vector(), self.table.image());
        let kind = Kind::told(told.kind).filter(|kind| vector.len() == vector_length(*kind));
        let rule = Rule::told(told.rule);
        let sound = kind.filter(|kind| image_faults((*kind, rule), image).is_empty());
        let wanted = match (kind, sound) {
            (None, _) => WRONG_NUMBERS,
            (_, None) => UNSOUND_IMAGE,
            _ => 0,
        };
        let disagrees = sound.is_some_and(|kind| !vector_faults(kind, vector, image).is_empty());
        if reply.answer != wanted || disagrees {
            self.complain(format!("building says {}, the bytes {wanted}", reply.answer));
        }
    }

    fn watch_look(&mut self, step: &Step, reply: &Reply) {
        let Step::Look {
            told,
            user,
            name,
            record,
        } = step
        else {
            return;
        };
        self.coverage.note_look(told.kind, reply.answer);
        let image = self.table.image();
        let rule = Rule::told(told.rule);
        let asked_well =
            *user < 16 && name.len() == 11 && is_legal_name(name) && *record <= last_record(rule);
        let is_sound = |kind: &Kind| asked_well && image_faults((*kind, rule), image).is_empty();
        let kind = Kind::told(told.kind).filter(is_sound);
        let found = kind.map(|kind| (kind, block_of(kind, *user as u8, name, *record, image)));
        let wanted = match found {
            None | Some((_, 0)) => 0,
            Some((kind, block)) => record_at(kind, block, *record) as u32,
        };
        if reply.answer != wanted {
            self.complain(format!("look says {}, the bytes {wanted}", reply.answer));
        }
    }

    fn watch_call(&mut self, step: &Step, reply: &Reply, before: &Before) {
        let Step::Call { numbers, fcb, dma } = step else {
            return;
        };
        self.coverage
            .note_call(numbers.kind, numbers.function, reply.answer, self.reference.why);
        if let Some(kind) = Kind::told(numbers.kind) {
            self.watch_drive(kind, *numbers, fcb, reply);
            self.watch_search(kind, step, reply, before);
            self.note_bits(kind, numbers.function, &before.vector);
            self.note_end(kind, *numbers, fcb, reply.answer);
            if self.damaged || self.served.is_multiple_of(SOUNDNESS_INTERVAL) {
                self.compare_soundness(kind, reply.answer);
            }
        }
        if self.damaged {
            return;
        }
        let Some(history) = &mut self.history else {
            return;
        };
        let noted = Noted {
            function: numbers.function,
            process: numbers.process,
            count: numbers.count,
            fcb,
            answer: reply.answer,
        };
        history.note(&noted);
        let (list, image) = (self.table.list(), self.table.image());
        let mut verdict = history.note_found(&noted, list);
        let deed = Deed::of_call(*numbers, reply.answer);
        let may_change_groups = match numbers.function {
            19 | 23 => deed == Deed::Done,
            _ => deed.records() > 0,
        };
        let vector = self.table.vector();
        if deed != Deed::Refused {
            verdict = verdict.and_then(|()| history.check_vector(vector, image));
        }
        verdict = verdict.and_then(
            |()| match may_change_groups || reply.changes[3] != Some(Vec::new()) {
                true => history.check(&before.kept, list, image),
                false => history.check_holdings(&before.kept, list, image),
            },
        );
        if verdict.is_ok() && (numbers.function, deed) == (46, Deed::Done) {
            let dma = changed_dma(dma, reply);
            verdict = history.check_free_space(&dma, image, vector);
        }
        if let Err(fault) = verdict {
            self.complain(fault);
        }
        self.note_meanwhile(*numbers, deed);
    }

    /// A search has found the entry that the bytes tell, has its directory record in the DMA, and
    /// has moved its caller's position and no other byte of the list.
    fn watch_search(&mut self, kind: Kind, step: &Step, reply: &Reply, before: &Before) {
        let Step::Call { numbers, fcb, dma } = step else {
            return;
        };
        let deed = Deed::of_call(*numbers, reply.answer);
        let (Deed::Found(_) | Deed::NoMatch, Some(position)) = (deed, before.position) else {
            return;
        };
        let (list, image) = (self.table.list(), self.table.image());
        let process = numbers.process as usize;
        let from = if numbers.function == 17 { 0 } else { position };
        let found = searched(kind, list[3 + process], fcb, from, image);
        let mut wanted_dma = dma.clone();
        if let Some(slot) = found {
            let at = 128 * (slot / 4);
            wanted_dma[..128].copy_from_slice(&image[at..at + 128]);
        }
        let at = POSITIONS.start + process;
        let is_right = list[at] == position_behind(kind, found)
            && reply.answer == found.map_or(255, |slot| slot as u32 % 4)
            && changed_dma(dma, reply) == wanted_dma
            && is_this_byte_at_most(reply, at);
        if !is_right {
            self.complain(format!("a search from {from}: the bytes say {found:?}"));
        }
        self.note_search(kind, *numbers, fcb, position, found);
    }

    fn note_search(&mut self, kind: Kind, numbers: Numbers, fcb: &[u8], position: u8, found: Option<usize>) {
        let Some(slot) = found else {
            return;
        };
        self.coverage
            .note_found(kind, numbers.function, slot, &fcb[1..12]);
        let goes_on = numbers.function == 18 && position > 0;
        if self.damaged || !goes_on {
            return;
        }
        let meanwhile = &self.meanwhile[numbers.process as usize];
        if meanwhile.is_empty() {
            self.coverage.note_meanwhile(kind, Meanwhile::Nothing);
        }
        for what in meanwhile.clone() {
            self.coverage.note_meanwhile(kind, what);
        }
    }

    /// What a search by another process will go on behind.
    fn note_meanwhile(&mut self, numbers: Numbers, deed: Deed) {
        let what = match (numbers.function, deed) {
            (17 | 18, Deed::Found(_) | Deed::NoMatch) => Meanwhile::Search,
            (22, Deed::Done) => Meanwhile::Make,
            (19, Deed::Done) => Meanwhile::Delete,
            (23, Deed::Done) => Meanwhile::Rename,
            _ => return,
        };
        for all in &mut self.meanwhile {
            all.insert(what);
        }
        if SEARCHES.contains(&numbers.function) {
            self.meanwhile[numbers.process as usize].clear();
        }
    }

    /// Bytes 33 to 35 of the FCB are the file's size, and the others as they were.
    fn watch_size(&mut self, kind: Kind, numbers: Numbers, fcb: &[u8], reply: &Reply) {
        let user = self.table.list()[3 + numbers.process as usize];
        let size = size_of(kind, user, &fcb[1..12], self.table.image());
        let mut wanted = fcb.to_vec();
        wanted[33..].copy_from_slice(&size.unwrap_or(u32::MAX).to_le_bytes()[..3]);
        if changed_fcb(fcb, reply) != wanted {
            self.complain(format!("35 leaves another FCB, the bytes say {size:?}"));
        }
    }

    fn watch_drive(&mut self, kind: Kind, numbers: Numbers, fcb: &[u8], reply: &Reply) {
        let blocks = self.table.image().len() / kind.block();
        let is_large = kind == Kind::Second && blocks > 2 + NAMEABLE_BLOCKS;
        if is_large && matches!(numbers.function, 34 | 40) && reply.answer % 256 == 2 {
            self.complain(format!("no free block, of {blocks}"));
        }
        let deed = Deed::of_call(numbers, reply.answer);
        if deed.is_accepted() {
            self.coverage.note_size(kind, blocks);
            self.note_crowds(kind);
        }
        if (numbers.function, deed) == (35, Deed::Done) {
            self.watch_size(kind, numbers, fcb, reply);
        }
        self.watch_run(kind, numbers, fcb, reply);
        if kind == Kind::Second {
            self.watch_blocks(numbers, fcb, reply);
        }
    }

    /// Notes that a call was done beside a crowd.
    fn note_crowds(&mut self, kind: Kind) {
        if most_of_one_slot(kind, self.table.image()) >= CROWD_OF_ENTRIES {
            self.coverage.note_crowd(kind, Crowd::Entries);
        }
        if has_crowd_of_items(self.table.list(), Item::is_lock, false) {
            self.coverage.note_crowd(kind, Crowd::Locks);
        }
    }

    /// Notes that a list was refused for two items whose slot has a crowd.
    fn note_crowded_twins(&mut self, kind: Kind, faults: &BTreeSet<ListRule>) {
        let of_opens = [ListRule::OneOpenPerFile, ListRule::ModesBeside];
        let list = self.table.list();
        if faults.contains(&ListRule::LockTwice) && has_crowd_of_items(list, Item::is_lock, true) {
            self.coverage.note_crowd(kind, Crowd::LockTwice);
        }
        if of_opens.iter().any(|rule| faults.contains(rule)) && has_crowd_of_items(list, Item::is_open, true)
        {
            self.coverage.note_crowd(kind, Crowd::OpenTwice);
        }
    }

    /// Notes what was done with the last record of the list's rule, and what was answered for the one behind it.
    fn note_end(&mut self, kind: Kind, numbers: Numbers, fcb: &[u8], answer: u32) {
        let is_of_records = is_run_function(numbers.function) || (41..=43).contains(&numbers.function);
        let (true, Some(&[low, middle, high])) = (is_of_records, fcb.get(33..36)) else {
            return;
        };
        let (record, rule) = (
            u32::from_le_bytes([low, middle, high, 0]),
            rule_beside(self.table.list()),
        );
        let last = last_record(rule);
        if record == last && Deed::of_call(numbers, answer) != Deed::Refused {
            self.coverage
                .note_end(kind, rule, numbers.function, End::LastDone);
        }
        if record == last + 1 && answer == 6 {
            self.coverage
                .note_end(kind, rule, numbers.function, End::NextRefused);
        }
    }

    /// Notes the places in their bytes of the bits that a call has set or cleared.
    fn note_bits(&mut self, kind: Kind, function: u32, before: &[u8]) {
        let now = self.table.vector();
        if before == now {
            return;
        }
        for block in 0..8 * now.len() {
            if bit_is_set(before, block) != bit_is_set(now, block) {
                self.coverage.note_bit(kind, function, block % 8);
            }
        }
    }

    /// Notes where the first record of a call lies that was done.
    fn watch_blocks(&mut self, numbers: Numbers, fcb: &[u8], reply: &Reply) {
        let of_records = is_run_function(numbers.function) || numbers.function == 41;
        if !of_records || Deed::of_call(numbers, reply.answer) == Deed::Refused {
            return;
        }
        let user = self.table.list()[3 + numbers.process as usize];
        let record = u32::from_le_bytes([fcb[33], fcb[34], fcb[35], 0]);
        let block = block_of(Kind::Second, user, &fcb[1..12], record, self.table.image());
        self.coverage.note_block(numbers.function, block);
    }

    fn watch_run(&mut self, kind: Kind, numbers: Numbers, fcb: &[u8], reply: &Reply) {
        let Deed::Records { done, all } = Deed::of_call(numbers, reply.answer) else {
            return;
        };
        let first = u32::from_le_bytes([fcb[33], fcb[34], fcb[35], 0]);
        self.coverage.note_run(kind, numbers.function, first, done, !all);
        if let Some(last) = last_taken(kind, reply) {
            self.coverage.note_last(kind, numbers.function, last);
        }
        let past_them = |at: usize, length: usize| at + length > 128 * done as usize;
        let dma_changes = reply.changes[1].iter().flatten();
        for change in dma_changes {
            if past_them(change.at, change.bytes.len()) {
                self.complain("the DMA changed past the records done".to_string());
            }
        }
    }

    fn compare_soundness(&mut self, kind: Kind, answer: u32) {
        if answer == WRONG_NUMBERS {
            return;
        }
        let judged_as = (kind, rule_beside(self.table.list()));
        let image_is_sound = image_faults(judged_as, self.table.image()).is_empty();
        if image_is_sound == (answer == UNSOUND_IMAGE) {
            self.complain(format!("image sound: {image_is_sound}, answer {answer}"));
            return;
        }
        if !image_is_sound {
            return;
        }
        let faults = list_faults(kind, self.table.list(), self.table.image());
        let list_is_sound = faults.is_empty();
        if list_is_sound == (answer == UNSOUND_LIST) {
            self.complain(format!("list sound: {list_is_sound}, answer {answer}"));
            return;
        }
        self.note_crowded_twins(kind, &faults);
        let faults = vector_faults(kind, self.table.vector(), self.table.image());
        if list_is_sound && faults.is_empty() == (answer == WRONG_VECTOR) {
            self.complain(format!("the vector's faults: {faults:?}, answer {answer}"));
        }
    }
}

/// The list has changed in this byte or not at all.
fn is_this_byte_at_most(reply: &Reply, at: usize) -> bool {
    match reply.changes[2].as_deref() {
        Some([]) => true,
        Some([change]) => change.at == at && change.bytes.len() == 1,
        _ => false,
    }
}

/// What a run has used up itself, if it stopped because there was no more of it.
fn last_taken(kind: Kind, reply: &Reply) -> Option<Last> {
    let is_user_byte = |at: &usize| at.is_multiple_of(32);
    let is_block_number = |at: &usize| at % 32 >= 16;
    let mut changed = reply.changes[3]
        .iter()
        .flatten()
        .flat_map(|change| change.at..change.at + change.bytes.len())
        .filter(|at| *at < kind.directory());
    match reply.answer % 256 {
        2 => changed.find(is_block_number).map(|_| Last::Block),
        5 => changed.find(is_user_byte).map(|_| Last::Entry),
        _ => None,
    }
}

const NONE: [bool; BUFFERS.len()] = [false; BUFFERS.len()];
const FCB: usize = 0;
const DMA: usize = 1;
const LIST_BUFFER: usize = 2;
const IMAGE: usize = 3;
const VECTOR: usize = 4;

fn these(buffers: &[usize]) -> [bool; BUFFERS.len()] {
    std::array::from_fn(|buffer| buffers.contains(&buffer))
}

/// Which buffers a step may change that was answered so.
fn buffers_that_may_change(step: &Step, answer: u32) -> [bool; BUFFERS.len()] {
    let numbers = match step {
        Step::Start { .. } if answer == 0 => return these(&[LIST_BUFFER]),
        Step::Build { .. } if answer == 0 => return these(&[VECTOR]),
        Step::Call { numbers, .. } => *numbers,
        _ => return NONE,
    };
    match Deed::of_call(numbers, answer) {
        Deed::Refused => return NONE,
        Deed::NoMatch => return these(&[LIST_BUFFER]),
        Deed::Found(_) => return these(&[DMA, LIST_BUFFER]),
        Deed::Done | Deed::Records { .. } => {}
    }
    match numbers.function {
        15 => these(&[FCB, LIST_BUFFER]),
        22 => these(&[FCB, LIST_BUFFER, IMAGE]),
        35 => these(&[FCB]),
        33 | 46 => these(&[DMA]),
        19 => these(&[LIST_BUFFER, IMAGE, VECTOR]),
        34 | 40 => these(&[IMAGE, VECTOR]),
        23 | 41 => these(&[IMAGE]),
        16 | 42 | 43 | 143 => these(&[LIST_BUFFER]),
        _ => NONE,
    }
}

/// The FCB after the call.
pub fn changed_fcb(fcb: &[u8], reply: &Reply) -> Vec<u8> {
    changed(fcb, &reply.changes[0])
}

/// The DMA after the call.
pub fn changed_dma(dma: &[u8], reply: &Reply) -> Vec<u8> {
    changed(dma, &reply.changes[1])
}

fn changed(bytes: &[u8], changes: &Option<Vec<Change>>) -> Vec<u8> {
    let mut bytes = bytes.to_vec();
    for change in changes.iter().flatten() {
        bytes[change.at..change.at + change.bytes.len()].copy_from_slice(&change.bytes);
    }
    bytes
}
