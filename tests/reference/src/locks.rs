//! The lock list as two maps: who has what open, and who holds which record. Beside them stand
//! where each process's search goes on, and the rule of where a file ends.

use crate::drive::Drive;
use crate::kind::Kind;
use crate::name::{File, Name, HIGH_BIT};
use crate::rule::Rule;
use std::collections::{BTreeMap, BTreeSet};

pub const LIST_LENGTH: usize = RULE + 1;
pub const PROCESSES: usize = 16;

const HEADER: usize = 19;
const PLACES: usize = 64;
const PLACE: usize = 20;
const POSITIONS: usize = HEADER + PLACES * PLACE;
const RULE: usize = POSITIONS + PROCESSES;
const OPEN_MARK: [u8; 2] = [0x4F, 0x46];
const LOCK_MARK: [u8; 2] = [0x4C, 0x52];
const HIGHEST_USER: u8 = 15;

#[derive(Clone, Copy, Debug, PartialEq, Eq)]
pub enum Mode {
    Locked,
    Unlocked,
    ReadOnly,
}

impl Mode {
    fn read(byte: u8) -> Option<Mode> {
        match byte {
            0 => Some(Mode::Locked),
            1 => Some(Mode::Unlocked),
            2 => Some(Mode::ReadOnly),
            _ => None,
        }
    }

    fn byte(self) -> u8 {
        match self {
            Mode::Locked => 0,
            Mode::Unlocked => 1,
            Mode::ReadOnly => 2,
        }
    }

    fn can_stand_beside(self, other: Mode) -> bool {
        self == other && self != Mode::Locked
    }
}

#[derive(Clone, Copy, Debug)]
pub struct Open {
    pub place: usize,
    pub mode: Mode,
}

#[derive(Clone, Copy, Debug)]
pub struct Lock {
    pub place: usize,
    pub process: u8,
}

#[derive(Clone, Debug)]
pub struct LockList {
    capacity: usize,
    open_limit: usize,
    lock_limit: usize,
    users: [u8; PROCESSES],
    opens: BTreeMap<(File, u8), Open>,
    locks: BTreeMap<(File, u32), Lock>,
    /// The entry at which each process's search goes on.
    positions: [usize; PROCESSES],
    /// The position of a search that has come to its end.
    end: usize,
    rule: Rule,
}

/// The rule by which an image beside this list is judged; the list has its length, and may be unsound.
pub fn rule_of_image(list: &[u8]) -> Rule {
    Rule::told(list[RULE].into())
}

fn limit(number: u32) -> Option<usize> {
    (1..=64).contains(&number).then_some(number as usize)
}

impl LockList {
    /// What Start writes for a drive of this kind.
    pub fn fresh(
        kind: Kind,
        capacity: u32,
        open_limit: u32,
        lock_limit: u32,
        rule: u32,
        users: &[u8],
    ) -> Option<LockList> {
        let users: [u8; PROCESSES] = users.try_into().ok()?;
        if users.iter().any(|&user| user > HIGHEST_USER) {
            return None;
        }
        Some(LockList {
            capacity: limit(capacity)?,
            open_limit: limit(open_limit)?,
            lock_limit: limit(lock_limit)?,
            users,
            opens: BTreeMap::new(),
            locks: BTreeMap::new(),
            positions: [kind.entries(); PROCESSES],
            end: kind.entries(),
            rule: Rule::chosen(rule)?,
        })
    }

    /// None if the list is not sound beside this drive.
    pub fn read(bytes: &[u8], drive: &Drive) -> Option<LockList> {
        if bytes.len() != LIST_LENGTH {
            return None;
        }
        let [capacity, open_limit, lock_limit] = [0, 1, 2].map(|at| u32::from(bytes[at]));
        let (rule, users) = (u32::from(bytes[RULE]), &bytes[3..HEADER]);
        let mut list = LockList::fresh(drive.kind(), capacity, open_limit, lock_limit, rule, users)?;
        for (place, item) in bytes[HEADER..POSITIONS].chunks_exact(PLACE).enumerate() {
            list.take_in(place, item)?;
        }
        list.positions = std::array::from_fn(|process| usize::from(bytes[POSITIONS + process]));
        list.is_sound_beside(drive).then_some(list)
    }

    fn take_in(&mut self, place: usize, item: &[u8]) -> Option<()> {
        if item.iter().all(|&byte| byte == 0) {
            return Some(());
        }
        let process = item[2];
        let name_bytes = &item[3..14];
        let zero = item[15];
        let record = u32::from_le_bytes([item[16], item[17], item[18], item[19]]);
        let high_bits = name_bytes.iter().any(|byte| byte & HIGH_BIT != 0);
        if place >= self.capacity || high_bits || zero != 0 || record >= self.rule.record_limit() {
            return None;
        }
        let user = *self.users.get(usize::from(process))?;
        let mode = Mode::read(item[14])?;
        let name = Name::read(name_bytes)?;
        let file = File { user, name };
        match [item[0], item[1]] {
            OPEN_MARK if record == 0 => self.take_in_open(file, process, Open { place, mode }),
            LOCK_MARK if mode == Mode::Unlocked => self.take_in_lock(file, record, Lock { place, process }),
            _ => None,
        }
    }

    fn take_in_open(&mut self, file: File, process: u8, open: Open) -> Option<()> {
        let twin = self.opens.insert((file, process), open);
        twin.is_none().then_some(())
    }

    fn take_in_lock(&mut self, file: File, record: u32, lock: Lock) -> Option<()> {
        let twin = self.locks.insert((file, record), lock);
        twin.is_none().then_some(())
    }

    fn is_sound_beside(&self, drive: &Drive) -> bool {
        self.keeps_limits()
            && self.positions_are_sound()
            && self.opens_are_sound(drive)
            && self.locks_are_sound(drive)
    }

    fn positions_are_sound(&self) -> bool {
        self.positions.iter().all(|&position| position <= self.end)
    }

    fn keeps_limits(&self) -> bool {
        (0..PROCESSES as u8).all(|process| {
            self.open_count(process) <= self.open_limit && self.held(process) <= self.lock_limit
        })
    }

    fn opens_are_sound(&self, drive: &Drive) -> bool {
        self.opens
            .iter()
            .all(|(&(file, process), open)| drive.has(&file) && self.others_allow(&file, process, open.mode))
    }

    fn locks_are_sound(&self, drive: &Drive) -> bool {
        self.locks.iter().all(|(&(file, record), lock)| {
            let open = self.open(&file, lock.process);
            open.is_some_and(|open| open.mode == Mode::Unlocked) && drive.block(&file, record).is_some()
        })
    }

    pub fn rule(&self) -> Rule {
        self.rule
    }

    pub fn user(&self, process: u8) -> u8 {
        self.users[usize::from(process)]
    }

    /// The entry at which the process's search goes on.
    pub fn position(&self, process: u8) -> usize {
        self.positions[usize::from(process)]
    }

    pub fn has_search_under_way(&self, process: u8) -> bool {
        self.position(process) < self.end
    }

    pub fn go_on_behind(&mut self, process: u8, slot: usize) {
        self.positions[usize::from(process)] = slot + 1;
    }

    pub fn end_search(&mut self, process: u8) {
        self.positions[usize::from(process)] = self.end;
    }

    pub fn open(&self, file: &File, process: u8) -> Option<Open> {
        self.opens.get(&(*file, process)).copied()
    }

    fn opens_of(&self, file: &File) -> impl Iterator<Item = (u8, &Open)> {
        self.opens
            .range((*file, 0)..=(*file, u8::MAX))
            .map(|(&(_, process), open)| (process, open))
    }

    pub fn is_open(&self, file: &File) -> bool {
        self.opens_of(file).next().is_some()
    }

    /// Somebody has some file open.
    pub fn holds_an_open(&self) -> bool {
        !self.opens.is_empty()
    }

    pub fn is_open_by_another(&self, file: &File, process: u8) -> bool {
        self.opens_of(file).any(|(other, _)| other != process)
    }

    /// Every other process's open of the file can stand beside one in this mode.
    pub fn others_allow(&self, file: &File, process: u8, mode: Mode) -> bool {
        self.opens_of(file)
            .all(|(other, open)| other == process || open.mode.can_stand_beside(mode))
    }

    pub fn open_count(&self, process: u8) -> usize {
        self.opens.keys().filter(|(_, owner)| *owner == process).count()
    }

    pub fn at_open_limit(&self, process: u8) -> bool {
        self.open_count(process) >= self.open_limit
    }

    pub fn holder(&self, file: &File, record: u32) -> Option<u8> {
        self.locks.get(&(*file, record)).map(|lock| lock.process)
    }

    pub fn is_held_by_another(&self, file: &File, record: u32, process: u8) -> bool {
        self.holder(file, record).is_some_and(|holder| holder != process)
    }

    /// How many records the process holds, in all files.
    pub fn held(&self, process: u8) -> usize {
        self.locks.values().filter(|lock| lock.process == process).count()
    }

    pub fn lock_limit(&self) -> usize {
        self.lock_limit
    }

    pub fn free_places(&self) -> BTreeSet<usize> {
        let mut free: BTreeSet<usize> = (0..self.capacity).collect();
        for open in self.opens.values() {
            free.remove(&open.place);
        }
        for lock in self.locks.values() {
            free.remove(&lock.place);
        }
        free
    }

    pub fn add_open(&mut self, file: File, process: u8, open: Open) {
        self.opens.insert((file, process), open);
    }

    pub fn add_lock(&mut self, file: File, record: u32, lock: Lock) {
        self.locks.insert((file, record), lock);
    }

    /// Takes the open and the process's locks on the file away; gives the number of locks.
    pub fn close(&mut self, file: &File, process: u8) -> usize {
        self.opens.remove(&(*file, process));
        self.drop_locks(|locked, _, holder| locked == file && holder == process)
    }

    pub fn unlock(&mut self, file: &File, process: u8, run: &std::ops::Range<u32>) -> usize {
        self.drop_locks(|locked, record, holder| locked == file && holder == process && run.contains(&record))
    }

    /// Takes all of the process's items away and ends its search; gives the number of the items.
    pub fn terminate(&mut self, process: u8) -> usize {
        self.end_search(process);
        let opens = self.open_count(process);
        self.opens.retain(|(_, owner), _| *owner != process);
        opens + self.drop_locks(|_, _, holder| holder == process)
    }

    fn drop_locks(&mut self, goes: impl Fn(&File, u32, u8) -> bool) -> usize {
        let before = self.locks.len();
        self.locks
            .retain(|(file, record), lock| !goes(file, *record, lock.process));
        before - self.locks.len()
    }

    pub fn write(&self) -> [u8; LIST_LENGTH] {
        let mut bytes = [0; LIST_LENGTH];
        bytes[0] = self.capacity as u8;
        bytes[1] = self.open_limit as u8;
        bytes[2] = self.lock_limit as u8;
        bytes[3..HEADER].copy_from_slice(&self.users);
        for (&(file, process), open) in &self.opens {
            let item = item_bytes(OPEN_MARK, process, file.name, open.mode, 0);
            put_item(&mut bytes, open.place, &item);
        }
        for (&(file, record), lock) in &self.locks {
            let item = item_bytes(LOCK_MARK, lock.process, file.name, Mode::Unlocked, record);
            put_item(&mut bytes, lock.place, &item);
        }
        for (byte, position) in bytes[POSITIONS..RULE].iter_mut().zip(self.positions) {
            *byte = position as u8;
        }
        bytes[RULE] = self.rule.number() as u8;
        bytes
    }
}

fn item_bytes(mark: [u8; 2], process: u8, name: Name, mode: Mode, record: u32) -> [u8; PLACE] {
    let mut item = [0; PLACE];
    item[..2].copy_from_slice(&mark);
    item[2] = process;
    item[3..14].copy_from_slice(&name.bytes());
    item[14] = mode.byte();
    item[16..].copy_from_slice(&record.to_le_bytes());
    item
}

fn put_item(bytes: &mut [u8; LIST_LENGTH], place: usize, item: &[u8; PLACE]) {
    debug_assert!(place < PLACES);
    let at = HEADER + PLACE * place;
    bytes[at..at + PLACE].copy_from_slice(item);
}
