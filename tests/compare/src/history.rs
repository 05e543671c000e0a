//! What the calls so far have granted, kept apart from the list and the image, and the checks
//! that list and image agree with it. Nothing of the decoders is used here.

use crate::build::POSITIONS;
use crate::deed::Deed;
use reference::kind::Kind;
use std::collections::{BTreeMap, BTreeSet};
use std::ops::Range;

/// A user and eleven name bytes, high bits clear.
#[derive(Clone, Copy, Debug, PartialEq, Eq, PartialOrd, Ord)]
pub struct FileName {
    pub user: u8,
    pub name: [u8; 11],
}

/// Records of a file that share a block: eight of them, on a drive of the second kind sixteen.
#[derive(Clone, Copy, Debug, PartialEq, Eq, PartialOrd, Ord)]
pub struct Group {
    pub file: FileName,
    pub number: u32,
}

#[derive(Clone, Copy, Debug, PartialEq, Eq, PartialOrd, Ord)]
struct Lock {
    process: u8,
    file: FileName,
    record: u32,
}

#[derive(Clone, Copy, Debug, PartialEq, Eq, PartialOrd, Ord)]
struct Open {
    process: u8,
    file: FileName,
    mode: u8,
}

#[derive(Clone, Copy, Debug, PartialEq, Eq, PartialOrd, Ord)]
enum Holding {
    Open(Open),
    Lock(Lock),
}

/// A call as it was lent to the engine, and its answer.
pub struct Noted<'a> {
    pub function: u32,
    pub process: u32,
    pub count: u32,
    pub fcb: &'a [u8],
    pub answer: u32,
}

/// A record that somebody has locked, as Look showed it before a call.
pub struct Kept {
    lock: Lock,
    bytes: Option<Vec<u8>>,
}

#[derive(Clone)]
pub struct History {
    kind: Kind,
    capacity: usize,
    open_limit: usize,
    lock_limit: usize,
    users: [u8; 16],
    opens: BTreeMap<(u8, FileName), u8>,
    locks: BTreeSet<Lock>,
    groups: BTreeSet<Group>,
    /// Where each process's search goes on.
    positions: [u8; 16],
}

fn low_bits(bytes: &[u8]) -> [u8; 11] {
    std::array::from_fn(|i| bytes[i] & 127)
}

fn records_of_group(kind: Kind) -> u32 {
    match kind {
        Kind::First => 8,
        Kind::Second => 16,
    }
}

/// The position of a process that has no search under way.
fn last_position(kind: Kind) -> u8 {
    match kind {
        Kind::First => 64,
        Kind::Second => 128,
    }
}

fn vector_length(kind: Kind) -> usize {
    match kind {
        Kind::First => 32,
        Kind::Second => 512,
    }
}

fn block_length(kind: Kind) -> usize {
    128 * records_of_group(kind) as usize
}

/// The number and the block of each group that an entry has a block for.
fn groups_of_entry(kind: Kind, entry: &[u8]) -> impl Iterator<Item = (u32, u16)> + '_ {
    let extent = u32::from(entry[12]) + 32 * u32::from(entry[14]);
    let groups = 128 / records_of_group(kind);
    (0..groups).filter_map(move |index| {
        let at = index as usize;
        let block = match kind {
            Kind::First => u16::from(entry[16 + at]),
            Kind::Second => u16::from(entry[16 + 2 * at]) | u16::from(entry[17 + 2 * at]) << 8,
        };
        (block != 0).then_some((groups * extent + index, block))
    })
}

/// The groups that have a block, with the block; the image must be sound.
pub fn blocks_of_groups(kind: Kind, image: &[u8]) -> Vec<(Group, u16)> {
    let mut found = Vec::new();
    let directory = &image[..2 * block_length(kind)];
    for entry in directory.chunks(32).filter(|entry| entry[0] != 0xE5) {
        let file = FileName {
            user: entry[0],
            name: low_bits(&entry[1..12]),
        };
        let groups = groups_of_entry(kind, entry);
        found.extend(groups.map(|(number, block)| (Group { file, number }, block)));
    }
    found
}

pub fn groups_with_block(kind: Kind, image: &[u8]) -> BTreeSet<Group> {
    blocks_of_groups(kind, image)
        .into_iter()
        .map(|(group, _)| group)
        .collect()
}

/// The record as Look would show it, given the blocks of the image's groups.
fn shown<'a>(kind: Kind, lock: &Lock, blocks: &[(Group, u16)], image: &'a [u8]) -> Option<&'a [u8]> {
    let records = records_of_group(kind);
    let group = Group {
        file: lock.file,
        number: lock.record / records,
    };
    let (_, block) = blocks.iter().find(|(has, _)| *has == group)?;
    let at = block_length(kind) * usize::from(*block) + 128 * (lock.record % records) as usize;
    image.get(at..at + 128)
}

impl History {
    /// What begins with an accepted Start.
    pub fn new(kind: Kind, numbers: [u32; 3], users: [u8; 16], groups: BTreeSet<Group>) -> History {
        let [capacity, open_limit, lock_limit] = numbers.map(|number| number as usize);
        History {
            kind,
            capacity,
            open_limit,
            lock_limit,
            users,
            opens: BTreeMap::new(),
            locks: BTreeSet::new(),
            groups,
            positions: [last_position(kind); 16],
        }
    }

    pub fn note(&mut self, call: &Noted) {
        let deed = Deed::of(call.function, call.count, call.answer);
        let process = call.process as u8;
        match (call.function, deed) {
            (_, Deed::Refused | Deed::Found(_)) | (46, _) => return,
            (_, Deed::NoMatch) => return self.end_search(process),
            (143, _) => return self.terminate(process),
            _ => {}
        }
        let file = FileName {
            user: self.users[usize::from(process)],
            name: low_bits(&call.fcb[1..12]),
        };
        let record = u32::from_le_bytes([call.fcb[33], call.fcb[34], call.fcb[35], 0]);
        match call.function {
            15 => self.grant_open(process, file, mode_asked(call.fcb, true)),
            22 => self.grant_open(process, file, mode_asked(call.fcb, false)),
            16 => self.close(process, file),
            19 => self.delete(process, file),
            23 => self.carry_over(file, low_bits(&call.fcb[17..28])),
            34 | 40 => self.touch(file, record..record + deed.records()),
            42 => self.grant_run(process, file, record..record + call.count),
            43 => self.release_run(process, file, record..record + call.count),
            _ => {}
        }
    }

    fn grant_open(&mut self, process: u8, file: FileName, mode: u8) {
        self.opens.insert((process, file), mode);
    }

    fn close(&mut self, process: u8, file: FileName) {
        self.opens.remove(&(process, file));
        self.locks
            .retain(|lock| lock.process != process || lock.file != file);
    }

    /// Nobody else has the file open. What the caller has goes as by a Close.
    fn delete(&mut self, process: u8, file: FileName) {
        self.groups.retain(|group| group.file != file);
        self.close(process, file);
    }

    fn terminate(&mut self, process: u8) {
        self.opens.retain(|key, _| key.0 != process);
        self.locks.retain(|lock| lock.process != process);
        self.end_search(process);
    }

    fn end_search(&mut self, process: u8) {
        self.positions[usize::from(process)] = last_position(self.kind);
    }

    /// After a search that found: the position is behind an entry at the place that the answer
    /// told, which a Next finds no earlier than where the search went on.
    pub fn note_found(&mut self, call: &Noted, list: &[u8]) -> Result<(), String> {
        let Deed::Found(place) = Deed::of(call.function, call.count, call.answer) else {
            return Ok(());
        };
        let kept = &mut self.positions[call.process as usize];
        let position = list[POSITIONS][call.process as usize];
        let first = if call.function == 17 { 0 } else { *kept };
        let behind = position > first && position <= last_position(self.kind);
        if !behind || (position - 1) % 4 != place {
            return Err(format!(
                "a search from {first} told place {place} and left position {position}"
            ));
        }
        *kept = position;
        Ok(())
    }

    fn carry_over(&mut self, old: FileName, name: [u8; 11]) {
        let new = FileName { name, ..old };
        let carried = |group: &Group| match group.file == old {
            true => Group { file: new, ..*group },
            false => *group,
        };
        self.groups = self.groups.iter().map(carried).collect();
    }

    fn touch(&mut self, file: FileName, records: Range<u32>) {
        let touched = records.map(|record| Group {
            file,
            number: record / records_of_group(self.kind),
        });
        self.groups.extend(touched);
    }

    fn is_open_unlocked(&self, process: u8, file: FileName) -> bool {
        self.opens.get(&(process, file)) == Some(&1)
    }

    fn grant_run(&mut self, process: u8, file: FileName, run: Range<u32>) {
        if !self.is_open_unlocked(process, file) {
            return;
        }
        let granted = run.map(|record| Lock {
            process,
            file,
            record,
        });
        self.locks.extend(granted);
    }

    fn release_run(&mut self, process: u8, file: FileName, run: Range<u32>) {
        self.locks
            .retain(|lock| lock.process != process || lock.file != file || !run.contains(&lock.record));
    }

    /// The records that processes other than this one have locked, as they stand now.
    pub fn locked_by_others(&self, process: u32, image: &[u8]) -> Vec<Kept> {
        if self.locks.is_empty() {
            return Vec::new();
        }
        let blocks = blocks_of_groups(self.kind, image);
        self.locks
            .iter()
            .filter(|lock| u32::from(lock.process) != process)
            .map(|&lock| Kept {
                lock,
                bytes: shown(self.kind, &lock, &blocks, image).map(<[u8]>::to_vec),
            })
            .collect()
    }

    /// All of demand 3, after a call.
    pub fn check(&self, kept: &[Kept], list: &[u8], image: &[u8]) -> Result<(), String> {
        self.check_groups(image)?;
        self.check_holdings(kept, list, image)
    }

    /// All but the blocks, after a call that changed neither the image nor the groups.
    pub fn check_holdings(&self, kept: &[Kept], list: &[u8], image: &[u8]) -> Result<(), String> {
        self.check_list(list)?;
        self.check_positions(list)?;
        self.check_limits()?;
        self.check_clashes()?;
        check_kept(self.kind, kept, image)
    }

    fn holdings(&self) -> BTreeSet<Holding> {
        let opens = self.opens.iter().map(|(&(process, file), &mode)| {
            let open = Open { process, file, mode };
            Holding::Open(open)
        });
        let locks = self.locks.iter().map(|lock| Holding::Lock(*lock));
        opens.chain(locks).collect()
    }

    /// Nothing but its own searches and its end moves a process's position.
    fn check_positions(&self, list: &[u8]) -> Result<(), String> {
        match list[POSITIONS] == self.positions {
            true => Ok(()),
            false => Err(format!(
                "the positions are {:?}, not {:?}",
                &list[POSITIONS], self.positions
            )),
        }
    }

    fn check_list(&self, list: &[u8]) -> Result<(), String> {
        let (below, from_capacity) = list[19..POSITIONS.start].split_at(20 * self.capacity);
        if from_capacity.iter().any(|&byte| byte != 0) {
            return Err("a place from the capacity on is used".to_string());
        }
        let mut wanted = self.holdings();
        let (mut items, mut free) = (0, 0);
        for place in below.chunks(20) {
            if place.iter().all(|&byte| byte == 0) {
                free += 1;
                continue;
            }
            items += 1;
            let holding = self.holding(place).ok_or("a place holds no item")?;
            if !wanted.remove(&holding) {
                return Err(format!(
                    "the history does not hold {holding:?}, or the list holds it twice"
                ));
            }
        }
        if let Some(missing) = wanted.first() {
            return Err(format!("the list lacks {missing:?}"));
        }
        if items + free != self.capacity {
            return Err(format!(
                "{items} items and {free} free places make no {}",
                self.capacity
            ));
        }
        Ok(())
    }

    fn holding(&self, place: &[u8]) -> Option<Holding> {
        let process = place[2];
        let file = FileName {
            user: *self.users.get(usize::from(process))?,
            name: place[3..14].try_into().ok()?,
        };
        let record = u32::from_le_bytes(place[16..].try_into().ok()?);
        match (&place[..2], place[14], place[15], record) {
            (b"OF", mode, 0, 0) => Some(Holding::Open(Open { process, file, mode })),
            (b"LR", 1, 0, record) => Some(Holding::Lock(Lock {
                process,
                file,
                record,
            })),
            _ => None,
        }
    }

    fn check_limits(&self) -> Result<(), String> {
        for process in 0..16 {
            let opens = self.opens.keys().filter(|key| key.0 == process).count();
            let locks = self.locks.iter().filter(|lock| lock.process == process).count();
            if opens > self.open_limit || locks > self.lock_limit {
                return Err(format!("process {process} has {opens} opens and {locks} locks"));
            }
        }
        Ok(())
    }

    fn check_clashes(&self) -> Result<(), String> {
        let locked: BTreeSet<(FileName, u32)> =
            self.locks.iter().map(|lock| (lock.file, lock.record)).collect();
        if locked.len() != self.locks.len() {
            return Err("a record was granted to two processes".to_string());
        }
        for ((process, file), mode) in &self.opens {
            let clashes = |((its, other), its_mode): (&(u8, FileName), &u8)| {
                other == file && its != process && (its_mode != mode || *mode == 0)
            };
            if self.opens.iter().any(clashes) {
                return Err(format!("opens of {file:?} cannot stand beside each other"));
            }
        }
        Ok(())
    }

    fn check_groups(&self, image: &[u8]) -> Result<(), String> {
        let blocks = blocks_of_groups(self.kind, image);
        let in_use: BTreeSet<u16> = blocks.iter().map(|(_, block)| *block).collect();
        if in_use.len() != blocks.len() {
            return Err("a block serves two groups".to_string());
        }
        let with_block: BTreeSet<Group> = blocks.iter().map(|(group, _)| *group).collect();
        if let Some(group) = with_block.difference(&self.groups).next() {
            return Err(format!(
                "{group:?} has a block, but the history does not count it"
            ));
        }
        if let Some(group) = self.groups.difference(&with_block).next() {
            return Err(format!("{group:?} has no block, but the history counts it"));
        }
        if in_use.len() != self.groups.len() {
            return Err("blocks in use and groups differ in number".to_string());
        }
        let all_blocks = image.len() / block_length(self.kind);
        let in_data_blocks = in_use
            .iter()
            .filter(|&&block| (2..all_blocks).contains(&block.into()));
        let free = all_blocks - 2 - in_data_blocks.count();
        if self.groups.len() + free != all_blocks - 2 {
            return Err("groups and free blocks do not make up the drive".to_string());
        }
        Ok(())
    }

    /// The vector tells the directory's blocks and those that the history's groups have, and no others.
    pub fn check_vector(&self, vector: &[u8], image: &[u8]) -> Result<(), String> {
        let mut wanted = vec![0; 8 * vector_length(self.kind)];
        wanted[..2].fill(1);
        for (_, block) in blocks_of_groups(self.kind, image) {
            wanted[usize::from(block)] = 1;
        }
        let bits = vector
            .iter()
            .flat_map(|byte| (0..8).rev().map(move |place| byte >> place & 1));
        if let Some(block) = bits.clone().zip(&wanted).position(|(is, due)| is != *due) {
            return Err(format!("the vector disagrees about block {block}"));
        }
        match bits.count() == wanted.len() {
            true => Ok(()),
            false => Err(format!("the vector has {} bytes", vector.len())),
        }
    }

    /// Function 46's figure against the history.
    pub fn check_free_space(&self, dma: &[u8], image: &[u8], vector: &[u8]) -> Result<(), String> {
        let figure = u32::from_le_bytes([dma[0], dma[1], dma[2], 0]) as usize;
        let blocks = image.len() / block_length(self.kind);
        let records = records_of_group(self.kind) as usize;
        let set: u32 = vector.iter().map(|byte| byte.count_ones()).sum();
        if figure + records * set as usize != records * blocks {
            return Err(format!(
                "function 46 says {figure}, the vector has {set} bits set"
            ));
        }
        if figure + records * (self.groups.len() + 2) != records * blocks {
            let groups = self.groups.len();
            return Err(format!(
                "function 46 says {figure} of {blocks} blocks with {groups} groups"
            ));
        }
        Ok(())
    }
}

fn mode_asked(fcb: &[u8], may_ask_read_only: bool) -> u8 {
    if may_ask_read_only && fcb[6] > 127 {
        return 2;
    }
    u8::from(fcb[5] > 127)
}

fn check_kept(kind: Kind, kept: &[Kept], image: &[u8]) -> Result<(), String> {
    if kept.is_empty() {
        return Ok(());
    }
    let blocks = blocks_of_groups(kind, image);
    for Kept { lock, bytes } in kept {
        if bytes.is_none() || shown(kind, lock, &blocks, image) != bytes.as_deref() {
            return Err(format!("another's call changed what {lock:?} protects"));
        }
    }
    Ok(())
}
