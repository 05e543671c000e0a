//! The sixteen calls. Each works on what was decoded and says what is to change; the buffers are
//! written only after it has succeeded, has done some of its records, or has searched in vain.

use crate::answer::{code, extended, Answer, Refusal};
use crate::drive::{extent_of, Drive, Fault};
use crate::kind::{Kind, RECORD};
use crate::locks::{rule_of_image, Lock, LockList, Mode, Open, LIST_LENGTH, PROCESSES};
use crate::name::{File, Name, Pattern, HIGH_BIT};
use std::ops::Range;

pub const FCB_LENGTH: usize = 36;
pub const DMA_LENGTH: usize = 2_048;
pub const MOST_RECORDS: u32 = 16;

/// The functions that do their records one after another.
pub const RUN_FUNCTIONS: [u32; 3] = [33, 34, 40];

const FUNCTIONS: [u32; 16] = [15, 16, 17, 18, 19, 22, 23, 33, 34, 35, 40, 41, 42, 43, 46, 143];
const WITHOUT_FCB: [u32; 2] = [46, 143];

/// The FCB byte that says which extents a search admits: all where it is just "?".
const EXTENT_BYTE: usize = 12;
const ANY_EXTENT: u8 = b'?';

/// The numbers of a call, as the host gives them.
#[derive(Clone, Copy, Debug, PartialEq, Eq)]
pub struct Numbers {
    pub kind: u32,
    pub function: u32,
    pub process: u32,
    pub count: u32,
}

/// The five buffers lent for a call.
pub struct Buffers<'a> {
    pub fcb: &'a mut [u8],
    pub dma: &'a mut [u8],
    pub list: &'a mut [u8],
    pub image: &'a mut [u8],
    pub vector: &'a mut [u8],
}

struct Scene<'a> {
    process: u8,
    count: u32,
    fcb: [u8; FCB_LENGTH],
    dma: [u8; DMA_LENGTH],
    list: LockList,
    drive: Drive,
    image: &'a [u8],
}

struct Write {
    at: usize,
    bytes: Vec<u8>,
}

/// Where a run was stopped after some of its records.
struct Stop {
    refusal: Refusal,
    done: u8,
}

/// What a call changes that no refusal applies to, or that was stopped on its way; `kind` is for
/// coverage only.
struct Effects {
    kind: &'static str,
    answer: Answer,
    stop: Option<Stop>,
    fcb: Option<[u8; FCB_LENGTH]>,
    dma: Option<[u8; DMA_LENGTH]>,
    list: Option<LockList>,
    drive: Option<Drive>,
    data: Vec<Write>,
}

type Outcome = Result<Effects, Refusal>;

/// What the records written so far have made of the drive.
struct Writing {
    drive: Drive,
    data: Vec<Write>,
    zero_fill: bool,
    took_extent: bool,
    took_block: bool,
}

/// What Lock and Unlock have to do.
enum Locking {
    NoEffect(&'static str),
    Run(File, Range<u32>),
}

impl Effects {
    fn none(kind: &'static str) -> Effects {
        Effects {
            kind,
            answer: Answer::SUCCESS,
            stop: None,
            fcb: None,
            dma: None,
            list: None,
            drive: None,
            data: Vec::new(),
        }
    }

    fn of_list(kind: &'static str, list: LockList) -> Effects {
        Effects {
            list: Some(list),
            ..Effects::none(kind)
        }
    }

    fn of_drive(kind: &'static str, drive: Drive) -> Effects {
        Effects {
            drive: Some(drive),
            ..Effects::none(kind)
        }
    }

    fn of_fcb(kind: &'static str, fcb: [u8; FCB_LENGTH]) -> Effects {
        Effects {
            fcb: Some(fcb),
            ..Effects::none(kind)
        }
    }

    fn of_dma(kind: &'static str, dma: [u8; DMA_LENGTH]) -> Effects {
        Effects {
            dma: Some(dma),
            ..Effects::none(kind)
        }
    }

    /// The answer, and which of the reasons or kinds of success it was.
    fn told(&self) -> (Answer, &'static str) {
        match &self.stop {
            None => (self.answer, self.kind),
            Some(Stop { refusal, done }) => (refusal.answer.after(*done), refusal.why),
        }
    }

    fn apply(self, before: &Drive, buffers: Buffers) {
        if let Some(fcb) = self.fcb {
            buffers.fcb.copy_from_slice(&fcb);
        }
        if let Some(dma) = self.dma {
            buffers.dma.copy_from_slice(&dma);
        }
        if let Some(list) = self.list {
            buffers.list.copy_from_slice(&list.write());
        }
        if let Some(drive) = self.drive {
            drive.write_changes(before, buffers.image);
            buffers.vector.copy_from_slice(&drive.vector());
        }
        for Write { at, bytes } in self.data {
            buffers.image[at..at + bytes.len()].copy_from_slice(&bytes);
        }
    }
}

/// The answer, and which of the reasons or kinds of success it was.
pub fn call_explained(numbers: Numbers, buffers: Buffers) -> (Answer, &'static str) {
    let scene = match scene(numbers, &buffers) {
        Ok(scene) => scene,
        Err(refusal) => return (refusal.answer, refusal.why),
    };
    match scene.serve(numbers.function) {
        Err(refusal) => (refusal.answer, refusal.why),
        Ok(effects) => {
            let told = effects.told();
            let before = scene.drive;
            effects.apply(&before, buffers);
            told
        }
    }
}

/// Goes from record to record, each with its part of the DMA, until one is refused. A refusal of
/// the first is one of the whole call.
fn go_along(
    records: Range<u32>,
    mut step: impl FnMut(u32, Range<usize>) -> Result<(), Refusal>,
) -> Result<Option<Stop>, Refusal> {
    for (done, record) in (0..).zip(records) {
        let at = RECORD * usize::from(done);
        match step(record, at..at + RECORD) {
            Ok(()) => {}
            Err(refusal) if done == 0 => return Err(refusal),
            Err(refusal) => return Ok(Some(Stop { refusal, done })),
        }
    }
    Ok(None)
}

fn scene<'a>(numbers: Numbers, buffers: &'a Buffers) -> Result<Scene<'a>, Refusal> {
    let (kind, process) = judged_numbers(numbers)?;
    let fcb: [u8; FCB_LENGTH] = (&*buffers.fcb)
        .try_into()
        .map_err(|_| extended(13, "FCB of wrong length"))?;
    let dma: [u8; DMA_LENGTH] = (&*buffers.dma)
        .try_into()
        .map_err(|_| extended(13, "DMA of wrong length"))?;
    if buffers.list.len() != LIST_LENGTH {
        return Err(extended(13, "list of wrong length"));
    }
    if buffers.vector.len() != kind.vector() {
        return Err(extended(13, "vector of wrong length"));
    }
    let drive =
        Drive::read(kind, rule_of_image(buffers.list), buffers.image).map_err(|fault| match fault {
            Fault::Length => extended(1, "image of wrong length"),
            Fault::OtherKind => extended(1, "image of the other kind's length"),
            Fault::Entry(..) => extended(1, "unsound directory"),
        })?;
    let list = LockList::read(buffers.list, &drive).ok_or(extended(12, "unsound list"))?;
    if *buffers.vector != drive.vector() {
        return Err(extended(14, "vector that disagrees"));
    }
    if !WITHOUT_FCB.contains(&numbers.function) && fcb[0] > 1 {
        return Err(extended(4, "not drive A"));
    }
    Ok(Scene {
        process,
        count: numbers.count,
        fcb,
        dma,
        list,
        drive,
        image: buffers.image,
    })
}

fn judged_numbers(numbers: Numbers) -> Result<(Kind, u8), Refusal> {
    let kind = Kind::told(numbers.kind).ok_or(extended(13, "unknown kind"))?;
    if !FUNCTIONS.contains(&numbers.function) {
        return Err(extended(13, "unknown function"));
    }
    if numbers.process >= PROCESSES as u32 {
        return Err(extended(13, "process over 15"));
    }
    if numbers.count < 1 {
        return Err(extended(13, "count below 1"));
    }
    if numbers.count > MOST_RECORDS {
        return Err(extended(13, "count above 16"));
    }
    Ok((kind, numbers.process as u8))
}

impl Scene<'_> {
    fn serve(&self, function: u32) -> Outcome {
        match function {
            15 => self.open(),
            16 => self.close(),
            17 => self.search_first(),
            18 => self.search_next(),
            19 => self.delete(),
            22 => self.make(),
            23 => self.rename(),
            33 => self.read_random(),
            34 => self.write_random(false),
            35 => self.file_size(),
            40 => self.write_random(true),
            41 => self.test_and_write(),
            42 => self.lock_records(),
            43 => self.unlock_records(),
            46 => self.free_space(),
            143 => self.terminate(),
            _ => Err(extended(13, "unknown function")),
        }
    }

    /// The file that eleven bytes of the FCB name, under the caller's user.
    fn named_at(&self, at: usize) -> Option<File> {
        let name = Name::read(&self.fcb[at..at + 11])?;
        let user = self.list.user(self.process);
        Some(File { user, name })
    }

    fn named(&self) -> Option<File> {
        self.named_at(1)
    }

    fn own_open(&self) -> Option<(File, Open)> {
        let file = self.named()?;
        let open = self.list.open(&file, self.process)?;
        Some((file, open))
    }

    fn own_open_or_10(&self) -> Result<(File, Open), Refusal> {
        self.own_open().ok_or(code(10, "not open"))
    }

    fn record_number(&self) -> u32 {
        u32::from_le_bytes([self.fcb[33], self.fcb[34], self.fcb[35], 0])
    }

    /// The FCB's record and those after it; they may pass the last one that there can be.
    fn records(&self) -> Range<u32> {
        let first = self.record_number();
        first..first + self.count
    }

    /// One past the last record that there can be, by the list's rule.
    fn record_limit(&self) -> u32 {
        self.list.rule().record_limit()
    }

    fn in_range(&self, record: u32) -> Result<(), Refusal> {
        if record >= self.record_limit() {
            return Err(code(6, "record too high"));
        }
        Ok(())
    }

    /// The records, where none may pass the last one.
    fn run(&self) -> Result<Range<u32>, Refusal> {
        let run = self.records();
        self.in_range(run.start)?;
        if run.end > self.record_limit() {
            return Err(code(6, "run passes the last record"));
        }
        Ok(run)
    }

    fn fcb_high_bit(&self, byte: usize) -> bool {
        self.fcb[byte] & HIGH_BIT != 0
    }

    fn mode_asked_by_make(&self) -> Mode {
        if self.fcb_high_bit(5) {
            return Mode::Unlocked;
        }
        Mode::Locked
    }

    fn mode_asked_by_open(&self) -> Mode {
        if self.fcb_high_bit(6) {
            return Mode::ReadOnly;
        }
        self.mode_asked_by_make()
    }

    fn lowest_free_place(&self) -> Result<usize, Refusal> {
        let place = self.list.free_places().first().copied();
        place.ok_or(extended(11, "no empty place"))
    }

    /// The FCB as Open and Make leave it.
    fn opened_fcb(&self, drive: &Drive, file: &File, open: Open) -> [u8; FCB_LENGTH] {
        let mut fcb = self.fcb;
        let first = drive.extent(file, 0);
        fcb[12..15].fill(0);
        fcb[15] = first.map_or(0, |extent| extent.count);
        fcb[16..32].copy_from_slice(&first.map_or([0; 16], |extent| drive.map(extent)));
        if open.mode == Mode::Unlocked {
            fcb[33..35].copy_from_slice(&file_id(open));
            fcb[35] = 0;
        }
        fcb
    }

    fn open(&self) -> Outcome {
        let file = self.named().ok_or(extended(9, "illegal name"))?;
        if !self.drive.has(&file) {
            return Err(extended(0, "no such file"));
        }
        let mode = self.mode_asked_by_open();
        if let Some(open) = self.list.open(&file, self.process) {
            return self.open_again(&file, open, mode);
        }
        if !self.list.others_allow(&file, self.process, mode) {
            return Err(extended(5, "beside another's open"));
        }
        if self.list.at_open_limit(self.process) {
            return Err(extended(10, "at the open limit"));
        }
        let place = self.lowest_free_place()?;
        let open = Open { place, mode };
        let mut list = self.list.clone();
        list.add_open(file, self.process, open);
        let kind = match (mode, self.list.is_open(&file)) {
            (Mode::Locked, _) => "opened locked",
            (Mode::Unlocked, false) => "opened unlocked, alone",
            (Mode::Unlocked, true) => "opened unlocked, beside another",
            (Mode::ReadOnly, false) => "opened read-only, alone",
            (Mode::ReadOnly, true) => "opened read-only, beside another",
        };
        Ok(Effects {
            fcb: Some(self.opened_fcb(&self.drive, &file, open)),
            ..Effects::of_list(kind, list)
        })
    }

    fn open_again(&self, file: &File, open: Open, mode: Mode) -> Outcome {
        if open.mode != mode {
            return Err(extended(5, "open in another mode"));
        }
        let kind = match mode {
            Mode::Locked => "open again, locked",
            Mode::Unlocked => "open again, unlocked",
            Mode::ReadOnly => "open again, read-only",
        };
        Ok(Effects {
            fcb: Some(self.opened_fcb(&self.drive, file, open)),
            ..Effects::none(kind)
        })
    }

    fn make(&self) -> Outcome {
        let file = self.named().ok_or(extended(9, "illegal name"))?;
        if self.drive.has(&file) {
            return Err(extended(8, "file exists"));
        }
        if self.list.at_open_limit(self.process) {
            return Err(extended(10, "at the open limit"));
        }
        let place = self.lowest_free_place()?;
        let mut drive = self.drive.clone();
        drive.make(file).ok_or(extended(0, "no empty entry"))?;
        let mode = self.mode_asked_by_make();
        let open = Open { place, mode };
        let mut list = self.list.clone();
        list.add_open(file, self.process, open);
        let kind = match mode {
            Mode::Unlocked => "made unlocked",
            _ => "made locked",
        };
        Ok(Effects {
            fcb: Some(self.opened_fcb(&drive, &file, open)),
            drive: Some(drive),
            ..Effects::of_list(kind, list)
        })
    }

    fn close(&self) -> Outcome {
        let (file, _) = self.own_open().ok_or(extended(6, "not open"))?;
        let mut list = self.list.clone();
        let locks = list.close(&file, self.process);
        let kind = match locks {
            0 => "closed, no locks",
            _ => "closed with locks",
        };
        Ok(Effects::of_list(kind, list))
    }

    fn search_first(&self) -> Outcome {
        Ok(self.search_from(0))
    }

    fn search_next(&self) -> Outcome {
        Ok(match self.list.has_search_under_way(self.process) {
            true => self.search_from(self.list.position(self.process)),
            false => self.no_match("no match, the search was at its end"),
        })
    }

    /// Nothing but the directory as it stands, the FCB's pattern and the caller's user matters.
    fn search_from(&self, from: usize) -> Effects {
        let pattern = Pattern::read(std::array::from_fn(|i| self.fcb[1 + i]));
        let any_extent = self.fcb[EXTENT_BYTE] == ANY_EXTENT;
        let user = self.list.user(self.process);
        let Some((slot, extent)) = self.drive.search(user, &pattern, any_extent, from) else {
            return self.no_match("no match");
        };
        let (record, place) = self.drive.directory_record(slot);
        let mut dma = self.dma;
        dma[..RECORD].copy_from_slice(&self.image[record]);
        let mut list = self.list.clone();
        list.go_on_behind(self.process, slot);
        let kind = match (any_extent, extent) {
            (false, _) => "found, of extents 0",
            (true, 0) => "found extent 0, of all",
            (true, _) => "found a later extent, of all",
        };
        Effects {
            answer: Answer::code(place),
            dma: Some(dma),
            ..Effects::of_list(kind, list)
        }
    }

    /// No refusal: it sets the caller's position.
    fn no_match(&self, kind: &'static str) -> Effects {
        let mut list = self.list.clone();
        list.end_search(self.process);
        Effects {
            answer: Answer::extended(0),
            ..Effects::of_list(kind, list)
        }
    }

    /// Another process's open stops Delete; the caller's own goes with the file.
    fn delete(&self) -> Outcome {
        let file = self.named().ok_or(extended(9, "illegal name"))?;
        if !self.drive.has(&file) {
            return Err(extended(0, "no such file"));
        }
        let own = self.list.open(&file, self.process);
        if self.list.is_open_by_another(&file, self.process) {
            return Err(match own {
                None => extended(5, "open by another"),
                Some(_) => extended(5, "open by another and the caller"),
            });
        }
        if self.drive.is_read_only(&file) {
            return Err(match own {
                None => extended(3, "read-only attribute"),
                Some(_) => extended(3, "read-only attribute, open by the caller"),
            });
        }
        let mut drive = self.drive.clone();
        drive.delete(&file);
        let Some(own) = own else {
            let kind = match self.drive.entries_of(&file) {
                1 => "deleted one entry",
                _ => "deleted several entries",
            };
            return Ok(Effects::of_drive(kind, drive));
        };
        let mut list = self.list.clone();
        let locks = list.close(&file, self.process);
        let kind = match (own.mode, locks) {
            (Mode::Locked, _) => "deleted, open locked",
            (Mode::ReadOnly, _) => "deleted, open read-only",
            (Mode::Unlocked, 0) => "deleted, open unlocked",
            (Mode::Unlocked, _) => "deleted, open unlocked with locks",
        };
        Ok(Effects {
            drive: Some(drive),
            ..Effects::of_list(kind, list)
        })
    }

    /// Everybody's open stops Rename.
    fn may_be_renamed(&self, file: &File) -> Result<(), Refusal> {
        if !self.drive.has(file) {
            return Err(extended(0, "no such file"));
        }
        if self.list.open(file, self.process).is_some() {
            return Err(extended(5, "open by the caller"));
        }
        if self.list.is_open(file) {
            return Err(extended(5, "open by another"));
        }
        if self.drive.is_read_only(file) {
            return Err(extended(3, "read-only attribute"));
        }
        Ok(())
    }

    fn rename(&self) -> Outcome {
        let old = self.named().ok_or(extended(9, "illegal old name"))?;
        let new = self.named_at(17).ok_or(extended(9, "illegal new name"))?;
        self.may_be_renamed(&old)?;
        if new == old {
            return Err(extended(8, "new name is the old one"));
        }
        if self.drive.has(&new) {
            return Err(extended(8, "new name exists"));
        }
        let mut drive = self.drive.clone();
        drive.rename(&old, new);
        let kind = match self.drive.entries_of(&old) {
            1 => "renamed one entry",
            _ => "renamed several entries",
        };
        Ok(Effects::of_drive(kind, drive))
    }

    /// The file need not be open, and nobody's open or lock matters.
    fn file_size(&self) -> Outcome {
        let file = self.named().ok_or(extended(9, "illegal name"))?;
        let (highest, records) = self.drive.size(&file).ok_or(extended(0, "no such file"))?;
        let mut fcb = self.fcb;
        fcb[33..].copy_from_slice(&records.to_le_bytes()[..3]);
        let kind = match (highest, records) {
            (_, 0) => "no records",
            (_, most) if most == self.record_limit() => "as many records as can be",
            (0, _) => "size by extent 0",
            _ => "size by a later extent",
        };
        Ok(Effects::of_fcb(kind, fcb))
    }

    /// Where the record lies in the image.
    fn stored(&self, file: &File, record: u32) -> Result<usize, Refusal> {
        if self.drive.extent(file, extent_of(record)).is_none() {
            return Err(code(4, "no extent"));
        }
        let block = self.drive.block(file, record).ok_or(code(1, "no block"))?;
        Ok(self.drive.record_start(block, record))
    }

    fn read_random(&self) -> Outcome {
        let (file, _) = self.own_open_or_10()?;
        let mut dma = self.dma;
        let stop = go_along(self.records(), |record, part| {
            self.in_range(record)?;
            let at = self.stored(&file, record)?;
            dma[part].copy_from_slice(&self.image[at..at + RECORD]);
            Ok(())
        })?;
        Ok(Effects {
            stop,
            ..Effects::of_dma("read", dma)
        })
    }

    /// The file, if its caller may write it at all.
    fn writable_file(&self) -> Result<File, Refusal> {
        let (file, open) = self.own_open_or_10()?;
        if self.drive.is_read_only(&file) {
            return Err(extended(3, "read-only attribute"));
        }
        if open.mode == Mode::ReadOnly {
            return Err(extended(3, "open read-only"));
        }
        Ok(file)
    }

    fn may_write(&self, file: &File, record: u32) -> Result<(), Refusal> {
        self.in_range(record)?;
        if self.list.is_held_by_another(file, record, self.process) {
            return Err(code(8, "held by another"));
        }
        Ok(())
    }

    fn write_random(&self, zero_fill: bool) -> Outcome {
        let file = self.writable_file()?;
        let mut writing = Writing {
            drive: self.drive.clone(),
            data: Vec::new(),
            zero_fill,
            took_extent: false,
            took_block: false,
        };
        let stop = go_along(self.records(), |record, part| {
            self.may_write(&file, record)?;
            writing.store(&file, record, &self.dma[part])
        })?;
        Ok(Effects {
            stop,
            data: writing.data,
            ..Effects::of_drive(
                kind_of_writing(writing.took_extent, writing.took_block),
                writing.drive,
            )
        })
    }

    fn test_and_write(&self) -> Outcome {
        let file = self.writable_file()?;
        let record = self.record_number();
        self.may_write(&file, record)?;
        let at = self.stored(&file, record)?;
        let (tested, written) = (&self.dma[..RECORD], &self.dma[RECORD..2 * RECORD]);
        if tested != &self.image[at..at + RECORD] {
            return Err(code(7, "differs"));
        }
        let mut drive = self.drive.clone();
        let rises = drive.raise_count(&file, record);
        let kind = match rises {
            true => "written, count raised",
            false => "written, count stays",
        };
        let data = vec![Write {
            at,
            bytes: written.to_vec(),
        }];
        Ok(Effects {
            data,
            ..Effects::of_drive(kind, drive)
        })
    }

    /// What Lock and Unlock share: all their tests up to 6/0.
    fn locking(&self) -> Result<Locking, Refusal> {
        let (file, open) = self.own_open_or_10()?;
        match open.mode {
            Mode::Locked => return Ok(Locking::NoEffect("no effect, locked mode")),
            Mode::ReadOnly => return Ok(Locking::NoEffect("no effect, read-only mode")),
            Mode::Unlocked => {}
        }
        let id = file_id(open);
        if self.dma[0] != id[0] {
            return Err(code(13, "low byte not the File ID's"));
        }
        if self.dma[1] != id[1] {
            return Err(code(13, "high byte not the File ID's"));
        }
        Ok(Locking::Run(file, self.run()?))
    }

    fn lock_records(&self) -> Outcome {
        let (file, run) = match self.locking()? {
            Locking::NoEffect(kind) => return Ok(Effects::none(kind)),
            Locking::Run(file, run) => (file, run),
        };
        for record in run.clone() {
            self.stored(&file, record)?;
        }
        let held_by_another = |record| self.list.is_held_by_another(&file, record, self.process);
        if run.clone().any(held_by_another) {
            return Err(code(8, "held by another"));
        }
        if self.list.held(self.process) + run.len() > self.list.lock_limit() {
            return Err(code(12, "lock limit"));
        }
        let is_new = |record: &u32| self.list.holder(&file, *record).is_none();
        let new: Vec<u32> = run.clone().filter(is_new).collect();
        let free = self.list.free_places();
        if free.len() < new.len() {
            return Err(code(14, "too few empty places"));
        }
        let kind = match new.len() {
            0 => "locked, all held before",
            some if some < run.len() => "locked, some held before",
            _ => "locked, all new",
        };
        let mut list = self.list.clone();
        for (record, place) in new.into_iter().zip(free) {
            let process = self.process;
            list.add_lock(file, record, Lock { place, process });
        }
        Ok(Effects::of_list(kind, list))
    }

    fn unlock_records(&self) -> Outcome {
        let (file, run) = match self.locking()? {
            Locking::NoEffect(kind) => return Ok(Effects::none(kind)),
            Locking::Run(file, run) => (file, run),
        };
        let mut list = self.list.clone();
        let kind = match list.unlock(&file, self.process, &run) {
            0 => "unlocked, none held",
            some if some < run.len() => "unlocked, some held",
            _ => "unlocked, all held",
        };
        Ok(Effects::of_list(kind, list))
    }

    fn free_space(&self) -> Outcome {
        let records = self.drive.free_records();
        let mut dma = self.dma;
        dma[..3].copy_from_slice(&records.to_le_bytes()[..3]);
        let kind = match records {
            0 => "no space",
            _ => "space",
        };
        Ok(Effects::of_dma(kind, dma))
    }

    fn terminate(&self) -> Outcome {
        let searching = self.list.has_search_under_way(self.process);
        let mut list = self.list.clone();
        let kind = match (list.terminate(self.process), searching) {
            (0, false) => "nothing to take away",
            (0, true) => "a search ended",
            (_, false) => "items taken away",
            (_, true) => "items taken away and a search ended",
        };
        Ok(Effects::of_list(kind, list))
    }
}

impl Writing {
    /// Stores a record, with an extent and a block where they are missing.
    fn store(&mut self, file: &File, record: u32, bytes: &[u8]) -> Result<(), Refusal> {
        let extent_missing = self.drive.extent(file, extent_of(record)).is_none();
        let block_missing = self.drive.block(file, record).is_none();
        room_for(&self.drive, extent_missing, block_missing)?;
        let block = self.drive.provide(file, record).ok_or(code(2, "no free block"))?;
        self.drive.raise_count(file, record);
        if self.zero_fill && block_missing {
            let part = self.drive.block_part(block);
            self.data.push(Write {
                at: part.start,
                bytes: vec![0; part.len()],
            });
        }
        self.data.push(Write {
            at: self.drive.record_start(block, record),
            bytes: bytes.to_vec(),
        });
        self.took_extent |= extent_missing;
        self.took_block |= block_missing;
        Ok(())
    }
}

fn room_for(drive: &Drive, extent_missing: bool, block_missing: bool) -> Result<(), Refusal> {
    let no_block = drive.lowest_free_block().is_none();
    if extent_missing && drive.lowest_empty_slot().is_none() {
        return Err(match no_block {
            true => code(5, "no empty entry, no free block"),
            false => code(5, "no empty entry"),
        });
    }
    if block_missing && no_block {
        return Err(match extent_missing {
            true => code(2, "no free block for a new extent"),
            false => code(2, "no free block"),
        });
    }
    Ok(())
}

fn kind_of_writing(took_extent: bool, took_block: bool) -> &'static str {
    match (took_extent, took_block) {
        (true, _) => "written, new extent",
        (false, true) => "written, new block",
        (false, false) => "written in place",
    }
}

fn file_id(open: Open) -> [u8; 2] {
    (open.place as u16).to_le_bytes()
}
