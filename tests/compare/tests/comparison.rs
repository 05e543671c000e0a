//! The comparison sees through engines that are wrong in one place only, and keeps the case.

mod search_faults;

use compare::comparison::{describe, keep_case, on_reference, read_case, Comparison, Difference};
use compare::deed::Deed;
use compare::engine::{Engine, Reference};
use compare::faults::block_of;
use compare::generate::Generator;
use compare::pipe::Pipe;
use compare::step::{changes, Apart, Step, Told, ANSWER_APART};
use compare::wire::{get_reply, get_step, put_reply, put_step};
use reference::calls::{Buffers, Numbers};
use reference::kind::Kind;

/// A drive of the first kind, by the rule of MP/M II.
const TOLD: Told = Told { kind: 0, rule: 0 };

/// The buffers before or after a call.
#[derive(Clone)]
struct Lent {
    fcb: Vec<u8>,
    dma: Vec<u8>,
    list: Vec<u8>,
    image: Vec<u8>,
    vector: Vec<u8>,
}

/// What a call was and did; a fault may alter `after` and the answer.
struct Done {
    numbers: Numbers,
    before: Lent,
    after: Lent,
    answer: u32,
}

type Fault = fn(&mut Done);

/// The reference with one fault.
struct Faulty(Fault);

impl Engine for Faulty {
    fn start(&mut self, kind: u32, numbers: [u32; 4], users: &mut [u8], list: &mut [u8]) -> u32 {
        Reference::default().start(kind, numbers, users, list)
    }

    fn check(&mut self, told: Told, image: &mut [u8]) -> u32 {
        Reference::default().check(told, image)
    }

    fn look(&mut self, told: Told, user: u32, name: &mut [u8], record: u32, image: &mut [u8]) -> u32 {
        Reference::default().look(told, user, name, record, image)
    }

    fn vector(&mut self, told: Told, image: &mut [u8], vector: &mut [u8]) -> u32 {
        Reference::default().vector(told, image, vector)
    }

    fn call(&mut self, numbers: Numbers, buffers: Buffers) -> u32 {
        with_fault(self.0, numbers, buffers, Lent::call)
    }
}

/// The reference whose plain side has one fault.
struct FaultyPlainSide(Fault);

impl Engine for FaultyPlainSide {
    fn start(&mut self, kind: u32, numbers: [u32; 4], users: &mut [u8], list: &mut [u8]) -> u32 {
        Reference::default().start(kind, numbers, users, list)
    }

    fn check(&mut self, told: Told, image: &mut [u8]) -> u32 {
        Reference::default().check(told, image)
    }

    fn look(&mut self, told: Told, user: u32, name: &mut [u8], record: u32, image: &mut [u8]) -> u32 {
        Reference::default().look(told, user, name, record, image)
    }

    fn vector(&mut self, told: Told, image: &mut [u8], vector: &mut [u8]) -> u32 {
        Reference::default().vector(told, image, vector)
    }

    fn call(&mut self, numbers: Numbers, buffers: Buffers) -> u32 {
        Reference::default().call(numbers, buffers)
    }

    fn singly(&mut self, numbers: Numbers, buffers: Buffers) -> Option<u32> {
        Some(with_fault(self.0, numbers, buffers, Lent::call_singly))
    }
}

/// Makes the call in this way and then the fault.
fn with_fault(fault: Fault, numbers: Numbers, buffers: Buffers, call: fn(&mut Lent, Numbers) -> u32) -> u32 {
    let before = Lent {
        fcb: buffers.fcb.to_vec(),
        dma: buffers.dma.to_vec(),
        list: buffers.list.to_vec(),
        image: buffers.image.to_vec(),
        vector: buffers.vector.to_vec(),
    };
    let mut now = before.clone();
    let answer = call(&mut now, numbers);
    let mut done = Done {
        numbers,
        before,
        after: now,
        answer,
    };
    fault(&mut done);
    buffers.fcb.copy_from_slice(&done.after.fcb);
    buffers.dma.copy_from_slice(&done.after.dma);
    buffers.list.copy_from_slice(&done.after.list);
    buffers.image.copy_from_slice(&done.after.image);
    buffers.vector.copy_from_slice(&done.after.vector);
    done.answer
}

impl Lent {
    fn call(&mut self, numbers: Numbers) -> u32 {
        reference::call(
            numbers.kind,
            numbers.function,
            numbers.process,
            numbers.count,
            &mut self.fcb,
            &mut self.dma,
            &mut self.list,
            &mut self.image,
            &mut self.vector,
        )
    }

    fn call_singly(&mut self, numbers: Numbers) -> u32 {
        reference::call_singly(
            numbers.kind,
            numbers.function,
            numbers.process,
            numbers.count,
            &mut self.fcb,
            &mut self.dma,
            &mut self.list,
            &mut self.image,
            &mut self.vector,
        )
    }

    fn first_record(&self) -> u32 {
        u32::from_le_bytes([self.fcb[33], self.fcb[34], self.fcb[35], 0])
    }

    /// A call for this record alone, with the DMA's part of this number.
    fn single(&mut self, numbers: Numbers, record: u32, part: u32) -> u32 {
        let at = 128 * part as usize;
        let (mut fcb, mut dma) = (self.fcb.clone(), self.dma.clone());
        fcb[33..].copy_from_slice(&record.to_le_bytes()[..3]);
        dma.copy_within(at..at + 128, 0);
        let Numbers {
            kind,
            function,
            process,
            ..
        } = numbers;
        let answer = reference::call(
            kind,
            function,
            process,
            1,
            &mut fcb,
            &mut dma,
            &mut self.list,
            &mut self.image,
            &mut self.vector,
        );
        self.dma[at..at + 128].copy_from_slice(&dma[..128]);
        answer
    }

    /// The block of a record of the call's file on a drive of the first kind, 0 if it has none.
    fn block(&self, numbers: Numbers, record: u32) -> u16 {
        let user = self.list[3 + numbers.process as usize];
        block_of(Kind::First, user, &self.fcb[1..12], record, &self.image)
    }
}

impl Done {
    fn is(&self, function: u32, answer: u32) -> bool {
        self.numbers.function == function && self.answer == answer
    }

    /// A call for several records that was not refused as a whole.
    fn is_run(&self) -> bool {
        self.numbers.count > 1 && self.records_done() > 0
    }

    fn is_stopped_run(&self) -> bool {
        let deed = Deed::of_call(self.numbers, self.answer);
        self.is_run() && matches!(deed, Deed::Records { all: false, .. })
    }

    fn records_done(&self) -> u32 {
        Deed::of_call(self.numbers, self.answer).records()
    }

    /// The call once more as single calls, the record of each chosen by its number in the run.
    fn again_record_by_record(&mut self, record: impl Fn(u32) -> u32) {
        self.after = self.before.clone();
        self.answer = 0;
        for part in 0..self.numbers.count {
            let answer = self.after.single(self.numbers, record(part), part);
            if answer != 0 {
                self.answer = answer + 4096 * part;
                return;
            }
        }
    }

    fn again_with(&mut self, numbers: Numbers) {
        self.after = self.before.clone();
        self.answer = self.after.call(numbers);
    }
}

fn cuts_functions(done: &mut Done) {
    let function = done.numbers.function & 255;
    done.again_with(Numbers {
        function,
        ..done.numbers
    });
}

fn cuts_processes(done: &mut Done) {
    let process = done.numbers.process & 255;
    done.again_with(Numbers {
        process,
        ..done.numbers
    });
}

fn cuts_counts(done: &mut Done) {
    let count = done.numbers.count & 255;
    done.again_with(Numbers {
        count,
        ..done.numbers
    });
}

fn refuses_46_for_its_drive(done: &mut Done) {
    if done.is(46, 0) && done.before.fcb[0] > 1 {
        done.after = done.before.clone();
        done.answer = 255 + 256 * 4;
    }
}

fn open_clears_byte_32(done: &mut Done) {
    if done.is(15, 0) {
        done.after.fcb[32] = 0;
    }
}

fn open_leaves_the_file_id(done: &mut Done) {
    if done.is(15, 0) {
        done.after.fcb[33..].copy_from_slice(&done.before.fcb[33..]);
    }
}

fn make_leaves_byte_13(done: &mut Done) {
    if !done.is(22, 0) {
        return;
    }
    for (slot, entry) in done.after.image[..2048].chunks_mut(32).enumerate() {
        if done.before.image[32 * slot] == 0xE5 && entry[0] != 0xE5 {
            entry[13] = done.before.image[32 * slot + 13];
        }
    }
}

fn close_leaves_locks(done: &mut Done) {
    if !done.is(16, 0) {
        return;
    }
    for place in 0..64 {
        let at = 19 + 20 * place;
        if done.before.list[at] == b'L' {
            let lock = done.before.list[at..at + 20].to_vec();
            done.after.list[at..at + 20].copy_from_slice(&lock);
        }
    }
}

fn delete_clears_entries(done: &mut Done) {
    if !done.is(19, 0) {
        return;
    }
    for slot in 0..64 {
        if done.before.image[32 * slot] != done.after.image[32 * slot] {
            done.after.image[32 * slot..32 * slot + 32].fill(0xE5);
        }
    }
}

/// The places that a Delete has emptied, with what stood there.
fn places_emptied(done: &Done) -> Vec<(usize, Vec<u8>)> {
    let places = (0..64).map(|place| 19 + 20 * place..39 + 20 * place);
    let emptied = places.filter(|place| done.before.list[place.clone()] != done.after.list[place.clone()]);
    emptied
        .map(|place| (place.start, done.before.list[place].to_vec()))
        .collect()
}

fn delete_leaves_what_is_open(done: &mut Done) {
    if done.is(19, 0) {
        done.after.list = done.before.list.clone();
    }
}

fn delete_leaves_locks(done: &mut Done) {
    if !done.is(19, 0) {
        return;
    }
    for (at, item) in places_emptied(done) {
        if item[0] == b'L' {
            done.after.list[at..at + 20].copy_from_slice(&item);
        }
    }
}

fn delete_refuses_the_callers_open(done: &mut Done) {
    if done.is(19, 0) && !places_emptied(done).is_empty() {
        done.after = done.before.clone();
        done.answer = 255 + 256 * 5;
    }
}

fn delete_needs_locked_mode(done: &mut Done) {
    let is_unlocked = |(_, item): &(usize, Vec<u8>)| item[14] == 1;
    if done.is(19, 0) && places_emptied(done).iter().any(is_unlocked) {
        done.after = done.before.clone();
        done.answer = 255 + 256 * 5;
    }
}

fn delete_ends_the_process(done: &mut Done) {
    if !done.is(19, 0) || places_emptied(done).is_empty() {
        return;
    }
    for place in 0..64 {
        let at = 19 + 20 * place;
        if u32::from(done.before.list[at + 2]) == done.numbers.process {
            done.after.list[at..at + 20].fill(0);
        }
    }
}

fn delete_closes_a_read_only_file(done: &mut Done) {
    if done.is(19, 255 + 256 * 3) {
        let close = Numbers {
            function: 16,
            ..done.numbers
        };
        done.after.call(close);
    }
}

fn rename_passes_the_callers_open(done: &mut Done) {
    if !done.is(23, 255 + 256 * 5) {
        return;
    }
    let mut closed = done.before.clone();
    let close = Numbers {
        function: 16,
        ..done.numbers
    };
    if closed.call(close) == 0 && closed.call(done.numbers) == 0 {
        done.after = closed;
        done.answer = 0;
    }
}

/// The entries of the file that a call names, in rising order.
fn entries_named(done: &Done) -> Vec<Vec<u8>> {
    let user = done.before.list[3 + done.numbers.process as usize];
    let low = |bytes: &[u8]| bytes.iter().map(|byte| byte & 127).collect::<Vec<u8>>();
    let is_of_it = |entry: &&[u8]| entry[0] == user && low(&entry[1..12]) == low(&done.before.fcb[1..12]);
    let entries = done.before.image[..2048].chunks(32);
    entries.filter(is_of_it).map(<[u8]>::to_vec).collect()
}

fn highest_extent(entries: &[Vec<u8>]) -> Option<&Vec<u8>> {
    entries.iter().max_by_key(|entry| (entry[14], entry[12]))
}

fn tell_size(done: &mut Done, extent: u32, count: u8) {
    let size = 128 * extent + u32::from(count);
    done.after.fcb[33..].copy_from_slice(&size.to_le_bytes()[..3]);
}

fn size_of_the_highest_entry(done: &mut Done) {
    if done.is(35, 0) {
        let last = entries_named(done).pop().unwrap();
        tell_size(done, u32::from(last[12]) + 32 * u32::from(last[14]), last[15]);
    }
}

fn size_without_the_module(done: &mut Done) {
    if done.is(35, 0) {
        let entries = entries_named(done);
        let highest = highest_extent(&entries).unwrap();
        tell_size(done, u32::from(highest[12]), highest[15]);
    }
}

fn size_by_the_count_of_extent_0(done: &mut Done) {
    if done.is(35, 0) {
        let entries = entries_named(done);
        let first = entries
            .iter()
            .find(|entry| (entry[12], entry[14]) == (0, 0))
            .unwrap();
        let highest = highest_extent(&entries).unwrap();
        tell_size(
            done,
            u32::from(highest[12]) + 32 * u32::from(highest[14]),
            first[15],
        );
    }
}

fn size_by_the_number_of_entries(done: &mut Done) {
    if done.is(35, 0) {
        let entries = entries_named(done);
        let count = highest_extent(&entries).unwrap()[15];
        tell_size(done, entries.len() as u32 - 1, count);
    }
}

fn size_by_the_blocks(done: &mut Done) {
    if done.is(35, 0) {
        let entries = entries_named(done);
        let highest = highest_extent(&entries).unwrap();
        let used = highest[16..]
            .iter()
            .rposition(|&block| block != 0)
            .map_or(0, |at| at + 1);
        tell_size(
            done,
            u32::from(highest[12]) + 32 * u32::from(highest[14]),
            8 * used as u8,
        );
    }
}

fn size_in_two_bytes(done: &mut Done) {
    if done.is(35, 0) {
        done.after.fcb[35] = done.before.fcb[35];
    }
}

fn size_sets_the_count(done: &mut Done) {
    if done.is(35, 0) {
        let entries = entries_named(done);
        done.after.fcb[15] = highest_extent(&entries).unwrap()[15];
    }
}

fn size_needs_an_open(done: &mut Done) {
    if !done.is(35, 0) {
        return;
    }
    let close = Numbers {
        function: 16,
        ..done.numbers
    };
    if done.before.clone().call(close) != 0 {
        done.after = done.before.clone();
        done.answer = 10;
    }
}

fn rename_drops_attributes(done: &mut Done) {
    if !done.is(23, 0) {
        return;
    }
    for slot in 0..64 {
        let entry = 32 * slot + 1..32 * slot + 12;
        if done.before.image[entry.clone()] != done.after.image[entry.clone()] {
            for byte in &mut done.after.image[entry] {
                *byte &= 127;
            }
        }
    }
}

fn rename_to_itself_succeeds(done: &mut Done) {
    let low = |bytes: &[u8]| bytes.iter().map(|byte| byte & 127).collect::<Vec<u8>>();
    if done.is(23, 255 + 256 * 8) && low(&done.before.fcb[1..12]) == low(&done.before.fcb[17..28]) {
        done.answer = 0;
    }
}

fn read_fills_the_whole_dma(done: &mut Done) {
    if done.is(33, 0) {
        done.after.dma[128..].fill(0);
    }
}

fn writes_keep_the_count(done: &mut Done) {
    if !matches!(done.numbers.function, 34 | 40) || done.answer != 0 {
        return;
    }
    for slot in 0..64 {
        if done.before.image[32 * slot] != 0xE5 {
            done.after.image[32 * slot + 15] = done.before.image[32 * slot + 15];
        }
    }
}

fn test_and_write_keeps_the_count(done: &mut Done) {
    if !done.is(41, 0) {
        return;
    }
    let directory = done.before.image[..2048].to_vec();
    done.after.image[..2048].copy_from_slice(&directory);
}

fn zero_fill_leaves_the_rest(done: &mut Done) {
    if done.is(40, 0) {
        let numbers = Numbers {
            function: 34,
            ..done.numbers
        };
        done.again_with(numbers);
    }
}

fn plain_write_clears_the_rest(done: &mut Done) {
    if done.is(34, 0) {
        let numbers = Numbers {
            function: 40,
            ..done.numbers
        };
        done.again_with(numbers);
    }
}

fn no_block_takes_an_entry(done: &mut Done) {
    let is_write = matches!(done.numbers.function, 34 | 40);
    let slot = (0..64).find(|slot| done.before.image.get(32 * slot) == Some(&0xE5));
    let is_new_extent = done.before.fcb.len() == 36 && done.before.fcb[33..35] >= [128, 0][..];
    if let (true, 2, true, Some(slot)) = (is_write, done.answer, is_new_extent, slot) {
        done.after.image[32 * slot] = 0;
    }
}

fn lock_limit_counts_new_records_only(done: &mut Done) {
    if done.is(42, 12) && done.numbers.count == 1 {
        done.answer = 0;
    }
}

fn lock_checks_the_file_id_first(done: &mut Done) {
    if done.is(42, 0) && done.before.dma[1] != 0 {
        done.answer = 13;
    }
}

fn unlock_needs_a_block(done: &mut Done) {
    if done.is(43, 0) && done.before.list == done.after.list && done.before.fcb[34] > 200 {
        done.answer = 4;
    }
}

fn space_in_two_bytes(done: &mut Done) {
    if done.is(46, 0) {
        done.after.dma[2] = done.before.dma[2];
    }
}

fn refusal_writes(done: &mut Done) {
    if Deed::of_call(done.numbers, done.answer) == Deed::Refused {
        if let Some(byte) = done.after.dma.last_mut() {
            *byte ^= 1;
        }
    }
}

fn terminate_clears_the_list(done: &mut Done) {
    if done.is(143, 0) {
        done.after.list[19..1299].fill(0);
    }
}

fn counts_the_refused_record(done: &mut Done) {
    if done.is_stopped_run() && done.records_done() < 15 {
        done.answer += 4096;
    }
}

fn tells_no_records(done: &mut Done) {
    if done.is_stopped_run() {
        done.answer &= 0x0FFF;
    }
}

fn tells_the_records_of_a_whole_run(done: &mut Done) {
    if done.is_run() && !done.is_stopped_run() {
        done.answer = 4096 * (done.numbers.count % 16);
    }
}

fn goes_on_behind_a_refusal(done: &mut Done) {
    if !done.is_stopped_run() {
        return;
    }
    let first = done.before.first_record();
    for part in done.records_done() + 1..done.numbers.count {
        done.after.single(done.numbers, first + part, part);
    }
}

fn refuses_all_where_some_were_done(done: &mut Done) {
    if done.is_stopped_run() {
        done.after = done.before.clone();
        done.answer &= 0x0FFF;
    }
}

fn takes_the_bytes_of_the_next_record(done: &mut Done) {
    if !done.is_run() || done.numbers.function == 33 {
        return;
    }
    let dma = done.before.dma.clone();
    done.before.dma.rotate_left(128);
    done.again_with(done.numbers);
    done.after.dma = dma;
}

fn puts_the_bytes_of_the_next_record(done: &mut Done) {
    if !done.is_run() || done.numbers.function != 33 {
        return;
    }
    let read = 128 * done.records_done().min(15) as usize;
    done.after.dma.copy_within(..read, 128);
    done.after.dma[..128].copy_from_slice(&done.before.dma[..128]);
}

fn clears_what_an_earlier_record_took(done: &mut Done) {
    if !done.is_run() || done.numbers.function != 40 || done.numbers.kind != 0 {
        return;
    }
    let first = done.before.first_record();
    for record in first..first + done.records_done() {
        let is_new = done.before.block(done.numbers, record) == 0;
        let is_last = record % 8 == 7 || record + 1 == first + done.records_done();
        let at = 1024 * usize::from(done.after.block(done.numbers, record)) + 128 * (record % 8) as usize;
        if is_new && !is_last {
            done.after.image[at..at + 128].fill(0);
        }
    }
}

fn never_clears_in_a_run(done: &mut Done) {
    if done.is_run() && done.numbers.function == 40 {
        done.again_with(Numbers {
            function: 34,
            ..done.numbers
        });
    }
}

fn keeps_the_extent_across_its_end(done: &mut Done) {
    if done.is_run() {
        let first = done.before.first_record();
        done.again_record_by_record(|part| first / 128 * 128 + (first + part) % 128);
    }
}

fn keeps_the_module_across_its_end(done: &mut Done) {
    if done.is_run() {
        let first = done.before.first_record();
        done.again_record_by_record(|part| first / 4096 * 4096 + (first + part) % 4096);
    }
}

fn does_one_record_only(done: &mut Done) {
    if done.is_run() {
        done.again_with(Numbers {
            count: 1,
            ..done.numbers
        });
    }
}

fn does_one_record_too_few(done: &mut Done) {
    if done.is_run() && done.numbers.count == 16 {
        done.again_with(Numbers {
            count: 15,
            ..done.numbers
        });
    }
}

fn refuses_a_run_over_the_end(done: &mut Done) {
    if done.is_stopped_run() && done.answer % 256 == 6 {
        done.after = done.before.clone();
        done.answer = 6;
    }
}

fn looks_for_all_locks_first(done: &mut Done) {
    if done.is_stopped_run() && done.answer % 256 == 8 {
        done.after = done.before.clone();
        done.answer = 8;
    }
}

fn advances_the_record_number(done: &mut Done) {
    if done.is_run() {
        let next = done.before.first_record() + done.records_done();
        done.after.fcb[33..].copy_from_slice(&next.to_le_bytes()[..3]);
    }
}

fn clears_the_dma_behind_a_stop(done: &mut Done) {
    if done.is_stopped_run() && done.numbers.function == 33 {
        let read = 128 * done.records_done() as usize;
        done.after.dma[read..].fill(0);
    }
}

fn keeps_the_count_of_a_stopped_run(done: &mut Done) {
    if !done.is_stopped_run() || done.numbers.function == 33 {
        return;
    }
    for slot in 0..64 {
        if done.before.image[32 * slot] != 0xE5 {
            done.after.image[32 * slot + 15] = done.before.image[32 * slot + 15];
        }
    }
}

fn test_and_write_goes_on(done: &mut Done) {
    if done.is(41, 0) && done.numbers.count > 1 {
        let next = done.before.first_record() + 1;
        let write = Numbers {
            function: 34,
            ..done.numbers
        };
        done.after.single(write, next, 2);
    }
}

fn lock_tells_records(done: &mut Done) {
    if done.is(42, 8) && done.numbers.count > 1 {
        done.answer += 4096;
    }
}

fn takes_the_old_dma(done: &mut Done) {
    if done.before.dma.len() == 256 {
        done.before.dma.resize(2048, 0);
        done.again_with(done.numbers);
        done.after.dma.truncate(256);
    }
}

const FAULTS: [Fault; 59] = [
    cuts_functions,
    cuts_processes,
    cuts_counts,
    refuses_46_for_its_drive,
    open_clears_byte_32,
    open_leaves_the_file_id,
    make_leaves_byte_13,
    close_leaves_locks,
    delete_clears_entries,
    delete_leaves_what_is_open,
    delete_leaves_locks,
    delete_refuses_the_callers_open,
    delete_needs_locked_mode,
    delete_ends_the_process,
    delete_closes_a_read_only_file,
    rename_passes_the_callers_open,
    size_of_the_highest_entry,
    size_without_the_module,
    size_by_the_count_of_extent_0,
    size_by_the_number_of_entries,
    size_by_the_blocks,
    size_in_two_bytes,
    size_sets_the_count,
    size_needs_an_open,
    rename_drops_attributes,
    rename_to_itself_succeeds,
    read_fills_the_whole_dma,
    writes_keep_the_count,
    test_and_write_keeps_the_count,
    zero_fill_leaves_the_rest,
    plain_write_clears_the_rest,
    no_block_takes_an_entry,
    lock_limit_counts_new_records_only,
    lock_checks_the_file_id_first,
    unlock_needs_a_block,
    space_in_two_bytes,
    refusal_writes,
    terminate_clears_the_list,
    counts_the_refused_record,
    tells_no_records,
    tells_the_records_of_a_whole_run,
    goes_on_behind_a_refusal,
    refuses_all_where_some_were_done,
    takes_the_bytes_of_the_next_record,
    puts_the_bytes_of_the_next_record,
    clears_what_an_earlier_record_took,
    never_clears_in_a_run,
    keeps_the_extent_across_its_end,
    keeps_the_module_across_its_end,
    does_one_record_only,
    does_one_record_too_few,
    refuses_a_run_over_the_end,
    looks_for_all_locks_first,
    advances_the_record_number,
    clears_the_dma_behind_a_stop,
    keeps_the_count_of_a_stopped_run,
    test_and_write_goes_on,
    lock_tells_records,
    takes_the_old_dma,
];

fn all_faults() -> impl Iterator<Item = Fault> {
    FAULTS.into_iter().chain(search_faults::FAULTS)
}

/// These faults are written for drives of the first kind; tests/kinds.rs has those of the second.
#[test]
fn the_named_cases_see_every_fault() {
    let mut cases = Generator::new(3).named();
    cases.retain(|(case, _)| case.ends_with("kind 0"));
    for (number, fault) in all_faults().enumerate() {
        let mut engine = Faulty(fault);
        let mut comparison = Comparison::new(&mut engine);
        let seen = cases.iter().any(|(_, made)| comparison.run(made).is_some());
        assert!(seen, "fault {number} was not seen");
    }
}

#[test]
fn chance_sees_every_fault() {
    let mut generator = Generator::new(4);
    let sessions: Vec<_> = (0..900).map(|_| generator.session_of(Kind::First)).collect();
    for (number, fault) in all_faults().enumerate() {
        let mut engine = Faulty(fault);
        let mut comparison = Comparison::new(&mut engine);
        let seen = sessions.iter().any(|made| comparison.run(made).is_some());
        assert!(seen, "fault {number} was not seen");
    }
}

#[test]
fn the_reference_agrees_with_itself() {
    let mut generator = Generator::new(5);
    let mut engine = Reference::default();
    let mut comparison = Comparison::new(&mut engine);
    for (case, made) in generator.named() {
        assert!(comparison.run(&made).is_none(), "{case}");
    }
    for _ in 0..20 {
        assert!(comparison.run(&generator.session()).is_none());
    }
}

fn plain_side_tells_records(done: &mut Done) {
    if done.is(33, 1) && done.numbers.count == 16 {
        done.answer += 4096;
    }
}

fn plain_side_refuses_46(done: &mut Done) {
    if done.is(46, 0) {
        done.answer = 1;
    }
}

fn plain_side_advances_the_fcb(done: &mut Done) {
    if done.is(33, 0) {
        done.after.fcb[33] ^= 1;
    }
}

fn plain_side_writes_the_dma(done: &mut Done) {
    if done.is(34, 2) {
        done.after.dma[2047] ^= 1;
    }
}

fn plain_side_writes_the_list(done: &mut Done) {
    if done.is(40, 6) {
        done.after.list[1314] ^= 1;
    }
}

fn plain_side_writes_the_vector(done: &mut Done) {
    if done.is(34, 2) {
        done.after.vector[31] ^= 1;
    }
}

fn plain_side_goes_on(done: &mut Done) {
    if done.is(34, 8) {
        let next = done.before.first_record() + done.numbers.count;
        done.after.single(done.numbers, next, 0);
    }
}

/// Each with what of a reply tells of it.
const FAULTS_OF_PLAIN_SIDES: [(Fault, u8, &str); 7] = [
    (plain_side_tells_records, ANSWER_APART, "answer"),
    (plain_side_refuses_46, ANSWER_APART, "answer"),
    (plain_side_advances_the_fcb, 1, "FCB"),
    (plain_side_writes_the_dma, 2, "DMA"),
    (plain_side_writes_the_list, 4, "list"),
    (plain_side_goes_on, 8, "image"),
    (plain_side_writes_the_vector, 16, "vector"),
];

#[test]
fn a_plain_side_that_does_otherwise_is_seen() {
    let mut cases = Generator::new(9).named();
    cases.retain(|(case, _)| case.ends_with("kind 0"));
    for (fault, parts, name) in FAULTS_OF_PLAIN_SIDES {
        let mut engine = FaultyPlainSide(fault);
        let mut comparison = Comparison::new(&mut engine);
        let (made, difference) = cases
            .iter()
            .find_map(|(_, made)| comparison.run(made).map(|difference| (made, difference)))
            .unwrap();
        let told = describe(made, &difference);
        assert!(
            told.contains(&format!("mpm_singly has done otherwise: {name};")),
            "{told}"
        );
        let Difference {
            expected: Some(expected),
            got: Ok(got),
            ..
        } = difference
        else {
            panic!("no two replies");
        };
        assert_eq!(got.apart.map(|apart| apart.parts), Some(parts));
        assert_eq!((got.answer, got.changes), (expected.answer, expected.changes));
    }
}

#[test]
fn a_plain_side_without_fault_agrees() {
    let mut generator = Generator::new(10);
    let mut engine = FaultyPlainSide(|_| {});
    let mut comparison = Comparison::new(&mut engine);
    for (case, made) in generator.named() {
        assert!(comparison.run(&made).is_none(), "{case}");
    }
    for kind in Kind::ALL {
        for _ in 0..10 {
            assert!(comparison.run(&generator.session_of(kind)).is_none());
        }
    }
}

/// Writes where it may only read.
struct Scribbler;

impl Engine for Scribbler {
    fn start(&mut self, kind: u32, numbers: [u32; 4], users: &mut [u8], list: &mut [u8]) -> u32 {
        Reference::default().start(kind, numbers, users, list)
    }

    fn check(&mut self, told: Told, image: &mut [u8]) -> u32 {
        let answer = Reference::default().check(told, image);
        if let Some(byte) = image.last_mut() {
            *byte ^= 1;
        }
        answer
    }

    fn look(&mut self, told: Told, user: u32, name: &mut [u8], record: u32, image: &mut [u8]) -> u32 {
        Reference::default().look(told, user, name, record, image)
    }

    fn vector(&mut self, told: Told, image: &mut [u8], vector: &mut [u8]) -> u32 {
        Reference::default().vector(told, image, vector)
    }

    fn call(&mut self, numbers: Numbers, buffers: Buffers) -> u32 {
        Reference::default().call(numbers, buffers)
    }
}

#[test]
fn a_check_that_writes_is_seen() {
    let steps = vec![
        Step::Image {
            length: 3072,
            fill: 0xE5,
        },
        Step::Check { told: TOLD },
    ];
    let made = on_reference(steps);
    let difference = Comparison::new(&mut Scribbler).run(&made);
    assert_eq!(difference.map(|difference| difference.index), Some(1));
}

#[test]
fn a_kept_case_can_be_replayed() {
    let folder = std::env::temp_dir().join(format!("mpm-kept-case-{}", std::process::id()));
    let mut generator = Generator::new(6);
    let mut engine = Faulty(refusal_writes);
    let mut comparison = Comparison::new(&mut engine);
    let (made, difference) = std::iter::repeat_with(|| generator.session_of(Kind::First))
        .find_map(|made| comparison.run(&made).map(|difference| (made, difference)))
        .unwrap();
    keep_case(&folder, &made, &difference).unwrap();
    for file in ["single.case", "trace.case"] {
        let again = on_reference(read_case(&folder.join(file)).unwrap());
        assert!(Comparison::new(&mut Reference::default()).run(&again).is_none());
        let found = Comparison::new(&mut Faulty(refusal_writes)).run(&again).unwrap();
        assert_eq!(found.index, again.len() - 1, "{file}");
        assert_eq!(found.expected, difference.expected);
    }
    std::fs::remove_dir_all(&folder).unwrap();
}

#[test]
fn steps_and_replies_survive_the_wire() {
    let mut generator = Generator::new(7);
    let named = generator.named().into_iter().flat_map(|(_, made)| made);
    for made in named.collect::<Vec<_>>().into_iter().chain(generator.session()) {
        let mut bytes = Vec::new();
        put_step(&made.step, &mut bytes);
        assert_eq!(get_step(&mut &bytes[..]).unwrap(), Some(made.step));
        let Some(reply) = made.reply else {
            continue;
        };
        let mut bytes = Vec::new();
        put_reply(&reply, &mut bytes);
        assert_eq!(get_reply(&mut &bytes[..]).unwrap(), reply);
    }
}

#[test]
fn a_dma_survives_the_wire() {
    let mut dmas = vec![
        Vec::new(),
        vec![0],
        vec![7; 4096],
        vec![1, 2, 2],
        (0..=255).collect(),
    ];
    dmas.push([vec![9; 128], vec![0; 1919], vec![9]].concat());
    for dma in dmas {
        let step = Step::Call {
            numbers: Numbers {
                kind: 1,
                function: 33,
                process: 1,
                count: 16,
            },
            fcb: vec![1; 36],
            dma,
        };
        let mut bytes = Vec::new();
        put_step(&step, &mut bytes);
        assert_eq!(get_step(&mut &bytes[..]).unwrap(), Some(step));
    }
}

#[test]
fn a_dma_that_makes_no_sense_is_refused() {
    let call = |length: u16, told: u16| {
        let mut bytes = vec![b'C'];
        bytes.extend([0; 16]);
        bytes.extend([0, 0]);
        bytes.extend(length.to_le_bytes());
        bytes.push(0);
        bytes.extend(told.to_le_bytes());
        bytes.resize(bytes.len() + usize::from(told), 0);
        bytes
    };
    assert!(get_step(&mut &call(4096, 4096)[..]).is_ok());
    assert!(get_step(&mut &call(4097, 0)[..]).is_err());
    assert!(get_step(&mut &call(100, 101)[..]).is_err());
}

#[test]
fn a_plain_side_apart_survives_the_wire() {
    let made = on_reference(vec![
        Step::Image {
            length: 3072,
            fill: 0xE5,
        },
        Step::Check { told: TOLD },
    ]);
    let mut reply = made[1].reply.clone().unwrap();
    reply.apart = Some(Apart {
        parts: ANSWER_APART | 2,
        answer: 0x1234_5678,
    });
    reply.broken_guards = 0b10_1010_0101;
    let mut bytes = Vec::new();
    put_reply(&reply, &mut bytes);
    assert_eq!(get_reply(&mut &bytes[..]).unwrap(), reply);
}

#[test]
fn changes_are_the_longest_runs() {
    let before = [0; 600];
    let mut after = before;
    assert_eq!(changes(&before, &after), Some(Vec::new()));
    after[0] = 1;
    after[254..258].fill(2);
    after[599] = 3;
    let found: Vec<(usize, usize)> = changes(&before, &after)
        .unwrap()
        .iter()
        .map(|change| (change.at, change.bytes.len()))
        .collect();
    assert_eq!(found, [(0, 1), (254, 4), (599, 1)]);
    assert_eq!(changes(&[0; 8193], &[1; 8193]), None);
}

fn pipe_to_reference() -> Pipe {
    Pipe::new(vec![env!("CARGO_BIN_EXE_reference-pipe").to_string()])
}

#[test]
fn a_pipe_to_the_reference_agrees() {
    let mut generator = Generator::new(8);
    let mut engine = pipe_to_reference();
    let mut comparison = Comparison::new(&mut engine);
    for (case, made) in generator.named() {
        assert!(comparison.run(&made).is_none(), "{case}");
    }
    for _ in 0..20 {
        assert!(comparison.run(&generator.session()).is_none());
    }
}

#[test]
fn the_pipe_serves_the_five_functions_one_by_one() {
    let mut pipe = pipe_to_reference();
    let (mut list, mut image, mut vector) = (vec![0xAA; 1316], vec![0xE5; 4096], vec![0xAA; 32]);
    assert_eq!(pipe.start(0, [3, 2, 2, 0], &mut [0; 16], &mut list), 0);
    assert_eq!(list[..3], [3, 2, 2]);
    assert_eq!(pipe.check(TOLD, &mut image), 0);
    assert_eq!(pipe.vector(TOLD, &mut image, &mut vector), 0);
    assert_eq!(vector[..2], [0xC0, 0]);
    let mut fcb = compare::build::Fcb::named("X").unlocked().0.to_vec();
    let mut dma = vec![9; 2048];
    for function in [22, 34] {
        let numbers = Numbers {
            kind: 0,
            function,
            process: 1,
            count: 1,
        };
        let buffers = Buffers {
            fcb: &mut fcb,
            dma: &mut dma,
            list: &mut list,
            image: &mut image,
            vector: &mut vector,
        };
        assert_eq!(pipe.call(numbers, buffers), 0);
    }
    assert_eq!(image[2048..2048 + 128], [9; 128]);
    assert_eq!(vector[..2], [0xE0, 0]);
    let mut name = compare::build::name("X");
    assert_eq!(pipe.look(TOLD, 0, &mut name, 0, &mut image), 2048);
}

#[test]
fn a_pipe_that_ends_is_a_difference() {
    let made = on_reference(vec![
        Step::Image {
            length: 3072,
            fill: 0xE5,
        },
        Step::Check { told: TOLD },
    ]);
    for command in ["true", "no-such-program-anywhere"] {
        let mut pipe = Pipe::new(vec![command.to_string()]);
        let difference = Comparison::new(&mut pipe).run(&made).unwrap();
        assert!(difference.got.is_err());
    }
}
