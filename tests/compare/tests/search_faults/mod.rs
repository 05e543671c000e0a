//! Engines on drives of the first kind that are wrong about searches and positions.

use super::{Done, Fault};
use compare::build::POSITIONS;
use compare::deed::Deed;

const END: usize = 64;
const UNSOUND_LIST: u32 = 255 + 256 * 12;

/// An entry and what it is held against: the FCB and the caller's user.
struct Match<'a> {
    entry: &'a [u8],
    fcb: &'a [u8],
    user: u8,
}

impl Match<'_> {
    fn extent(&self) -> usize {
        usize::from(self.entry[12]) + 32 * usize::from(self.entry[14])
    }

    fn is_of_user(&self) -> bool {
        self.entry[0] == self.user
    }

    /// Byte 12 as the documents have it.
    fn is_admitted(&self) -> bool {
        self.fcb[12] == b'?' || self.extent() == 0
    }

    /// The name, a byte of the FCB being a mark by this test.
    fn is_named(&self, is_mark: impl Fn(usize, u8) -> bool) -> bool {
        (1..12).all(|at| is_mark(at, self.fcb[at]) || self.fcb[at] & 127 == self.entry[at] & 127)
    }

    fn is_named_well(&self) -> bool {
        self.is_named(|_, byte| byte & 127 == b'?')
    }
}

impl Done {
    fn deed(&self) -> Deed {
        Deed::of_call(self.numbers, self.answer)
    }

    /// A search that no refusal applied to.
    fn is_search(&self) -> bool {
        matches!(self.deed(), Deed::Found(_) | Deed::NoMatch)
    }

    fn is_find(&self) -> bool {
        matches!(self.deed(), Deed::Found(_))
    }

    fn process(&self) -> usize {
        self.numbers.process as usize
    }

    fn set_position(&mut self, process: usize, position: usize) {
        self.after.list[POSITIONS][process] = position as u8;
    }

    fn old_position(&self) -> usize {
        self.before.list[POSITIONS][self.process()].into()
    }

    /// The entry that was found.
    fn found(&self) -> usize {
        usize::from(self.after.list[POSITIONS][self.process()]) - 1
    }

    /// The search once more, with another test of an entry.
    fn again_searching(&mut self, is_found: impl Fn(&Match) -> bool) {
        if self.is_search() {
            let from = if self.numbers.function == 17 {
                0
            } else {
                self.old_position()
            };
            self.again_searching_from(from, is_found);
        }
    }

    fn again_searching_from(&mut self, from: usize, is_found: impl Fn(&Match) -> bool) {
        self.after = self.before.clone();
        let (fcb, user) = (&self.before.fcb, self.before.list[3 + self.process()]);
        let entries = self.before.image[..2048].chunks(32).enumerate();
        let mut used = entries.filter(|(slot, entry)| *slot >= from && entry[0] != 0xE5);
        match used.find(|(_, entry)| is_found(&Match { entry, fcb, user })) {
            None => {
                self.answer = 255;
                self.set_position(self.process(), END);
            }
            Some((slot, _)) => {
                self.answer = slot as u32 % 4;
                self.set_position(self.process(), slot + 1);
                let at = 128 * (slot / 4);
                self.after.dma[..128].copy_from_slice(&self.before.image[at..at + 128]);
            }
        }
    }
}

fn next_from_the_entry_found(done: &mut Done) {
    if done.is_find() {
        done.set_position(done.process(), done.found());
    }
}

fn next_begins_again(done: &mut Done) {
    if done.is_search() && done.numbers.function == 18 {
        done.again_searching_from(0, |one| {
            one.is_of_user() && one.is_admitted() && one.is_named_well()
        });
    }
}

fn first_goes_on(done: &mut Done) {
    if done.is_search() && done.numbers.function == 17 && done.old_position() < END {
        let from = done.old_position();
        done.again_searching_from(from, |one| {
            one.is_of_user() && one.is_admitted() && one.is_named_well()
        });
    }
}

fn finds_other_users_entries(done: &mut Done) {
    done.again_searching(|one| one.is_admitted() && one.is_named_well());
}

fn finds_user_0_too(done: &mut Done) {
    done.again_searching(|one| {
        (one.is_of_user() || one.entry[0] == 0) && one.is_admitted() && one.is_named_well()
    });
}

fn no_mark_in_the_first_byte(done: &mut Done) {
    done.again_searching(|one| {
        one.is_of_user() && one.is_admitted() && one.is_named(|at, byte| at > 1 && byte & 127 == b'?')
    });
}

fn no_mark_in_the_last_byte(done: &mut Done) {
    done.again_searching(|one| {
        one.is_of_user() && one.is_admitted() && one.is_named(|at, byte| at < 11 && byte & 127 == b'?')
    });
}

fn no_mark_with_a_high_bit(done: &mut Done) {
    done.again_searching(|one| one.is_of_user() && one.is_admitted() && one.is_named(|_, byte| byte == b'?'));
}

fn asterisks_are_marks(done: &mut Done) {
    done.again_searching(|one| {
        let is_mark = |_, byte: u8| byte & 127 == b'?' || byte & 127 == b'*';
        one.is_of_user() && one.is_admitted() && one.is_named(is_mark)
    });
}

fn high_bits_take_part(done: &mut Done) {
    done.again_searching(|one| {
        let same = |at: usize| one.fcb[at] & 127 == b'?' || one.fcb[at] == one.entry[at];
        one.is_of_user() && one.is_admitted() && (1..12).all(same)
    });
}

fn byte_12_on_seven_bits(done: &mut Done) {
    done.again_searching(|one| {
        let admits = one.fcb[12] & 127 == b'?' || one.extent() == 0;
        one.is_of_user() && admits && one.is_named_well()
    });
}

fn extent_0_by_ex_alone(done: &mut Done) {
    done.again_searching(|one| {
        let admits = one.fcb[12] == b'?' || one.entry[12] == 0;
        one.is_of_user() && admits && one.is_named_well()
    });
}

fn ex_as_byte_12_says(done: &mut Done) {
    done.again_searching(|one| {
        let admits = one.fcb[12] == b'?' || one.fcb[12] == one.entry[12];
        one.is_of_user() && admits && one.is_named_well()
    });
}

fn all_extents_always(done: &mut Done) {
    done.again_searching(|one| one.is_of_user() && one.is_named_well());
}

fn refuses_illegal_names(done: &mut Done) {
    let legal = |byte: &u8| (32..127).contains(&(byte & 127));
    if done.is_search() && !done.before.fcb[1..12].iter().all(legal) {
        done.after = done.before.clone();
        done.answer = 255 + 256 * 9;
    }
}

fn needs_no_drive(done: &mut Done) {
    let is_search = matches!(done.numbers.function, 17 | 18);
    if is_search && done.answer == 255 + 256 * 4 {
        let drive = std::mem::replace(&mut done.before.fcb[0], 0);
        done.again_with(done.numbers);
        done.after.fcb[0] = drive;
    }
}

fn tells_place_0(done: &mut Done) {
    if done.is_find() {
        done.answer = 0;
    }
}

fn tells_the_entry(done: &mut Done) {
    if done.is_find() {
        done.answer = done.found() as u32;
    }
}

fn gives_the_next_record(done: &mut Done) {
    if done.is_find() {
        let at = 128 * (done.found() / 4 + 1);
        done.after.dma[..128].copy_from_slice(&done.before.image[at..at + 128]);
    }
}

fn gives_the_entry_alone(done: &mut Done) {
    if done.is_find() {
        let at = 32 * done.found();
        done.after.dma = done.before.dma.clone();
        done.after.dma[..32].copy_from_slice(&done.before.image[at..at + 32]);
    }
}

fn hides_empty_entries(done: &mut Done) {
    if !done.is_find() {
        return;
    }
    for entry in done.after.dma[..128]
        .chunks_mut(32)
        .filter(|entry| entry[0] == 0xE5)
    {
        entry.fill(0xE5);
    }
}

fn hides_other_users_entries(done: &mut Done) {
    let user = done.before.list.get(3 + done.process()).copied();
    if done.is_find() {
        for entry in done.after.dma[..128].chunks_mut(32) {
            if Some(entry[0]) != user {
                entry[0] = 0xE5;
            }
        }
    }
}

fn clears_the_rest_of_the_dma(done: &mut Done) {
    if done.is_find() {
        done.after.dma[128..].fill(0);
    }
}

fn no_match_writes_the_dma(done: &mut Done) {
    if done.deed() == Deed::NoMatch {
        done.after.dma[..128].fill(0xE5);
    }
}

fn sets_the_fcb(done: &mut Done) {
    if done.is_find() {
        let at = 32 * done.found();
        done.after.fcb[1..32].copy_from_slice(&done.before.image[at + 1..at + 32]);
    }
}

fn no_match_leaves_the_position(done: &mut Done) {
    if done.deed() == Deed::NoMatch {
        done.set_position(done.process(), done.old_position());
    }
}

fn no_match_begins_anew(done: &mut Done) {
    if done.deed() == Deed::NoMatch {
        done.set_position(done.process(), 0);
    }
}

fn one_position_for_all(done: &mut Done) {
    if done.is_search() {
        let position = done.after.list[POSITIONS][done.process()];
        done.after.list[POSITIONS].fill(position);
    }
}

fn sets_anothers_position(done: &mut Done) {
    if done.is_find() {
        let position = done.found() + 1;
        done.set_position(done.process(), done.old_position());
        done.set_position(done.process() ^ 1, position);
    }
}

fn a_refusal_ends_the_search(done: &mut Done) {
    let is_search = matches!(done.numbers.function, 17 | 18);
    if is_search && done.answer == 255 + 256 * 4 {
        done.set_position(done.process(), END);
    }
}

fn terminate_leaves_the_position(done: &mut Done) {
    if done.is(143, 0) {
        done.set_position(done.process(), done.old_position());
    }
}

fn terminate_ends_all_searches(done: &mut Done) {
    if done.is(143, 0) {
        done.after.list[POSITIONS].fill(END as u8);
    }
}

fn close_ends_the_search(done: &mut Done) {
    if done.is(16, 0) {
        done.set_position(done.process(), END);
    }
}

fn delete_ends_all_searches(done: &mut Done) {
    if done.is(19, 0) {
        done.after.list[POSITIONS].fill(END as u8);
    }
}

/// The call as if positions were right that are not.
fn again_with_positions(done: &mut Done, put_right: impl Fn(usize, u8) -> u8) {
    if done.answer != UNSOUND_LIST {
        return;
    }
    let old = done.before.list[POSITIONS].to_vec();
    for (process, byte) in done.before.list[POSITIONS].iter_mut().enumerate() {
        *byte = put_right(process, *byte);
    }
    done.again_with(done.numbers);
    if done.answer == UNSOUND_LIST {
        done.after.list[POSITIONS].copy_from_slice(&old);
    }
}

fn takes_a_position_of_65(done: &mut Done) {
    again_with_positions(done, |_, byte| if byte == 65 { 64 } else { byte });
}

fn takes_any_position(done: &mut Done) {
    again_with_positions(done, |_, byte| byte.min(64));
}

fn judges_the_callers_position_only(done: &mut Done) {
    let caller = done.process();
    again_with_positions(done, |process, byte| match process == caller {
        true => byte,
        false => byte.min(64),
    });
}

fn position_0_is_unsound(done: &mut Done) {
    let has_0 = done
        .before
        .list
        .get(POSITIONS)
        .is_some_and(|all| all.contains(&0));
    if has_0 && done.deed() != Deed::Refused {
        done.after = done.before.clone();
        done.answer = UNSOUND_LIST;
    }
}

fn takes_the_old_list(done: &mut Done) {
    if done.before.list.len() == POSITIONS.start && done.answer == 255 + 256 * 13 {
        done.before.list.resize(POSITIONS.end, END as u8);
        done.before.list.push(0);
        done.again_with(done.numbers);
        done.after.list.truncate(POSITIONS.start);
    }
}

pub const FAULTS: [Fault; 41] = [
    next_from_the_entry_found,
    next_begins_again,
    first_goes_on,
    finds_other_users_entries,
    finds_user_0_too,
    no_mark_in_the_first_byte,
    no_mark_in_the_last_byte,
    no_mark_with_a_high_bit,
    asterisks_are_marks,
    high_bits_take_part,
    byte_12_on_seven_bits,
    extent_0_by_ex_alone,
    ex_as_byte_12_says,
    all_extents_always,
    refuses_illegal_names,
    needs_no_drive,
    tells_place_0,
    tells_the_entry,
    gives_the_next_record,
    gives_the_entry_alone,
    hides_empty_entries,
    hides_other_users_entries,
    clears_the_rest_of_the_dma,
    no_match_writes_the_dma,
    sets_the_fcb,
    no_match_leaves_the_position,
    no_match_begins_anew,
    one_position_for_all,
    sets_anothers_position,
    a_refusal_ends_the_search,
    terminate_leaves_the_position,
    terminate_ends_all_searches,
    close_ends_the_search,
    delete_ends_all_searches,
    takes_a_position_of_65,
    takes_any_position,
    judges_the_callers_position_only,
    position_0_is_unsound,
    takes_the_old_list,
    leaves_the_position_at_the_last_entry,
    finds_a_deleted_entry,
];

/// 63 for 64: the last entry is found for ever.
fn leaves_the_position_at_the_last_entry(done: &mut Done) {
    if done.is_find() && done.found() == END - 1 {
        done.set_position(done.process(), END - 1);
    }
}

/// An entry that was emptied has its user gone, and the rest of it as it was.
fn finds_a_deleted_entry(done: &mut Done) {
    if done.deed() != Deed::NoMatch {
        return;
    }
    let fcb = done.before.fcb.clone();
    let entries = done.before.image[..2048].chunks(32);
    let is_like_it = |entry: &[u8]| {
        let one = Match {
            entry,
            fcb: &fcb,
            user: 0xE5,
        };
        one.is_of_user() && entry[1] != 0xE5 && one.is_named_well()
    };
    if let Some(slot) = entries.into_iter().position(is_like_it) {
        done.answer = slot as u32 % 4;
    }
}
