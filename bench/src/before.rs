//! Times the engine of an earlier commit and that of this tree, taking turns in one run: the image check alone, each
//! call that is timed beside plain C and each run of sixteen records, of the functions and on the kinds of drive that
//! the earlier one knows.

mod engines;
mod report;

use crate::books::{Book, Call, Drive, Filling, BY_RECORDS, FUNCTIONS, MOST};
use crate::measure::{all_calls, book, stack, Outcome, Shelf, Trial, BOOKS};
use crate::shelves;
use engines::{keeps_vectors_before, kinds_before, Version, BEFORE, BOTH, NOW};
use std::path::Path;

/// What is done on the books of a shelf.
enum Work {
    Check,
    /// A call for each book. They differ in names and bytes alone.
    Calls(Vec<Call>),
}

/// Before, now.
type Both<T> = [T; 2];

/// The same work on the same books by both.
struct Pair {
    filling: Filling,
    drive: Drive,
    work: Work,
    /// Nanoseconds of each round.
    rounds: Vec<Both<f64>>,
    stack: Both<usize>,
}

/// Writes before.md and before.csv to the folder. Gives what stands in the first.
pub fn compare_into(folder: &str, rounds: usize) -> Result<String, String> {
    for (filling, drive) in known_shelves() {
        agree(filling, drive).map_err(|work| report::disagreement(filling, drive, &work))?;
    }
    let timed = |(filling, drive)| pairs(filling, drive, rounds);
    let pairs: Vec<Pair> = known_shelves().flat_map(timed).collect();
    let table = report::table(&pairs, rounds);
    write(Path::new(folder), &table, &report::csv(&pairs)).map_err(|error| format!("{folder}: {error}"))?;
    Ok(table)
}

/// An engine from before the second kind of drive is timed on the first alone.
fn known_shelves() -> impl Iterator<Item = (Filling, Drive)> {
    let is_known = |(_, drive): &(Filling, Drive)| drive.kind.number() < kinds_before();
    shelves().into_iter().filter(is_known)
}

fn write(folder: &Path, table: &str, csv: &str) -> std::io::Result<()> {
    std::fs::create_dir_all(folder)?;
    std::fs::write(folder.join("before.md"), table)?;
    std::fs::write(folder.join("before.csv"), csv)
}

/// Or the first work that the two do not do alike: then they are no engines to time beside each other.
fn agree(filling: Filling, drive: Drive) -> Result<(), Work> {
    let mut books = (0..BOOKS as u64).map(|seed| book(filling, drive, seed));
    books.try_for_each(|book| agree_on(filling, &book))
}

fn agree_on(filling: Filling, book: &Book) -> Result<(), Work> {
    if BEFORE.check(book) != NOW.check(book) {
        return Err(Work::Check);
    }
    let mut trial = Trial::new(book);
    for call in all_calls(filling, book) {
        if is_known(&mut trial, &call) && !is_done_alike(&mut trial, &call) {
            return Err(Work::Calls(vec![call]));
        }
    }
    assert!(trial.is_whole(), "nothing else has changed");
    Ok(())
}

/// The earlier engine has the function: to one that it has not it answers 255/13, as to no call that is timed.
fn is_known(trial: &mut Trial, call: &Call) -> bool {
    const BAD_CALL: u32 = 255 + 256 * 13;
    trial.outcome(BEFORE, call).0 != BAD_CALL
}

/// What both can be asked for: an engine from before there was a vector leaves it as it was.
fn shared((answer, mut left): Outcome) -> Outcome {
    if !keeps_vectors_before() {
        left[5].clear();
    }
    (answer, left)
}

/// The same answer and the same bytes after it, of single calls too.
fn is_done_alike(trial: &mut Trial, call: &Call) -> bool {
    let mut same = |versions: Both<Version>| {
        let [before, now] = versions.map(|version| shared(trial.outcome(version, call)));
        before == now
    };
    same(BOTH) && same(BOTH.map(Version::plain_side))
}

fn pairs(filling: Filling, drive: Drive, rounds: usize) -> Vec<Pair> {
    let mut shelf = Shelf::new(filling, drive);
    let works = works(&shelf);
    let times = times(&works, &mut shelf, rounds);
    let pair = |(work, rounds): (Work, _)| Pair {
        filling,
        drive,
        rounds,
        stack: BOTH.map(|version| work.stack(version, &mut shelf)),
        work,
    };
    works.into_iter().zip(times).map(pair).collect()
}

/// The check, the calls of each function, and where a file has sixteen records each run of so many.
fn works(shelf: &Shelf) -> Vec<Work> {
    let mut works = vec![Work::Check];
    let mut calls: Vec<Vec<Call>> = FUNCTIONS.map(|(function, _)| shelf.calls(function)).into();
    if shelf.filling.has_sixteen(shelf.drive) {
        calls.extend(BY_RECORDS.map(|function| shelf.runs((function, 0, MOST))));
    }
    let known = calls
        .into_iter()
        .filter(|calls| is_known(&mut Trial::new(&shelf.books[0]), &calls[0]));
    works.extend(known.map(Work::Calls));
    works
}

/// What each round took, for each work. A round goes through all of them, so that a slow moment of the machine takes a
/// few rounds of many and not all rounds of one.
fn times(works: &[Work], shelf: &mut Shelf, rounds: usize) -> Vec<Vec<Both<f64>>> {
    let mut times = vec![Vec::new(); works.len()];
    for number in 0..rounds {
        for (work, times) in works.iter().zip(&mut times) {
            times.push(in_turn(number, |version| work.time(version, shelf)));
        }
    }
    times
}

/// Each comes right after the other, which has warmed the books: the second once more before the first, uncounted. Who
/// is first changes from round to round.
fn in_turn(number: usize, mut time: impl FnMut(Version) -> f64) -> Both<f64> {
    if number % 2 == 1 {
        time(BEFORE);
        let now = time(NOW);
        return [time(BEFORE), now];
    }
    time(NOW);
    BOTH.map(time)
}

impl Work {
    fn time(&self, version: Version, shelf: &mut Shelf) -> f64 {
        match self {
            Work::Check => {
                shelf.restore();
                let kind = shelf.drive.kind.number();
                shelf.check_round(|image| version.check_image(kind, image))
            }
            Work::Calls(calls) => shelf.round(version, calls),
        }
    }

    fn stack(&self, version: Version, shelf: &mut Shelf) -> usize {
        match self {
            Work::Check => check_stack(version, shelf.books[0].clone()),
            Work::Calls(calls) => shelf.stack_of(version, &calls[0]),
        }
    }
}

fn check_stack(version: Version, book: Book) -> usize {
    stack(move || {
        version.check(&book);
    })
}
