//! Times a call of each function, on many books that are filled alike, by each of the three; then calls for several
//! records.

use crate::books::{self, Book, Call, Drive, Filling, Run, BY_RECORDS, COUNTS, FUNCTIONS};
use crate::engines::{told, Timed, Who, THREE};
use compare::engine::Engine;
use compare::linked::Linked;
use compare::random::Random;
use reference::singly::plain_answer;
use std::ops::Range;
use std::time::Instant;

/// So many books are called in turn, each once, so that no engine profits from having just seen one.
pub const BOOKS: usize = 64;

#[derive(Clone)]
pub struct Row {
    pub filling: Filling,
    pub drive: Drive,
    pub function: u32,
    pub answer: u32,
    /// Nanoseconds a call: engine, plain, reference.
    pub ns: [f64; 3],
    pub stack: usize,
}

/// Calls for records that are all there, from record 0 on.
pub struct Several {
    pub filling: Filling,
    pub drive: Drive,
    pub function: u32,
    /// For each of the counts, nanoseconds a call: engine, plain, the engine's single calls.
    pub ns: [[f64; 3]; COUNTS.len()],
    pub stack: usize,
}

pub const BESIDE_SINGLY: [Who; 3] = [Who::Engine, Who::Plain, Who::Singly];

// ---- Books on a shelf ----

/// Books that are filled alike on drives of one size, used again and again.
pub struct Shelf {
    pub filling: Filling,
    pub drive: Drive,
    pub books: Vec<Book>,
    /// What is put back into each: all that the timed calls change.
    fresh: Vec<Fresh>,
}

/// A book's list, its vector and parts of its image, as they were.
struct Fresh {
    list: Vec<u8>,
    vector: Vec<u8>,
    parts: Vec<(Range<usize>, Vec<u8>)>,
}

impl Fresh {
    fn of(book: &Book, parts: Vec<Range<usize>>) -> Fresh {
        let bytes = |part: Range<usize>| (part.clone(), book.image[part].to_vec());
        Fresh {
            list: book.list.clone(),
            vector: book.vector.clone(),
            parts: parts.into_iter().map(bytes).collect(),
        }
    }

    fn restore(&self, book: &mut Book) {
        book.list.copy_from_slice(&self.list);
        book.vector.copy_from_slice(&self.vector);
        for (part, bytes) in &self.parts {
            book.image[part.clone()].copy_from_slice(bytes);
        }
    }
}

/// The directory, and the records of the file that is written to. A block that a call takes may stay as it left it.
fn changed_parts(book: &Book) -> Vec<Range<usize>> {
    let mut parts = book.blocks_of_locked_file();
    parts.push(book.directory());
    parts
}

impl Shelf {
    pub fn new(filling: Filling, drive: Drive) -> Shelf {
        let books: Vec<Book> = (0..BOOKS as u64).map(|seed| book(filling, drive, seed)).collect();
        let fresh = |book: &Book| Fresh::of(book, changed_parts(book));
        Shelf {
            filling,
            drive,
            fresh: books.iter().map(fresh).collect(),
            books,
        }
    }

    pub fn restore(&mut self) {
        for (book, fresh) in self.books.iter_mut().zip(&self.fresh) {
            fresh.restore(book);
        }
    }

    /// The call of a function for each book. They differ in names and bytes alone.
    pub fn calls(&self, function: u32) -> Vec<Call> {
        let call = |book| books::call(function, self.filling, book);
        self.books.iter().map(call).collect()
    }

    pub fn runs(&self, run: Run) -> Vec<Call> {
        let call = |book| books::run(run, self.filling, book);
        self.books.iter().map(call).collect()
    }

    /// A row for each function.
    pub fn rows(&mut self, rounds: usize) -> Vec<Row> {
        let row = |(function, _)| self.row(function, rounds);
        FUNCTIONS.into_iter().map(row).collect()
    }

    fn row(&mut self, function: u32, rounds: usize) -> Row {
        let calls = self.calls(function);
        Row {
            filling: self.filling,
            drive: self.drive,
            function,
            answer: self.agreed_answer(&calls),
            ns: self.times(std::slice::from_ref(&calls), THREE, rounds)[0],
            stack: self.stack_of(Who::Engine, &calls[0]),
        }
    }

    /// A row for each function that takes several records, where sixteen are there.
    pub fn several(&mut self, rounds: usize) -> Vec<Several> {
        if !self.filling.has_sixteen(self.drive) {
            return Vec::new();
        }
        let row = |function| self.several_of(function, rounds);
        BY_RECORDS.into_iter().map(row).collect()
    }

    fn several_of(&mut self, function: u32, rounds: usize) -> Several {
        let calls = COUNTS.map(|count| self.runs((function, 0, count)));
        for calls in &calls {
            assert_eq!(self.agreed_answer(calls), 0, "the records are there");
        }
        let ns = self.times(&calls, BESIDE_SINGLY, rounds);
        Several {
            filling: self.filling,
            drive: self.drive,
            function,
            ns: ns.try_into().expect("a time for each count"),
            stack: self.stack_of(Who::Engine, &calls[COUNTS.len() - 1][0]),
        }
    }

    /// Nanoseconds for the image check alone, as each call makes it.
    pub fn image_check(&mut self, rounds: usize) -> f64 {
        self.restore();
        let kind = self.drive.kind.number();
        let round = |_| self.check_round(|image| Linked.check(told(kind), image));
        (0..rounds).map(round).fold(f64::INFINITY, f64::min)
    }

    pub fn check_round(&mut self, check: impl Fn(&mut [u8]) -> u32) -> f64 {
        let began = Instant::now();
        for book in &mut self.books {
            std::hint::black_box(check(&mut book.image));
        }
        began.elapsed().as_nanos() as f64 / BOOKS as f64
    }

    /// For each set of calls, by each of those who are timed, the quickest of the rounds, each over all books, all
    /// taking turns: on a shared machine the slower ones measure its neighbours.
    fn times(&mut self, sets: &[Vec<Call>], timed: [Who; 3], rounds: usize) -> Vec<[f64; 3]> {
        let mut quickest = vec![[f64::INFINITY; 3]; sets.len()];
        for _ in 0..rounds {
            for (calls, quickest) in sets.iter().zip(&mut quickest) {
                for (who, least) in timed.iter().zip(quickest) {
                    *least = least.min(self.round(*who, calls));
                }
            }
        }
        quickest
    }

    pub fn round(&mut self, who: impl Timed, calls: &[Call]) -> f64 {
        let mut calls = calls.to_vec();
        self.restore();
        let began = Instant::now();
        for (call, book) in calls.iter_mut().zip(&mut self.books) {
            std::hint::black_box(who.answer(call, book));
        }
        began.elapsed().as_nanos() as f64 / BOOKS as f64
    }

    /// The answer that all three give on all books, with the same bytes after it.
    fn agreed_answer(&mut self, calls: &[Call]) -> u32 {
        self.restore();
        let same = |(book, call)| {
            let mut trial = Trial::new(book);
            let answer = trial.agreed_answer(call);
            assert!(trial.is_whole(), "nothing else has changed");
            answer
        };
        only(self.books.iter().zip(calls).map(same))
    }

    /// The stack that a call on the first book takes.
    pub fn stack_of(&mut self, who: impl Timed + 'static, call: &Call) -> usize {
        self.restore();
        let (mut book, mut call) = (self.books[0].clone(), call.clone());
        stack(move || {
            who.answer(&mut call, &mut book);
        })
    }
}

pub fn book(filling: Filling, drive: Drive, seed: u64) -> Book {
    let book = books::book(filling, drive, &mut Random::new(seed));
    let sound = reference::check(drive.kind.number(), 0, &book.image);
    assert_eq!(sound, 0, "the book is sound");
    book
}

/// The one answer among them.
fn only(answers: impl Iterator<Item = u32>) -> u32 {
    let mut answers: Vec<u32> = answers.collect();
    answers.dedup();
    assert_eq!(answers.len(), 1, "books that are filled alike are alike");
    answers[0]
}

// ---- What calls leave ----

/// The answer to a call, and what it leaves: FCB, DMA, list, directory, the blocks of the file that it names, and the
/// vector.
pub type Outcome = (u32, [Vec<u8>; 6]);

/// A copy of a book for many calls. What a call may change is compared and put back after it; what it may not, once
/// behind all of them, since a large drive is long.
pub struct Trial<'a> {
    book: &'a Book,
    used: Book,
}

impl<'a> Trial<'a> {
    pub fn new(book: &'a Book) -> Trial<'a> {
        Trial {
            book,
            used: book.clone(),
        }
    }

    pub fn outcome(&mut self, who: impl Timed, call: &Call) -> Outcome {
        let mut call = call.clone();
        let answer = who.answer(&mut call, &mut self.used);
        let parts = self.parts(&call);
        let bytes = |part: &Range<usize>| &self.used.image[part.clone()];
        let blocks: Vec<u8> = parts.iter().flat_map(bytes).copied().collect();
        let directory = self.used.image[self.used.directory()].to_vec();
        let (list, vector) = (self.used.list.clone(), self.used.vector.clone());
        let left = [call.fcb, call.dma, list, directory, blocks, vector];
        self.restore(parts);
        (answer, left)
    }

    /// The blocks of the file that the call names, those that it has just taken among them.
    fn parts(&self, call: &Call) -> Vec<Range<usize>> {
        let inside = |part: &Range<usize>| part.end <= self.used.image.len();
        let blocks = self.used.blocks_of(&call.fcb[1..12]);
        blocks.into_iter().filter(inside).collect()
    }

    fn restore(&mut self, mut parts: Vec<Range<usize>>) {
        parts.push(self.book.directory());
        Fresh::of(self.book, parts).restore(&mut self.used);
    }

    /// No call has changed what none may.
    pub fn is_whole(&self) -> bool {
        self.used.list == self.book.list
            && self.used.image == self.book.image
            && self.used.vector == self.book.vector
    }

    fn agreed_answer(&mut self, call: &Call) -> u32 {
        let engine = self.outcome(Who::Engine, call);
        for who in [Who::Plain, Who::Reference] {
            assert!(self.outcome(who, call) == engine, "the three agree");
        }
        let (answer, left) = engine;
        let due = plain_answer(call.function, answer);
        assert!(
            self.outcome(Who::Singly, call) == (due, left),
            "single calls agree"
        );
        answer
    }
}

/// A panic where one of the three, or the engine's single calls, do otherwise than the others: with the call of each
/// function and with each run of records.
pub fn agree(filling: Filling, drive: Drive) {
    let answers: Vec<Vec<u32>> = (0..BOOKS as u64)
        .map(|seed| agreed_answers(filling, &book(filling, drive, seed)))
        .collect();
    for at in 0..answers[0].len() {
        only(answers.iter().map(|of_book| of_book[at]));
    }
}

fn agreed_answers(filling: Filling, book: &Book) -> Vec<u32> {
    let mut trial = Trial::new(book);
    let answer = |call: Call| trial.agreed_answer(&call);
    let answers = all_calls(filling, book).map(answer).collect();
    assert!(trial.is_whole(), "nothing else has changed");
    answers
}

/// The call of each function and each run of records.
pub fn all_calls(filling: Filling, book: &Book) -> impl Iterator<Item = Call> + '_ {
    let call = move |(function, _)| books::call(function, filling, book);
    let run = move |run| books::run(run, filling, book);
    FUNCTIONS
        .into_iter()
        .map(call)
        .chain(books::runs().into_iter().map(run))
}

// ---- The stack ----

extern "C" {
    fn stack_of(function: extern "C" fn()) -> usize;
}

thread_local! {
    static ON_STACK: std::cell::RefCell<Option<Box<dyn FnMut()>>> = const { std::cell::RefCell::new(None) };
}

extern "C" fn run_held() {
    ON_STACK.with_borrow_mut(|held| {
        if let Some(job) = held {
            job();
        }
    });
}

/// The stack that the job takes, with that of the few lines that run it.
pub fn stack(job: impl FnMut() + 'static) -> usize {
    ON_STACK.with_borrow_mut(|held| *held = Some(Box::new(job)));
    // SAFETY: the function is run once, on this thread, before stack_of returns.
    unsafe { stack_of(run_held) }
}
