//! Times the desk's functions on the images that are hardest for them, beside plain C, and holds each time against what
//! it is to be measured by.

use crate::books::{kind_title, Drive, Filling};
use crate::engines::told;
use crate::measure::{book, BOOKS};
use crate::report::goal;
use compare::build::{image_of, Entry};
use compare::desk::linked::by_linked;
use compare::desk::packs::{fresh_list, packed_once};
use compare::desk::What;
use compare::engine::Engine;
use compare::faults::vector_of;
use compare::linked::Linked;
use reference::calls::{Buffers, Numbers, DMA_LENGTH};
use reference::kind::Kind;
use std::time::Instant;

/// Salvage may take so many times the image check of a full book.
const SALVAGE_LIMIT: f64 = 5.0;
/// Packing is to take as long as both checks and so many copies of the image.
const PACK_COPIES: f64 = 3.0;
/// Telling whether two images hold one book, as both image checks and comparing the images so often.
const SAME_COMPARISONS: f64 = 3.0;

extern "C" {
    fn plain_salvage(
        kind: u32,
        rule: u32,
        image: *mut u8,
        image_len: usize,
        report: *mut u8,
        report_len: usize,
    ) -> u32;

    fn plain_pack(
        kind: u32,
        image: *mut u8,
        image_len: usize,
        list: *const u8,
        list_len: usize,
        packed: *mut u8,
        packed_len: usize,
    ) -> u32;

    fn plain_same(kind: u32, first: *mut u8, first_len: usize, second: *mut u8, second_len: usize) -> u32;
}

/// Nanoseconds of one function on one sort of image: by the engine, by plain C, and what it is held against.
struct Row {
    what: String,
    engine: f64,
    plain: f64,
    measure: f64,
}

impl Row {
    fn ratio(&self) -> f64 {
        self.engine / self.measure
    }

    fn line(&self) -> String {
        let micro = |ns: f64| format!("{:.2} µs", ns / 1000.0);
        let (engine, plain, measure) = (micro(self.engine), micro(self.plain), micro(self.measure));
        let beside = self.engine / self.plain;
        format!(
            "| {} | {engine} | {plain} | {beside:.2} | {measure} | {:.2} |\n",
            self.what,
            self.ratio()
        )
    }
}

/// The shortest drive that a directory can fill; salvage reads no block behind it.
fn drive(kind: Kind) -> Drive {
    let blocks = match kind {
        Kind::First => 256,
        Kind::Second => 257,
    };
    Drive { kind, blocks }
}

/// The quickest of the rounds for one of so many jobs, which are made ready before each round.
fn quickest<T>(rounds: usize, mut ready: impl FnMut() -> Vec<T>, mut job: impl FnMut(&mut T)) -> f64 {
    let round = |_| {
        let mut all = ready();
        let began = Instant::now();
        all.iter_mut().for_each(&mut job);
        began.elapsed().as_nanos() as f64 / all.len() as f64
    };
    (0..rounds).map(round).fold(f64::INFINITY, f64::min)
}

/// The image check of a full book.
fn full_check(drive: Drive, rounds: usize) -> f64 {
    let books: Vec<Vec<u8>> = (0..BOOKS as u64)
        .map(|seed| book(Filling::FullDirectory, drive, seed).image)
        .collect();
    let kind = drive.kind.number();
    quickest(
        rounds,
        || books.clone(),
        |image| {
            std::hint::black_box(Linked.check(told(kind), image));
        },
    )
}

// ---- Salvage ----

/// Names that differ in their last bytes alone.
fn file(number: usize) -> Entry {
    let mut name = *b"WHOLESALEAA";
    name[9] += (number / 26) as u8;
    name[10] += (number % 26) as u8;
    Entry::of(0, name, 0).count(128)
}

/// Names of the same letters, each in another order.
fn anagram(number: usize) -> Entry {
    let mut name = *b"ABCDEFGHIJK";
    let mut left = number;
    for place in 1..8 {
        name.swap(place, place + left % (11 - place));
        left /= 11 - place;
    }
    Entry::of(0, name, 0).count(128)
}

fn with_map(kind: Kind, entry: Entry, number: impl Fn(usize) -> u16) -> Entry {
    let places = 0..kind.numbers_per_entry();
    places.fold(entry, |entry, place| entry.block_of(kind, place, number(place)))
}

/// Directories with every entry used, which salvage has most to do with.
fn hardest(kind: Kind) -> Vec<(&'static str, Vec<Entry>)> {
    let last = drive(kind).blocks as u16 - 1;
    let all = |entry: &dyn Fn(usize) -> Entry| (0..kind.entries()).map(entry).collect::<Vec<Entry>>();
    let half = kind.entries() / 2;
    vec![
        ("every entry a file, no block", all(&file)),
        ("every name of the same letters", all(&anagram)),
        ("one file, no block", all(&|e| file(0).extent(e as u32))),
        (
            "one file, extent 0 last",
            all(&|e| file(0).extent((kind.entries() - 1 - e) as u32)),
        ),
        ("no file has an extent 0", all(&|e| file(e).extent(1))),
        ("every extent twice", all(&|e| file(e % half))),
        ("every entry the same", all(&|_| file(7))),
        (
            "every number names one block",
            all(&|e| with_map(kind, file(e), |_| last)),
        ),
        (
            "every number out of range",
            all(&|e| with_map(kind, file(e), |_| 1)),
        ),
        (
            "each block named by many, in two files",
            all(&|e| {
                with_map(kind, file(e % 2).extent(e as u32 / 2), |k| {
                    2 + (e * 16 + k) as u16 % (last - 2)
                })
            }),
        ),
        (
            "every name bad in its last byte",
            all(&|e| file(e).with(11, 0x7F)),
        ),
    ]
}

fn salvages(kind: Kind, rounds: usize) -> Vec<Row> {
    let drive = drive(kind);
    let measure = full_check(drive, rounds);
    let row = |(what, entries): (&str, Vec<Entry>)| {
        let image = image_of(kind, drive.blocks, &entries);
        let ready = || vec![(image.clone(), vec![0; kind.entries()]); BOOKS];
        let engine = quickest(rounds, ready, |(image, report): &mut (Vec<u8>, Vec<u8>)| {
            let answer = by_linked(What::Salvage, told(kind.number()), &mut [image, report]);
            assert_eq!(std::hint::black_box(answer), 0, "salvage is done");
        });
        let plain = quickest(rounds, ready, |(image, report): &mut (Vec<u8>, Vec<u8>)| {
            // SAFETY: each pointer comes with the length of the slice it is taken from, and the slices are separate.
            let answer = unsafe {
                plain_salvage(
                    kind.number(),
                    0,
                    image.as_mut_ptr(),
                    image.len(),
                    report.as_mut_ptr(),
                    report.len(),
                )
            };
            assert_eq!(std::hint::black_box(answer), 0, "salvage is done");
        });
        Row {
            what: format!("{}: {what}", kind_title(kind)),
            engine,
            plain,
            measure,
        }
    };
    hardest(kind).into_iter().map(row).collect()
}

// ---- Packing ----

/// The checks of image, list and vector, as a call makes them that does nothing else: 143 of a process that holds
/// nothing.
fn both_checks(drive: Drive, books: &[Vec<u8>], list: &[u8], rounds: usize) -> f64 {
    let numbers = Numbers {
        kind: drive.kind.number(),
        function: 143,
        process: 0,
        count: 1,
    };
    let (mut fcb, mut dma, mut list) = (vec![0; 36], vec![0; DMA_LENGTH], list.to_vec());
    let with_vector = |image: &Vec<u8>| (image.clone(), vector_of(drive.kind, image));
    let fresh: Vec<(Vec<u8>, Vec<u8>)> = books.iter().map(with_vector).collect();
    quickest(
        rounds,
        || fresh.clone(),
        |(image, vector)| {
            let buffers = Buffers {
                fcb: &mut fcb,
                dma: &mut dma,
                list: &mut list,
                image,
                vector,
            };
            assert_eq!(
                std::hint::black_box(Linked.call(numbers, buffers)),
                0,
                "a sound book"
            );
        },
    )
}

/// Each image copied once, to the same place: where a packed one is written too.
fn copies(books: &[Vec<u8>], rounds: usize) -> f64 {
    let mut to = vec![0; books[0].len()];
    quickest(
        rounds,
        || books.to_vec(),
        |image| {
            to.copy_from_slice(image);
            std::hint::black_box(&mut to);
        },
    )
}

fn packs(filling: Filling, drive: Drive, rounds: usize) -> Row {
    let kind = drive.kind.number();
    // A long image is copied anew for each book, and that is what takes the time.
    let count = if drive.blocks > 1_000 { 8 } else { BOOKS as u64 };
    let books: Vec<Vec<u8>> = (0..count).map(|seed| book(filling, drive, seed).image).collect();
    let mut list = fresh_list(drive.kind, 64, [0; 16]);
    let mut packed = vec![0; books[0].len()];
    let measure = both_checks(drive, &books, &list, rounds) + PACK_COPIES * copies(&books, rounds);
    let engine = quickest(
        rounds,
        || books.clone(),
        |image| {
            let answer = by_linked(What::Pack, told(kind), &mut [image, &mut list, &mut packed]);
            assert_eq!(std::hint::black_box(answer), 0, "a sound book");
        },
    );
    let plain = quickest(
        rounds,
        || books.clone(),
        |image| {
            // SAFETY: each pointer comes with the length of the slice it is taken from, and the slices are separate.
            let answer = unsafe {
                plain_pack(
                    kind,
                    image.as_mut_ptr(),
                    image.len(),
                    list.as_ptr(),
                    list.len(),
                    packed.as_mut_ptr(),
                    packed.len(),
                )
            };
            assert_eq!(std::hint::black_box(answer), 0, "a sound book");
        },
    );
    Row {
        what: title(filling, drive),
        engine,
        plain,
        measure,
    }
}

/// Books of three fillings on drives of four sizes.
fn on_all_drives(row: impl Fn(Filling, Drive) -> Row) -> Vec<Row> {
    let fillings = [Filling::Empty, Filling::Typical, Filling::FullDirectory];
    let drives = [
        (Kind::First, 64),
        (Kind::First, 256),
        (Kind::Second, 257),
        (Kind::Second, 4_096),
    ];
    let all = drives
        .into_iter()
        .flat_map(|drive| fillings.map(|filling| (filling, drive)));
    all.map(|(filling, (kind, blocks))| row(filling, Drive { kind, blocks }))
        .collect()
}

// ---- Two images of one book ----

/// A book and its packed form: nothing differs, so that everything is compared.
fn pairs(filling: Filling, drive: Drive, rounds: usize) -> Row {
    let kind = drive.kind.number();
    let count = if drive.blocks > 1_000 { 8 } else { BOOKS as u64 };
    let pair = |seed: u64| {
        let image = book(filling, drive, seed).image;
        let packed = packed_once(drive.kind, &image);
        (image, packed)
    };
    let books: Vec<(Vec<u8>, Vec<u8>)> = (0..count).map(pair).collect();
    let ready = || books.clone();
    let check = quickest(rounds, ready, |(one, other)| {
        std::hint::black_box(Linked.check(told(kind), one));
        std::hint::black_box(Linked.check(told(kind), other));
    });
    let alike: Vec<(Vec<u8>, Vec<u8>)> = books.iter().map(|(one, _)| (one.clone(), one.clone())).collect();
    let compare = quickest(
        rounds,
        || alike.clone(),
        |(one, other)| {
            assert!(std::hint::black_box(one == other));
        },
    );
    let engine = quickest(rounds, ready, |(one, other)| {
        let answer = by_linked(What::Same, told(kind), &mut [one, other]);
        assert_eq!(std::hint::black_box(answer), 0, "one book");
    });
    let plain = quickest(rounds, ready, |(one, other)| {
        // SAFETY: each pointer comes with the length of the slice it is taken from, and the slices are separate.
        let answer =
            unsafe { plain_same(kind, one.as_mut_ptr(), one.len(), other.as_mut_ptr(), other.len()) };
        assert_eq!(std::hint::black_box(answer), 0, "one book");
    });
    Row {
        what: title(filling, drive),
        engine,
        plain,
        measure: check + SAME_COMPARISONS * compare,
    }
}

fn title(filling: Filling, drive: Drive) -> String {
    format!(
        "{}: {}, n = {}",
        kind_title(drive.kind),
        filling.title(),
        drive.blocks
    )
}

fn table(title: &str, measure: &str, rows: &[Row], limit: f64, words: &str) -> String {
    let head = format!(
        "\n**{title}**\n\n| image | engine | plain C | engine / C | {measure} | engine / that \
         |\n|---|---|---|---|---|---|\n"
    );
    let lines: String = rows.iter().map(Row::line).collect();
    let ratios: Vec<(String, f64)> = rows.iter().map(|row| (row.what.clone(), row.ratio())).collect();
    let goals = "\n| goal | highest | missed by |\n|---|---|---|\n";
    format!("{head}{lines}{goals}{}", goal(words, &ratios, limit))
}

/// All tables.
pub fn measure(rounds: usize) -> String {
    let salvages: Vec<Row> = Kind::ALL
        .into_iter()
        .flat_map(|kind| salvages(kind, rounds))
        .collect();
    let salvage = table(
        "Salvage",
        "image check of a full book",
        &salvages,
        SALVAGE_LIMIT,
        &format!("salvage on the hardest image at most {SALVAGE_LIMIT} times the image check of a full book"),
    );
    let pack = table(
        "Packing",
        "both checks and 3 copies",
        &on_all_drives(|filling, drive| packs(filling, drive, rounds)),
        1.0,
        "packing at most as long as the image check, the list check and 3 copies of the image in C",
    );
    let same = table(
        "Two images of one book",
        "both image checks and comparing 3 times",
        &on_all_drives(|filling, drive| pairs(filling, drive, rounds)),
        1.0,
        "a book and its packed form compared at most as long as both image checks and 3 times comparing both images \
         in C",
    );
    [salvage, pack, same].concat()
}
