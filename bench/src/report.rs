//! The figures as text.

use crate::books::{
    beside_and_shown, drives, kind_title, shown, Drive, Filling, COUNTS, FILLINGS, FUNCTIONS, MOST,
};
use crate::measure::{Row, Several};
use crate::Figures;
use reference::kind::Kind;
use std::fmt::Write;

/// Microseconds that a call may take on a small drive: on a typical book, and on a full directory with a full list.
const TYPICAL_LIMIT: f64 = 4.0;
const FULL_LIMIT: f64 = 25.0;
const PLAIN_LIMIT: f64 = 1.5;
const SIXTEEN_LIMIT: f64 = 2.0;
const GROWTH_LIMIT: f64 = 1.1;
/// Nanoseconds for each block that a drive is longer, of a call that may look at every block: what it takes more than
/// Read, which makes the same checks.
const BLOCK_LIMIT: f64 = 1.0;
const READ: u32 = 33;

/// The calls that may look at every block: 46 counts those that are free, the timed 40 looks for the lowest.
const BY_BLOCKS: [u32; 2] = [40, 46];

/// For each kind of drive a line for each filling, with the time of the image check alone; then the stack.
pub fn summary(figures: &Figures) -> String {
    let tables = Kind::ALL.map(|kind| summary_of(figures, kind));
    let stacks = figures.rows.iter().map(|row| row.stack);
    let stack = stacks.chain(figures.several.iter().map(|row| row.stack)).max();
    let stack = stack.unwrap_or(0);
    format!(
        "{}\nStack of one call, highest: {stack} bytes.\n",
        tables.concat()
    )
}

fn summary_of(figures: &Figures, kind: Kind) -> String {
    let [beside, shown] = beside_and_shown(kind);
    let mut text = format!(
        "\n**{} drives**, n = {}\n\n\
         | book | engine, median | engine, slowest | image check alone | plain C, median | engine / C, highest | \
         reference / engine, median | n = {} / n = {}, median |\n\
         |---|---|---|---|---|---|---|---|\n",
        kind_title(kind), shown.blocks, shown.blocks, beside.blocks,
    );
    for filling in FILLINGS {
        let of = of(&figures.rows, filling, shown);
        let slowest = highest(&of, |row| row.ns[0]);
        let steepest = highest(&of, ratio);
        let _ = writeln!(
            text,
            "| {}: {} | {} | {} ({}) | {} | {} | {:.2} ({}) | {:.1} | {:.2} |",
            filling.title(),
            filling.describe(shown),
            micro(median(&of, |row| row.ns[0])),
            micro(slowest.ns[0]),
            slowest.function,
            micro(check(figures, filling, shown)),
            micro(median(&of, |row| row.ns[1])),
            ratio(steepest),
            steepest.function,
            median(&of, |row| row.ns[2] / row.ns[0]),
            median(&of, |row| row.ns[0] / same_call(&figures.rows, row, beside).ns[0]),
        );
    }
    text
}

fn check(figures: &Figures, filling: Filling, drive: Drive) -> f64 {
    let is_it = |(of, on, _): &&(Filling, Drive, f64)| *of == filling && *on == drive;
    figures
        .checks
        .iter()
        .find(is_it)
        .expect("a check of every book")
        .2
}

/// The goals, what was measured of each, and what misses it.
pub fn goals(figures: &Figures) -> String {
    let head = "\n| goal | highest | missed by |\n|---|---|---|\n".to_string();
    let times = Kind::ALL.map(|kind| time_goals(&figures.rows, kind));
    let ratios = ratio_goals(&figures.rows, &figures.several);
    let growth = Kind::ALL.map(|kind| growth_goals(&figures.rows, kind));
    [head, times.concat(), ratios, growth.concat()].concat()
}

/// A typical call passes every entry, a full directory's every pair of entries: so much more a drive with more of them
/// may take.
fn time_goals(rows: &[Row], kind: Kind) -> String {
    let more = kind.entries() as f64 / Kind::First.entries() as f64;
    let (typical, full) = (TYPICAL_LIMIT * more, FULL_LIMIT * more * more);
    let title = kind_title(kind);
    let times = |fillings: &[Filling]| -> Vec<(String, f64)> {
        let time = |row: &Row| (label(row), row.ns[0] / 1000.0);
        let of = fillings
            .iter()
            .flat_map(|filling| of(rows, *filling, shown(kind)));
        of.map(time).collect()
    };
    [
        goal(
            &format!("a typical call on a {title} drive under {typical} µs"),
            &times(&[Filling::Typical]),
            typical,
        ),
        goal(
            &format!("a call on a {title} drive's full directory with a full list under {full} µs"),
            &times(&[Filling::BothFull, Filling::OneSlot]),
            full,
        ),
    ]
    .concat()
}

fn ratio_goals(rows: &[Row], several: &[Several]) -> String {
    let is_shown = |drive: Drive| drive == shown(drive.kind);
    let one = rows.iter().filter(|row| is_shown(row.drive));
    let one = one.map(|row| (label(row), ratio(row)));
    let many = several.iter().filter(|row| is_shown(row.drive));
    let many = many.map(|row| (several_label(row), row.most()[0] / row.most()[1]));
    let beside: Vec<_> = one.chain(many).collect();
    let growth = |row: &Several| (several_label(row), row.growth());
    let sixteen: Vec<_> = several.iter().map(growth).collect();
    [
        goal(
            &format!("at most {PLAIN_LIMIT} times plain C"),
            &beside,
            PLAIN_LIMIT,
        ),
        goal(
            &format!("sixteen records that are there, read or written in one call, at most {SIXTEEN_LIMIT} times one \
            record's call"),
            &sixteen,
            SIXTEEN_LIMIT,
        ),
    ]
    .concat()
}

/// A call's time may grow with the entries, not with n.
fn growth_goals(rows: &[Row], kind: Kind) -> String {
    match kind {
        Kind::First => growth_goal(rows, kind, "the sixteen calls", &[]),
        Kind::Second => {
            growth_goal(rows, kind, "the calls but 40 and 46", &BY_BLOCKS) + &block_goal(rows, kind)
        }
    }
}

fn growth_goal(rows: &[Row], kind: Kind, calls: &str, but: &[u32]) -> String {
    let [beside, shown] = beside_and_shown(kind);
    let (title, few, many) = (kind_title(kind), beside.blocks, shown.blocks);
    let growth = FILLINGS.map(|filling| {
        let growth = total(rows, filling, shown, but) / total(rows, filling, beside, but);
        (format!("{title} {}", filling.title()), growth)
    });
    let words = format!(
        "no growth with n: {calls} of a book on a {title} drive at n = {many} under {GROWTH_LIMIT} times those at n = \
         {few}"
    );
    goal(&words, &growth, GROWTH_LIMIT)
}

/// Of the calls that may look at every block.
fn block_goal(rows: &[Row], kind: Kind) -> String {
    let [beside, shown] = beside_and_shown(kind);
    let (title, few, many) = (kind_title(kind), beside.blocks, shown.blocks);
    let by_blocks = |row: &&Row| row.drive == shown && BY_BLOCKS.contains(&row.function);
    let per_block = |row: &Row| {
        let more = over_read(rows, row) - over_read(rows, same_call(rows, row, beside));
        (label(row), more / (many - few) as f64)
    };
    let per_block: Vec<_> = rows.iter().filter(by_blocks).map(per_block).collect();
    let words = format!(
        "46, and 40 with the lowest free block, on a {title} drive: what they take more than 33 grows \
         from n = {few} to n = {many} by at most {BLOCK_LIMIT} ns a block"
    );
    goal(&words, &per_block, BLOCK_LIMIT)
}

pub fn goal(name: &str, measured: &[(String, f64)], limit: f64) -> String {
    let highest = measured.iter().map(|(_, value)| *value).fold(0.0, f64::max);
    let misses = measured.iter().filter(|(_, value)| *value > limit);
    let misses: Vec<String> = misses
        .map(|(what, value)| format!("{what} ({value:.2})"))
        .collect();
    let missed = if misses.is_empty() {
        "none".to_string()
    } else {
        misses.join(", ")
    };
    format!("| {name} | {highest:.2} | {missed} |\n")
}

fn label(row: &Row) -> String {
    let kind = kind_title(row.drive.kind);
    format!("{kind} {} {}", row.filling.title(), row.function)
}

fn several_label(row: &Several) -> String {
    let (kind, filling, n) = (kind_title(row.drive.kind), row.filling.title(), row.drive.blocks);
    format!("{kind} {filling} {} of {MOST}, n = {n}", row.function)
}

impl Several {
    fn one(&self) -> [f64; 3] {
        self.ns[0]
    }

    fn most(&self) -> [f64; 3] {
        self.ns[COUNTS.len() - 1]
    }

    /// The engine's time for the most records beside that for one.
    fn growth(&self) -> f64 {
        self.most()[0] / self.one()[0]
    }
}

/// What a call takes more than Read on the same books.
fn over_read(rows: &[Row], row: &Row) -> f64 {
    let of = of(rows, row.filling, row.drive);
    let read = of.into_iter().find(|other| other.function == READ);
    row.ns[0] - read.expect("every call on every drive").ns[0]
}

/// The time of all calls but these.
fn total(rows: &[Row], filling: Filling, drive: Drive, but: &[u32]) -> f64 {
    let of = of(rows, filling, drive).into_iter();
    of.filter(|row| !but.contains(&row.function))
        .map(|row| row.ns[0])
        .sum()
}

/// For each kind of drive a table for each filling, a line for each call.
pub fn details(rows: &[Row]) -> String {
    let of_kind = |kind| FILLINGS.map(|filling| table(rows, filling, kind)).concat();
    Kind::ALL.map(of_kind).concat()
}

fn table(rows: &[Row], filling: Filling, kind: Kind) -> String {
    let drives = drives(kind);
    let heads: Vec<String> = drives
        .iter()
        .map(|drive| format!("n = {}", drive.blocks))
        .collect();
    let mut text = format!(
        "\n**{} drive, {}**: {}\n\n| call | A/H | {} | plain C | engine / C | reference | stack \
         |\n|---|---|{}---|---|---|---|\n",
        kind_title(kind),
        filling.title(),
        filling.describe(shown(kind)),
        heads.join(" | "),
        "---|".repeat(drives.len()),
    );
    for row in of(rows, filling, shown(kind)) {
        let time = |drive: &Drive| micro(same_call(rows, row, *drive).ns[0]);
        let times: Vec<String> = drives.iter().map(time).collect();
        let _ = writeln!(
            text,
            "| {} {} | {}/{} | {} | {} | {:.2} | {} | {} |",
            row.function,
            name(row.function),
            row.answer % 256,
            row.answer / 256,
            times.join(" | "),
            micro(row.ns[1]),
            ratio(row),
            micro(row.ns[2]),
            row.stack,
        );
    }
    text
}

/// A line for each call that takes several records and each book that has sixteen.
pub fn several(rows: &[Several]) -> String {
    let mut text = format!(
        "\n**{MOST} records in one call**: from record 0 on, all there\n\n\
         | call | drive | book | n | 1 record | {MOST} records | {MOST} / 1 | plain C | engine / C | {MOST} single \
         calls | single / one call | stack |\n\
         |---|---|---|---|---|---|---|---|---|---|---|---|\n"
    );
    for row in rows {
        let [engine, plain, singly] = row.most();
        let _ = writeln!(
            text,
            "| {} {} | {} | {} | {} | {} | {} | {:.2} | {} | {:.2} | {} | {:.1} | {} |",
            row.function,
            name(row.function),
            kind_title(row.drive.kind),
            row.filling.title(),
            row.drive.blocks,
            micro(row.one()[0]),
            micro(engine),
            row.growth(),
            micro(plain),
            engine / plain,
            micro(singly),
            singly / engine,
            row.stack,
        );
    }
    text
}

/// Every book, size, call and count, with the engine's time beside plain C's and its single calls' beside its own.
pub fn several_csv(rows: &[Several]) -> String {
    let mut text = String::from(
        "drive,book,n,function,count,engine ns,plain C ns,single calls ns,engine / C,single / one call\n",
    );
    for row in rows {
        for (count, [engine, plain, singly]) in COUNTS.iter().zip(row.ns) {
            let _ = writeln!(
                text,
                "{},{},{},{},{count},{engine:.0},{plain:.0},{singly:.0},{:.2},{:.2}",
                kind_title(row.drive.kind),
                row.filling.title(),
                row.drive.blocks,
                row.function,
                engine / plain,
                singly / engine,
            );
        }
    }
    text
}

/// Every book, size and call, with the engine's time beside plain C's and the reference's beside the engine's.
pub fn csv(rows: &[Row]) -> String {
    let mut text = String::from(
        "drive,book,n,function,A,H,engine ns,plain C ns,reference ns,engine / C,reference / engine,stack bytes\n",
    );
    for row in rows {
        let (a, h) = (row.answer % 256, row.answer / 256);
        let [engine, plain, reference] = row.ns;
        let _ = writeln!(
            text,
            "{},{},{},{},{a},{h},{engine:.0},{plain:.0},{reference:.0},{:.2},{:.2},{}",
            kind_title(row.drive.kind),
            row.filling.title(),
            row.drive.blocks,
            row.function,
            ratio(row),
            reference / engine,
            row.stack
        );
    }
    text
}

pub fn of(rows: &[Row], filling: Filling, drive: Drive) -> Vec<&Row> {
    rows.iter()
        .filter(|row| row.filling == filling && row.drive == drive)
        .collect()
}

fn same_call<'a>(rows: &'a [Row], row: &Row, drive: Drive) -> &'a Row {
    let of = of(rows, row.filling, drive);
    of.into_iter()
        .find(|other| other.function == row.function)
        .expect("every call on every drive")
}

pub fn name(function: u32) -> &'static str {
    FUNCTIONS
        .iter()
        .find(|(number, _)| *number == function)
        .map_or("", |(_, name)| name)
}

fn ratio(row: &Row) -> f64 {
    row.ns[0] / row.ns[1]
}

fn highest<'a>(rows: &[&'a Row], of: impl Fn(&Row) -> f64) -> &'a Row {
    rows.iter()
        .max_by(|a, b| of(a).total_cmp(&of(b)))
        .expect("a row for each call")
}

fn median(rows: &[&Row], of: impl Fn(&Row) -> f64) -> f64 {
    let mut values: Vec<f64> = rows.iter().map(|row| of(row)).collect();
    values.sort_by(f64::total_cmp);
    values[values.len() / 2]
}

fn micro(ns: f64) -> String {
    format!("{:.2} µs", ns / 1000.0)
}
