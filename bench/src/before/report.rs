//! What was measured of the two engines, as text.

use super::{Both, Pair, Work};
use crate::books::{kind_title, Drive, Filling, FILLINGS};
use crate::report::goal;
use reference::kind::Kind;
use std::fmt::Write;

/// So many times as long as before a call may take.
const LIMIT: f64 = 1.1;

/// The image check alone on each shelf; the calls of each kind of drive and filling; the stack; the goal.
pub fn table(pairs: &[Pair], rounds: usize) -> String {
    let (checks, calls): (Vec<&Pair>, Vec<&Pair>) = pairs.iter().partition(|pair| pair.is_check());
    [
        check_table(&checks),
        call_table(&calls),
        stack_table(&checks, &calls),
        goals(pairs),
        format!("\nA time is the quickest of {rounds} rounds, a ratio the median of the rounds' own.\n"),
    ]
    .concat()
}

fn check_table(checks: &[&Pair]) -> String {
    let mut text = String::from(
        "| image check alone | drive | n | before | now | now / before |\n|---|---|---|---|---|---|\n",
    );
    for pair in checks {
        let [before, now] = pair.quickest();
        let (book, kind) = (pair.filling.title(), kind_title(pair.drive.kind));
        let (n, ratio) = (pair.drive.blocks, pair.ratio());
        let _ = writeln!(
            text,
            "| {book} | {kind} | {n} | {before:.0} ns | {now:.0} ns | {ratio:.2} |"
        );
    }
    text
}

fn call_table(calls: &[&Pair]) -> String {
    let mut text = String::from("\n| calls, now / before | drive | median | highest |\n|---|---|---|---|\n");
    for (kind, filling) in Kind::ALL
        .into_iter()
        .flat_map(|kind| FILLINGS.map(|filling| (kind, filling)))
    {
        let sorted = by_ratio(calls, kind, filling);
        let (Some(median), Some(highest)) = (sorted.get(sorted.len() / 2), sorted.last()) else {
            continue;
        };
        let _ = writeln!(
            text,
            "| {} | {} | {:.2} | {:.2} ({}, n = {}) |",
            filling.title(),
            kind_title(kind),
            median.ratio(),
            highest.ratio(),
            highest.work.title(),
            highest.drive.blocks,
        );
    }
    text
}

fn by_ratio<'a>(calls: &[&'a Pair], kind: Kind, filling: Filling) -> Vec<&'a Pair> {
    let is_it = |pair: &&&Pair| pair.drive.kind == kind && pair.filling == filling;
    let mut sorted: Vec<&Pair> = calls.iter().filter(is_it).copied().collect();
    sorted.sort_by(|a, b| a.ratio().total_cmp(&b.ratio()));
    sorted
}

fn stack_table(checks: &[&Pair], calls: &[&Pair]) -> String {
    let highest = |pairs: &[&Pair], side: usize| pairs.iter().map(|pair| pair.stack[side]).max().unwrap_or(0);
    let line = |name: &str, pairs: &[&Pair]| {
        let (before, now) = (highest(pairs, 0), highest(pairs, 1));
        format!("| {name} | {before} bytes | {now} bytes |\n")
    };
    [
        "\n| stack, highest | before | now |\n|---|---|---|\n".to_string(),
        line("image check alone", checks),
        line("one call", calls),
    ]
    .concat()
}

fn goals(pairs: &[Pair]) -> String {
    let measured = |pair: &Pair| (label(pair.filling, pair.drive, &pair.work), pair.ratio());
    let measured: Vec<_> = pairs.iter().map(measured).collect();
    let line = goal(&format!("at most {LIMIT} times before"), &measured, LIMIT);
    format!("\n| goal | highest | missed by |\n|---|---|---|\n{line}")
}

/// Every book, size and work.
pub fn csv(pairs: &[Pair]) -> String {
    let mut text =
        String::from("drive,book,n,work,before ns,now ns,now / before,stack bytes before,stack bytes now\n");
    for pair in pairs {
        let ([before, now], [stack_before, stack_now]) = (pair.quickest(), pair.stack);
        let _ = writeln!(
            text,
            "{},{},{},{},{before:.0},{now:.0},{:.2},{stack_before},{stack_now}",
            kind_title(pair.drive.kind),
            pair.filling.title(),
            pair.drive.blocks,
            pair.work.title(),
            pair.ratio(),
        );
    }
    text
}

pub fn disagreement(filling: Filling, drive: Drive, work: &Work) -> String {
    let label = label(filling, drive, work);
    format!("the two engines do not answer and leave the same: {label}")
}

fn label(filling: Filling, drive: Drive, work: &Work) -> String {
    let (kind, n) = (kind_title(drive.kind), drive.blocks);
    format!("{kind} {} {}, n = {n}", filling.title(), work.title())
}

impl Work {
    fn title(&self) -> String {
        let Work::Calls(calls) = self else {
            return "image check".to_string();
        };
        match calls[0].count {
            1 => calls[0].function.to_string(),
            count => format!("{} of {count}", calls[0].function),
        }
    }
}

impl Pair {
    fn is_check(&self) -> bool {
        matches!(self.work, Work::Check)
    }

    fn quickest(&self) -> Both<f64> {
        [0, 1].map(|side| {
            self.rounds
                .iter()
                .map(|ns| ns[side])
                .fold(f64::INFINITY, f64::min)
        })
    }

    /// Now / before. The two of a round share its moment, so the median of their ratios is steadier than the ratio of
    /// the quickest, which may be of different moments.
    fn ratio(&self) -> f64 {
        let mut ratios: Vec<f64> = self.rounds.iter().map(|[before, now]| now / before).collect();
        ratios.sort_by(f64::total_cmp);
        (ratios[(ratios.len() - 1) / 2] + ratios[ratios.len() / 2]) / 2.0
    }
}
