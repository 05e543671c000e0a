//! The time of a call beside the number of its records, as a picture: a row for each kind of drive and filling of a
//! book, a panel for each call, a curve for each of those who are timed.

use crate::books::{kind_title, shown, Filling, BY_RECORDS, COUNTS, FILLINGS};
use crate::measure::Several;
use crate::plot::{head, legend, title, Mark, ENGINE, LEFT, PLAIN, TOP};
use crate::report::name;
use reference::kind::Kind;
use std::fmt::Write;

/// A panel with its margins, and the part of it that holds the curves.
const WIDE: f64 = 240.0;
const INNER_WIDE: f64 = 185.0;
const HIGH: f64 = 190.0;
const INNER_HIGH: f64 = 135.0;

/// The scale is in powers of two of a microsecond, from the first to the last.
const LOWEST: i32 = 0;
const HIGHEST: i32 = 11;

const MARKS: [Mark; 3] = [ENGINE, PLAIN, ("the engine's single calls", "#3c8f4a")];

/// The rows of the picture, from the top: those of which there is something to show.
fn shelves(rows: &[Several]) -> Vec<(Kind, Filling)> {
    let all = Kind::ALL
        .into_iter()
        .flat_map(|kind| FILLINGS.map(|filling| (kind, filling)));
    all.filter(|&(kind, filling)| of(rows, kind, filling).count() > 0)
        .collect()
}

pub fn svg(rows: &[Several]) -> String {
    let shelves = shelves(rows);
    let width = LEFT + WIDE * BY_RECORDS.len() as f64;
    let mut text = head(width, TOP + HIGH * shelves.len() as f64);
    let sizes = Kind::ALL.map(|kind| format!("{} of {} blocks", kind_title(kind), shown(kind).blocks));
    let words = format!(
        "Microseconds a call for 1 to 16 records, drives: {} (both logarithmic)",
        sizes.join(", ")
    );
    legend(&mut text, &words, &MARKS);
    for (at, (kind, filling)) in shelves.into_iter().enumerate() {
        for (column, row) in of(rows, kind, filling).enumerate() {
            let corner = (LEFT + WIDE * column as f64, TOP + HIGH * at as f64);
            panel(&mut text, corner, row);
        }
    }
    text.push_str("</svg>\n");
    text
}

fn of(rows: &[Several], kind: Kind, filling: Filling) -> impl Iterator<Item = &Several> {
    rows.iter()
        .filter(move |row| row.filling == filling && row.drive == shown(kind))
}

fn panel(text: &mut String, corner: (f64, f64), row: &Several) {
    let (kind, filling) = (kind_title(row.drive.kind), row.filling.title());
    let words = format!("{kind}, {filling}: {} {}", row.function, name(row.function));
    title(text, corner.0, corner.1, &words);
    grid(text, corner);
    for (at, (_, colour)) in MARKS.iter().enumerate().rev() {
        curve(text, corner, row.ns.map(|ns| ns[at]), colour);
    }
}

fn grid(text: &mut String, (left, top): (f64, f64)) {
    for power in LOWEST..=HIGHEST {
        let y = height(top, f64::from(power));
        let _ = writeln!(
            text,
            "<line x1=\"{left}\" y1=\"{y:.1}\" x2=\"{}\" y2=\"{y:.1}\" stroke=\"#e2e2e2\"/><text x=\"{}\" y=\"{:.1}\" \
             text-anchor=\"end\" font-size=\"10\">{}</text>",
            left + INNER_WIDE,
            left - 8.0,
            y + 3.5,
            2f64.powi(power)
        );
    }
    for (at, count) in COUNTS.iter().enumerate() {
        let _ = writeln!(
            text,
            "<text x=\"{:.1}\" y=\"{}\" text-anchor=\"middle\" font-size=\"10\">{count}</text>",
            across(left, at),
            top + INNER_HIGH + 16.0
        );
    }
}

fn curve(text: &mut String, (left, top): (f64, f64), ns: [f64; COUNTS.len()], colour: &str) {
    let point = |(at, ns): (usize, f64)| (across(left, at), height(top, (ns / 1000.0).log2()));
    let points = ns.into_iter().enumerate().map(point);
    let path: Vec<String> = points.clone().map(|(x, y)| format!("{x:.1},{y:.1}")).collect();
    let _ = writeln!(
        text,
        "<polyline points=\"{}\" fill=\"none\" stroke=\"{colour}\" stroke-width=\"1.5\"/>",
        path.join(" ")
    );
    for (x, y) in points {
        let _ = writeln!(
            text,
            "<circle cx=\"{x:.1}\" cy=\"{y:.1}\" r=\"3.5\" fill=\"{colour}\"/>"
        );
    }
}

fn across(left: f64, at: usize) -> f64 {
    left + INNER_WIDE * (at as f64 + 0.5) / COUNTS.len() as f64
}

fn height(top: f64, power: f64) -> f64 {
    let (lowest, highest) = (f64::from(LOWEST), f64::from(HIGHEST));
    top + INNER_HIGH * (highest - power.clamp(lowest, highest)) / (highest - lowest)
}
