//! The figures as a picture: a panel for each kind of drive and filling of a book, a column for each call, a mark for
//! each of the three.

use crate::books::{kind_title, shown, Drive, Filling, FILLINGS, FUNCTIONS};
use crate::measure::Row;
use crate::report::of;
use reference::kind::Kind;
use std::fmt::Write;

pub const LEFT: f64 = 70.0;
const COLUMN: f64 = 62.0;
pub const TOP: f64 = 70.0;
const PANEL: f64 = 190.0;
const INNER: f64 = 150.0;
const WIDTH: f64 = LEFT + COLUMN * FUNCTIONS.len() as f64 + 20.0;

/// The scale is in powers of two of a microsecond, from the first to the last.
const LOWEST: f64 = -2.0;
const HIGHEST: f64 = 9.0;

/// A name and a colour.
pub type Mark = (&'static str, &'static str);

pub const ENGINE: Mark = ("engine", "#14599d");
pub const PLAIN: Mark = ("the same in plain C", "#8a8a8a");
const MARKS: [Mark; 3] = [ENGINE, PLAIN, ("Rust reference", "#d0812a")];

/// The panels, from the top.
fn panels() -> Vec<(Filling, Drive)> {
    let of = |kind| FILLINGS.map(|filling| (filling, shown(kind)));
    Kind::ALL.into_iter().flat_map(of).collect()
}

pub fn svg(rows: &[Row]) -> String {
    let height = TOP + PANEL * panels().len() as f64 + 30.0;
    let mut text = head(WIDTH, height);
    legend(&mut text, "Microseconds a call (logarithmic)", &MARKS);
    for (at, (filling, drive)) in panels().into_iter().enumerate() {
        let top = TOP + PANEL * at as f64;
        title(&mut text, LEFT, top, &words(filling, drive));
        grid(&mut text, top);
        for (column, row) in of(rows, filling, drive).iter().enumerate() {
            points(&mut text, top, column, row);
        }
    }
    functions(&mut text, height - 22.0);
    text.push_str("</svg>\n");
    text
}

fn words(filling: Filling, drive: Drive) -> String {
    let (kind, blocks) = (kind_title(drive.kind), drive.blocks);
    format!(
        "{kind} drive of {blocks} blocks, {}: {}",
        filling.title(),
        filling.describe(drive)
    )
}

pub fn head(width: f64, height: f64) -> String {
    format!(
        "<svg xmlns=\"http://www.w3.org/2000/svg\" width=\"{width}\" height=\"{height}\" font-family=\"sans-serif\" \
         font-size=\"12\">\n\
         <rect width=\"100%\" height=\"100%\" fill=\"white\"/>\n",
    )
}

pub fn title(text: &mut String, x: f64, top: f64, words: &str) {
    let _ = writeln!(
        text,
        "<text x=\"{x}\" y=\"{}\" font-weight=\"bold\">{words}</text>",
        top - 6.0
    );
}

pub fn legend(text: &mut String, words: &str, marks: &[Mark]) {
    let _ = writeln!(
        text,
        "<text x=\"{LEFT}\" y=\"20\" font-size=\"14\">{words}</text>"
    );
    for (at, (name, colour)) in marks.iter().enumerate() {
        let x = LEFT + 6.0 + 180.0 * at as f64;
        let _ = writeln!(
            text,
            "<circle cx=\"{x}\" cy=\"36\" r=\"5\" fill=\"{colour}\"/><text x=\"{}\" y=\"40\">{name}</text>",
            x + 12.0
        );
    }
}

fn grid(text: &mut String, top: f64) {
    for power in LOWEST as i32..=HIGHEST as i32 {
        let y = height(top, f64::from(power));
        let _ = writeln!(
            text,
            "<line x1=\"{LEFT}\" y1=\"{y:.1}\" x2=\"{}\" y2=\"{y:.1}\" stroke=\"#e2e2e2\"/><text x=\"{}\" y=\"{:.1}\" \
             text-anchor=\"end\" font-size=\"10\">{}</text>",
            WIDTH - 20.0,
            LEFT - 8.0,
            y + 3.5,
            2f64.powi(power)
        );
    }
}

fn points(text: &mut String, top: f64, column: usize, row: &Row) {
    let x = LEFT + COLUMN * (column as f64 + 0.5);
    for (at, (_, colour)) in MARKS.iter().enumerate().rev() {
        let y = height(top, (row.ns[at] / 1000.0).log2());
        let _ = writeln!(
            text,
            "<circle cx=\"{:.1}\" cy=\"{y:.1}\" r=\"4.5\" fill=\"{colour}\"/>",
            x + 9.0 * (at as f64 - 1.0)
        );
    }
}

fn functions(text: &mut String, y: f64) {
    for (column, (number, name)) in FUNCTIONS.iter().enumerate() {
        let x = LEFT + COLUMN * (column as f64 + 0.5);
        let short = name.split([',', ' ']).next().unwrap_or(name);
        let _ = writeln!(
            text,
            "<text x=\"{x:.1}\" y=\"{y}\" text-anchor=\"middle\">{number}</text>"
        );
        let _ = writeln!(
            text,
            "<text x=\"{x:.1}\" y=\"{}\" text-anchor=\"middle\" font-size=\"9\">{short}</text>",
            y + 12.0
        );
    }
}

fn height(top: f64, power: f64) -> f64 {
    top + INNER * (HIGHEST - power.clamp(LOWEST, HIGHEST)) / (HIGHEST - LOWEST)
}
