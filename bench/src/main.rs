//! Times the engine, its plain C version and the reference on the same books in one run, on both kinds of drive.
//! bench FOLDER [ROUNDS]: writes table.md, rows.csv, plot.svg, several.csv and several.svg to the folder.
//! bench --agree: times nothing, only compares what the three and the engine's single calls answer and leave.
//! bench --desk [ROUNDS]: times the desk's functions alone, and prints their tables.
//! bench --before FOLDER [ROUNDS], with the feature `before`: times an earlier engine and this one instead, and writes
//! before.md and before.csv to the folder.

#[cfg(feature = "before")]
mod before;
mod books;
mod curves;
mod desk;
mod engines;
mod measure;
mod plot;
mod report;

use books::{Drive, Filling};
use measure::{Row, Several, Shelf, BOOKS};
use std::path::Path;
use std::process::ExitCode;

const ROUNDS: usize = 200;

fn main() -> ExitCode {
    let words: Vec<String> = std::env::args().skip(1).collect();
    let done = match words.iter().map(String::as_str).collect::<Vec<_>>()[..] {
        ["--agree"] => agree(),
        ["--desk"] => Ok(desk::measure(ROUNDS)),
        ["--desk", rounds] => number(rounds).map(desk::measure),
        ["--before", folder] => compare_into(folder, ROUNDS),
        ["--before", folder, rounds] => number(rounds).and_then(|rounds| compare_into(folder, rounds)),
        [folder] => measure_into(folder, ROUNDS),
        [folder, rounds] => number(rounds).and_then(|rounds| measure_into(folder, rounds)),
        _ => Err("use: bench [--before] FOLDER [ROUNDS], bench --desk [ROUNDS] or bench --agree".to_string()),
    };
    match done {
        Ok(text) => {
            print!("{text}");
            ExitCode::SUCCESS
        }
        Err(text) => {
            eprintln!("bench: {text}");
            ExitCode::from(2)
        }
    }
}

fn number(rounds: &str) -> Result<usize, String> {
    match rounds.parse() {
        Ok(rounds @ 1..) => Ok(rounds),
        _ => Err("ROUNDS is a number from 1 on".to_string()),
    }
}

/// Each filling of a book on each drive.
fn shelves() -> Vec<(Filling, Drive)> {
    let of = |filling| books::all_drives().into_iter().map(move |drive| (filling, drive));
    books::FILLINGS.into_iter().flat_map(of).collect()
}

fn agree() -> Result<String, String> {
    for (filling, drive) in shelves() {
        measure::agree(filling, drive);
    }
    let calls = shelves().len() * books::FUNCTIONS.len();
    let runs = shelves().len() * books::runs().len();
    Ok(format!(
        "{calls} calls and {runs} runs of records on both kinds of drive, each on {BOOKS} books: \
         all three agree, and so do single calls\n"
    ))
}

/// All that is measured.
#[derive(Default)]
pub struct Figures {
    pub rows: Vec<Row>,
    pub several: Vec<Several>,
    /// Nanoseconds of the image check alone.
    pub checks: Vec<(Filling, Drive, f64)>,
}

fn measure_all(rounds: usize) -> Figures {
    let mut figures = Figures::default();
    for (filling, drive) in shelves() {
        let mut shelf = Shelf::new(filling, drive);
        figures.rows.extend(shelf.rows(rounds));
        figures.several.extend(shelf.several(rounds));
        figures.checks.push((filling, drive, shelf.image_check(rounds)));
    }
    figures
}

fn measure_into(folder: &str, rounds: usize) -> Result<String, String> {
    let figures = measure_all(rounds);
    let summary = report::summary(&figures) + &report::goals(&figures);
    write(Path::new(folder), &figures, &summary).map_err(|error| format!("{folder}: {error}"))?;
    Ok(summary)
}

#[cfg(feature = "before")]
fn compare_into(folder: &str, rounds: usize) -> Result<String, String> {
    before::compare_into(folder, rounds)
}

#[cfg(not(feature = "before"))]
fn compare_into(_: &str, _: usize) -> Result<String, String> {
    Err("built without an earlier engine".to_string())
}

fn write(folder: &Path, figures: &Figures, summary: &str) -> std::io::Result<()> {
    let Figures { rows, several, .. } = figures;
    let table = [summary, &report::several(several), &report::details(rows)].concat();
    std::fs::create_dir_all(folder)?;
    std::fs::write(folder.join("table.md"), table)?;
    std::fs::write(folder.join("rows.csv"), report::csv(rows))?;
    std::fs::write(folder.join("plot.svg"), plot::svg(rows))?;
    std::fs::write(folder.join("several.csv"), report::several_csv(several))?;
    std::fs::write(folder.join("several.svg"), curves::svg(several))
}
