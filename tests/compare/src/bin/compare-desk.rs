//! Compares the desk's functions of an engine with the reference's, case by case.

use compare::desk::cases::Cases;
use compare::desk::coverage::Coverage;
use compare::desk::pipe::DeskPipe;
use compare::desk::wire::{get_case, put_case};
use compare::desk::{by_reference, difference, named, on_reference, watch, Case, Desk, Local, What};
use std::path::{Path, PathBuf};
use std::process::ExitCode;
use std::time::{Duration, Instant};

const USAGE: &str = "\
compare-desk [--seed N] [--cases N | --seconds N] [--only FUNCTION] [--failures FOLDER] [--table] [ENGINE]
compare-desk --replay FILE [ENGINE]

FUNCTION  salvage, pack or same; each in turn unless said
ENGINE    nothing: the reference itself
          --linked: the C symbols (feature `linked`, MPM_ARCHIVE)
          -- COMMAND [ARGUMENT...]: a child that speaks the protocol of pipe/desk.c";

const PROGRESS: Duration = Duration::from_secs(5);

const DIFFERENT: u8 = 1;
const WRONG_USE: u8 = 2;
const REFERENCE_AT_FAULT: u8 = 3;

struct Options {
    seed: u64,
    cases: Option<u64>,
    seconds: Option<u64>,
    functions: Vec<What>,
    failures: PathBuf,
    replay: Option<PathBuf>,
    table: bool,
    linked: bool,
    command: Vec<String>,
}

impl Options {
    fn read(mut words: impl Iterator<Item = String>) -> Option<Options> {
        let mut options = Options {
            seed: 1,
            cases: None,
            seconds: None,
            functions: What::ALL.to_vec(),
            failures: PathBuf::from("failures"),
            replay: None,
            table: false,
            linked: false,
            command: Vec::new(),
        };
        while let Some(word) = words.next() {
            match word.as_str() {
                "--seed" => options.seed = words.next()?.parse().ok()?,
                "--cases" => options.cases = Some(words.next()?.parse().ok()?),
                "--seconds" => options.seconds = Some(words.next()?.parse().ok()?),
                "--only" => options.functions = vec![What::titled(&words.next()?)?],
                "--failures" => options.failures = PathBuf::from(words.next()?),
                "--replay" => options.replay = Some(PathBuf::from(words.next()?)),
                "--table" => options.table = true,
                "--linked" => options.linked = true,
                "--" => {
                    options.command = words.by_ref().collect();
                    if options.command.is_empty() {
                        return None;
                    }
                }
                _ => return None,
            }
        }
        Some(options)
    }

    fn desk(&self) -> Option<Box<dyn Desk>> {
        if self.linked {
            return linked();
        }
        if self.command.is_empty() {
            return Some(Box::new(Local(by_reference)));
        }
        Some(Box::new(DeskPipe::new(self.command.clone())))
    }

    fn is_done(&self, cases: u64, began: Instant) -> bool {
        let enough = self.cases.is_some_and(|limit| cases >= limit);
        let limit = match (self.cases, self.seconds) {
            (None, None) => Some(10),
            (_, seconds) => seconds,
        };
        enough || limit.is_some_and(|limit| began.elapsed() >= Duration::from_secs(limit))
    }
}

#[cfg(feature = "linked")]
fn linked() -> Option<Box<dyn Desk>> {
    Some(Box::new(Local(compare::desk::linked::by_linked)))
}

#[cfg(not(feature = "linked"))]
fn linked() -> Option<Box<dyn Desk>> {
    None
}

fn main() -> ExitCode {
    let Some(options) = Options::read(std::env::args().skip(1)) else {
        eprintln!("{USAGE}");
        return ExitCode::from(WRONG_USE);
    };
    let Some(mut desk) = options.desk() else {
        eprintln!("this program was built without the feature `linked`");
        return ExitCode::from(WRONG_USE);
    };
    match &options.replay {
        Some(file) => replay(file, desk.as_mut()),
        None => compare(&options, desk.as_mut()),
    }
}

/// What has come of a case so far.
enum Verdict {
    Same,
    Different(String),
    AtFault(String),
}

fn judge(case: &Case, desk: &mut dyn Desk, coverage: &mut Coverage) -> Verdict {
    let expected = on_reference(case);
    if let Some(fault) = watch::fault(case, &expected) {
        return Verdict::AtFault(fault);
    }
    coverage.note(case, &expected);
    match difference(case, &expected, &desk.serve(case)) {
        None => Verdict::Same,
        Some(text) => Verdict::Different(text),
    }
}

fn compare(options: &Options, desk: &mut dyn Desk) -> ExitCode {
    let mut coverage = Coverage::default();
    let began = Instant::now();
    let named = options.functions.iter().flat_map(|what| named::cases(*what));
    for named::Named { title, case } in named {
        match judge(&case, desk, &mut coverage) {
            Verdict::Same => {}
            verdict => return report(options, &title, &case, verdict),
        }
    }
    let mut cases = Cases::new(options.seed);
    let mut reported = began;
    for number in 0.. {
        let done = coverage.cases();
        if options.is_done(done, began) {
            break;
        }
        if reported.elapsed() >= PROGRESS {
            reported = Instant::now();
            eprintln!("{}", progress(done, began));
        }
        let what = options.functions[number % options.functions.len()];
        let case = cases.next_case(what);
        match judge(&case, desk, &mut coverage) {
            Verdict::Same => {}
            verdict => return report(options, &format!("case {number}"), &case, verdict),
        }
    }
    let done = progress(coverage.cases(), began);
    println!("same: seed {}, {done}", options.seed);
    report_coverage(options, &coverage)
}

fn progress(cases: u64, began: Instant) -> String {
    let seconds = began.elapsed().as_secs_f64().max(0.001);
    let rate = cases as f64 / seconds;
    format!("{cases} cases in {seconds:.1} s, {rate:.0} a second")
}

fn report_coverage(options: &Options, coverage: &Coverage) -> ExitCode {
    if options.table {
        print!("{}", coverage.table());
    }
    let complaints = coverage.complaints();
    if complaints.is_empty() {
        println!("all that there is to reach was reached, and nothing else");
        return ExitCode::SUCCESS;
    }
    for complaint in complaints {
        println!("{complaint}");
    }
    ExitCode::from(REFERENCE_AT_FAULT)
}

fn report(options: &Options, title: &str, case: &Case, verdict: Verdict) -> ExitCode {
    let (text, status) = match verdict {
        Verdict::Same => return ExitCode::SUCCESS,
        Verdict::AtFault(fault) => (format!("{fault}\n"), REFERENCE_AT_FAULT),
        Verdict::Different(text) => (text, DIFFERENT),
    };
    println!("different: seed {}, {title}", options.seed);
    print!("{text}");
    let label: String = title
        .chars()
        .map(|c| if c.is_ascii_alphanumeric() { c } else { '-' })
        .collect();
    let file = options
        .failures
        .join(format!("desk-{}-{label}.case", options.seed));
    match keep(&file, case) {
        Ok(()) => println!("kept: compare-desk --replay {}", file.display()),
        Err(error) => println!("not kept in {}: {error}", file.display()),
    }
    ExitCode::from(status)
}

fn keep(file: &Path, case: &Case) -> std::io::Result<()> {
    let mut bytes = Vec::new();
    put_case(case, &mut bytes);
    if let Some(folder) = file.parent() {
        std::fs::create_dir_all(folder)?;
    }
    std::fs::write(file, bytes)
}

fn replay(file: &Path, desk: &mut dyn Desk) -> ExitCode {
    let case = match std::fs::read(file).and_then(|bytes| get_case(&mut &bytes[..])) {
        Ok(case) => case,
        Err(error) => {
            eprintln!("{}: {error}", file.display());
            return ExitCode::from(WRONG_USE);
        }
    };
    match difference(&case, &on_reference(&case), &desk.serve(&case)) {
        None => {
            println!("same");
            ExitCode::SUCCESS
        }
        Some(text) => {
            print!("different\n{text}");
            ExitCode::from(DIFFERENT)
        }
    }
}
