//! Compares an engine with the reference, call by call.

use compare::comparison::{describe, keep_case, on_reference, read_case, Comparison, Difference};
use compare::coverage::Coverage;
use compare::engine::{Engine, Reference};
use compare::generate::Generator;
use compare::named;
use compare::pipe::Pipe;
use compare::stage::Made;
use compare::step::Step;
use compare::table::Table;
use reference::kind::Kind;
use std::path::{Path, PathBuf};
use std::process::ExitCode;
use std::time::{Duration, Instant};

const USAGE: &str = "\
compare [--seed N] [--calls N | --seconds N] [--failures FOLDER] [--reasons] [ENGINE]
compare --replay FOLDER [ENGINE]
compare --speed [--seed N]

ENGINE   nothing: the reference itself
         --linked: the C symbols (feature `linked`, MPM_ARCHIVE)
         -- COMMAND [ARGUMENT...]: a child that speaks the pipe's protocol";

const PROGRESS: Duration = Duration::from_secs(5);

const DIFFERENT: u8 = 1;
const WRONG_USE: u8 = 2;
const REFERENCE_AT_FAULT: u8 = 3;

struct Options {
    seed: u64,
    calls: Option<u64>,
    seconds: Option<u64>,
    failures: PathBuf,
    replay: Option<PathBuf>,
    reasons: bool,
    speed: bool,
    linked: bool,
    command: Vec<String>,
}

impl Options {
    fn read(mut words: impl Iterator<Item = String>) -> Option<Options> {
        let mut options = Options {
            seed: 1,
            calls: None,
            seconds: None,
            failures: PathBuf::from("failures"),
            replay: None,
            reasons: false,
            speed: false,
            linked: false,
            command: Vec::new(),
        };
        while let Some(word) = words.next() {
            match word.as_str() {
                "--seed" => options.seed = words.next()?.parse().ok()?,
                "--calls" => options.calls = Some(words.next()?.parse().ok()?),
                "--seconds" => options.seconds = Some(words.next()?.parse().ok()?),
                "--failures" => options.failures = PathBuf::from(words.next()?),
                "--replay" => options.replay = Some(PathBuf::from(words.next()?)),
                "--reasons" => options.reasons = true,
                "--speed" => options.speed = true,
                "--linked" => options.linked = true,
                "--" => {
                    options.command = words.by_ref().collect();
                    if options.command.is_empty() {
                        return None;
                    }
                }
                _ => return None,
            }
        }
        Some(options)
    }

    fn engine(&self) -> Option<Box<dyn Engine>> {
        if self.linked {
            return linked();
        }
        if self.command.is_empty() {
            return Some(Box::new(Reference::default()));
        }
        Some(Box::new(Pipe::new(self.command.clone())))
    }

    fn is_done(&self, calls: u64, began: Instant) -> bool {
        let enough_calls = self.calls.is_some_and(|limit| calls >= limit);
        let limit = match (self.calls, self.seconds) {
            (None, None) => Some(10),
            (_, seconds) => seconds,
        };
        enough_calls || limit.is_some_and(|limit| began.elapsed() >= Duration::from_secs(limit))
    }
}

#[cfg(feature = "linked")]
fn linked() -> Option<Box<dyn Engine>> {
    Some(Box::new(compare::linked::Linked))
}

#[cfg(not(feature = "linked"))]
fn linked() -> Option<Box<dyn Engine>> {
    None
}

fn main() -> ExitCode {
    let Some(options) = Options::read(std::env::args().skip(1)) else {
        eprintln!("{USAGE}");
        return ExitCode::from(WRONG_USE);
    };
    if options.speed {
        return measure_speed(options.seed);
    }
    let Some(mut engine) = options.engine() else {
        eprintln!("this program was built without the feature `linked`");
        return ExitCode::from(WRONG_USE);
    };
    match &options.replay {
        Some(folder) => replay(folder, engine.as_mut()),
        None => compare(&options, engine.as_mut()),
    }
}

fn compare(options: &Options, engine: &mut dyn Engine) -> ExitCode {
    let mut generator = Generator::new(options.seed);
    let mut comparison = Comparison::new(engine);
    let began = Instant::now();
    for case in named::cases() {
        let made = generator.named_case(&case);
        if let Some(difference) = comparison.run(&made) {
            return report_difference(options, &case.title(), &made, &difference);
        }
    }
    let mut reported = began;
    for session in 1.. {
        if !generator.faults().is_empty() {
            return report_faults(generator.faults());
        }
        let calls = generator.coverage().calls();
        if options.is_done(calls, began) {
            break;
        }
        if reported.elapsed() >= PROGRESS {
            reported = Instant::now();
            eprintln!("{}", progress(calls, began));
        }
        let made = generator.session();
        if let Some(difference) = comparison.run(&made) {
            return report_difference(options, &format!("session {session}"), &made, &difference);
        }
    }
    let coverage = generator.coverage();
    println!(
        "same: seed {}, {}",
        options.seed,
        progress(coverage.calls(), began)
    );
    report_coverage(coverage, options.reasons)
}

fn progress(calls: u64, began: Instant) -> String {
    let seconds = began.elapsed().as_secs_f64().max(0.001);
    format!(
        "{calls} calls in {seconds:.1} s, {:.0} a second",
        calls as f64 / seconds
    )
}

fn report_coverage(coverage: &Coverage, reasons: bool) -> ExitCode {
    print!("{}", coverage.pairs());
    if reasons {
        print!("{}", coverage.reasons());
    }
    let complaints = coverage.complaints();
    if complaints.is_empty() {
        println!("every pair was reached, and no other");
        return ExitCode::SUCCESS;
    }
    report_faults(&complaints)
}

fn report_faults(faults: &[String]) -> ExitCode {
    for fault in faults {
        println!("{fault}");
    }
    ExitCode::from(REFERENCE_AT_FAULT)
}

fn report_difference(options: &Options, case: &str, made: &[Made], difference: &Difference) -> ExitCode {
    println!("different: seed {}, {case}", options.seed);
    print!("{}", describe(made, difference));
    let label: String = case
        .chars()
        .map(|c| if c.is_ascii_alphanumeric() { c } else { '-' })
        .collect();
    let folder = options.failures.join(format!("seed-{}-{label}", options.seed));
    match keep_case(&folder, made, difference) {
        Ok(()) => println!("kept: compare --replay {}", folder.display()),
        Err(error) => println!("not kept in {}: {error}", folder.display()),
    }
    ExitCode::from(DIFFERENT)
}

fn replay(folder: &Path, engine: &mut dyn Engine) -> ExitCode {
    let mut verdict = ExitCode::SUCCESS;
    for file in ["single.case", "trace.case"] {
        let steps = match read_case(&folder.join(file)) {
            Ok(steps) => steps,
            Err(error) => {
                eprintln!("{file}: {error}");
                return ExitCode::from(WRONG_USE);
            }
        };
        let made = on_reference(steps);
        match Comparison::new(engine).run(&made) {
            None => println!("{file}: same"),
            Some(difference) => {
                println!("{file}: different");
                print!("{}", describe(&made, &difference));
                verdict = ExitCode::from(DIFFERENT);
            }
        }
    }
    verdict
}

/// Times the reference alone, on steps made beforehand, for each kind of drive.
fn measure_speed(seed: u64) -> ExitCode {
    for kind in Kind::ALL {
        let mut generator = Generator::new(seed);
        let made: Vec<Made> = (0..300).flat_map(|_| generator.session_of(kind)).collect();
        let calls = made
            .iter()
            .filter(|made| matches!(made.step, Step::Call { .. }))
            .count();
        let (mut table, mut reference) = (Table::default(), Reference::default());
        let began = Instant::now();
        for Made { step, .. } in &made {
            table.serve(&mut reference, step);
        }
        println!("kind {}: {}", kind.number(), progress(calls as u64, began));
    }
    ExitCode::SUCCESS
}
