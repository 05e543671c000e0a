//! Compares a program `mpmcalls` with the reference: what it prints, and DISK.OUT.

use compare::program_cases::{Disk, ProgramCase, ProgramCases};
use std::collections::BTreeMap;
use std::fs;
use std::io::{self, Read, Write};
use std::path::{Path, PathBuf};
use std::process::{Child, Command, ExitCode, Stdio};
use std::time::{Duration, Instant};

const USAGE: &str = "\
compare-mpmcalls [--seed N] [--runs N | --seconds N] [--failures FOLDER] -- COMMAND [ARGUMENT...]

The command is run in a folder of its own with DISK.IMG and standard input.";

/// A run that takes longer is taken to hang.
const PATIENCE: Duration = Duration::from_secs(60);

const DIFFERENT: u8 = 1;
const WRONG_USE: u8 = 2;
const REFERENCE_AT_FAULT: u8 = 3;

struct Options {
    seed: u64,
    runs: Option<u64>,
    seconds: Option<u64>,
    failures: PathBuf,
    command: Vec<String>,
}

impl Options {
    fn read(mut words: impl Iterator<Item = String>) -> Option<Options> {
        let mut options = Options {
            seed: 1,
            runs: None,
            seconds: None,
            failures: PathBuf::from("failures"),
            command: Vec::new(),
        };
        while let Some(word) = words.next() {
            match word.as_str() {
                "--seed" => options.seed = words.next()?.parse().ok()?,
                "--runs" => options.runs = Some(words.next()?.parse().ok()?),
                "--seconds" => options.seconds = Some(words.next()?.parse().ok()?),
                "--failures" => options.failures = PathBuf::from(words.next()?),
                "--" => options.command = words.by_ref().collect(),
                _ => return None,
            }
        }
        options.command.iter_mut().for_each(make_absolute);
        (!options.command.is_empty()).then_some(options)
    }

    fn is_done(&self, runs: u64, began: Instant) -> bool {
        let enough_runs = match (self.runs, self.seconds) {
            (None, None) => runs >= 300,
            (limit, _) => limit.is_some_and(|limit| runs >= limit),
        };
        let time_is_up = |limit| began.elapsed() >= Duration::from_secs(limit);
        enough_runs || self.seconds.is_some_and(time_is_up)
    }
}

/// The command is not run in this folder, so paths must not depend on it.
fn make_absolute(word: &mut String) {
    let found = fs::canonicalize(&*word).ok().filter(|_| word.contains('/'));
    if let Some(path) = found.as_deref().and_then(Path::to_str) {
        *word = path.to_string();
    }
}

/// What a run printed and left in DISK.OUT.
type Outcome = (Vec<u8>, Option<Vec<u8>>);

fn set_up(folder: &Path, case: &ProgramCase) -> io::Result<()> {
    if folder.exists() {
        fs::remove_dir_all(folder)?;
    }
    fs::create_dir_all(folder)?;
    let disk = folder.join("DISK.IMG");
    match &case.disk {
        Disk::Missing => {}
        Disk::Folder => fs::create_dir(disk)?,
        Disk::Bytes(bytes) => fs::write(disk, bytes)?,
    }
    if let Some(out) = &case.old_out {
        fs::write(folder.join("DISK.OUT"), out)?;
    }
    Ok(())
}

fn run(command: &[String], folder: &Path, case: &ProgramCase) -> io::Result<Outcome> {
    set_up(folder, case)?;
    let mut child = Command::new(&command[0])
        .args(&command[1..])
        .current_dir(folder)
        .stdin(Stdio::piped())
        .stdout(Stdio::piped())
        .spawn()?;
    let feeder = feed(&mut child, case.input.clone());
    let reader = drain(&mut child);
    wait(&mut child)?;
    let printed = reader.join().unwrap_or_default();
    // The program may stop before it has read everything, so a failed feeding says nothing.
    let _ = feeder.join();
    Ok((printed, fs::read(folder.join("DISK.OUT")).ok()))
}

fn feed(child: &mut Child, input: Vec<u8>) -> std::thread::JoinHandle<()> {
    let stdin = child.stdin.take();
    std::thread::spawn(move || {
        if let Some(mut stdin) = stdin {
            let _ = stdin.write_all(&input);
        }
    })
}

fn drain(child: &mut Child) -> std::thread::JoinHandle<Vec<u8>> {
    let stdout = child.stdout.take();
    std::thread::spawn(move || {
        let mut printed = Vec::new();
        if let Some(mut stdout) = stdout {
            let _ = stdout.read_to_end(&mut printed);
        }
        printed
    })
}

fn wait(child: &mut Child) -> io::Result<()> {
    let began = Instant::now();
    let mut pause = Duration::from_micros(200);
    while child.try_wait()?.is_none() {
        if began.elapsed() > PATIENCE {
            child.kill()?;
            child.wait()?;
            return Err(io::Error::new(io::ErrorKind::TimedOut, "the program hangs"));
        }
        std::thread::sleep(pause);
        pause = (2 * pause).min(Duration::from_millis(20));
    }
    Ok(())
}

/// Keeps what is needed to run the case again, and both outcomes.
fn keep(folder: &Path, case: &ProgramCase, got: &Outcome) -> io::Result<()> {
    set_up(folder, case)?;
    let (printed, out) = case.expected();
    fs::write(folder.join("input"), &case.input)?;
    fs::write(folder.join("expected.printed"), printed)?;
    fs::write(folder.join("got.printed"), &got.0)?;
    for (name, out) in [("expected.out", &out), ("got.out", &got.1)] {
        if let Some(bytes) = out {
            fs::write(folder.join(name), bytes)?;
        }
    }
    Ok(())
}

fn report(options: &Options, runs: u64, case: &ProgramCase, got: &Outcome) -> ExitCode {
    let (printed, out) = case.expected();
    println!("different: seed {}, run {runs}, {}", options.seed, case.kind);
    if printed != got.0 {
        let text = |bytes: &[u8]| String::from_utf8_lossy(bytes).into_owned();
        print!("expected:\n{}got:\n{}", text(&printed), text(&got.0));
    }
    if out != got.1 {
        println!("DISK.OUT differs");
    }
    let folder = options.failures.join(format!("mpmcalls-{}-{runs}", options.seed));
    match keep(&folder, case, got) {
        Ok(()) => println!("kept in {}", folder.display()),
        Err(error) => println!("not kept in {}: {error}", folder.display()),
    }
    ExitCode::from(DIFFERENT)
}

fn compare(options: &Options, folder: &Path) -> ExitCode {
    let mut cases = ProgramCases::new(options.seed);
    let mut kinds: BTreeMap<&str, u64> = BTreeMap::new();
    let began = Instant::now();
    let mut runs = 0;
    while !options.is_done(runs, began) {
        let case = cases.next_case();
        if let Some(fault) = cases.faults().first() {
            println!("the reference is at fault: {fault}");
            return ExitCode::from(REFERENCE_AT_FAULT);
        }
        let got = match run(&options.command, folder, &case) {
            Ok(got) => got,
            Err(error) => {
                println!("run {runs}: {error}");
                return ExitCode::from(DIFFERENT);
            }
        };
        if got != case.expected() {
            return report(options, runs, &case, &got);
        }
        *kinds.entry(case.kind).or_default() += 1;
        runs += 1;
    }
    let seconds = began.elapsed().as_secs_f64();
    println!("same: seed {}, {runs} runs in {seconds:.1} s", options.seed);
    for (kind, count) in kinds {
        println!("{count:>7}  {kind}");
    }
    ExitCode::SUCCESS
}

fn main() -> ExitCode {
    let Some(options) = Options::read(std::env::args().skip(1)) else {
        eprintln!("{USAGE}");
        return ExitCode::from(WRONG_USE);
    };
    let folder = std::env::temp_dir().join(format!("compare-mpmcalls-{}", std::process::id()));
    let verdict = compare(&options, &folder);
    // What is left of the last run is of no use to anybody.
    let _ = fs::remove_dir_all(&folder);
    verdict
}
