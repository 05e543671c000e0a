//! Runs an engine beside what the reference has replied, in batches, and keeps a case on which
//! the two differ so that it can be replayed.

use crate::engine::{Engine, Reference};
use crate::stage::Made;
use crate::step::{set_image, set_list, set_vector, Apart, Changes, Reply, Step, ANSWER_APART, BUFFERS};
use crate::table::Table;
use crate::wire::{before_the_fill, get_step, put_reply, put_step};
use reference::calls::Numbers;
use std::fmt::Write;
use std::fs;
use std::io::{self, Read};
use std::path::Path;

/// A batch stays below 64 KB in each direction.
const BATCH_BYTES: usize = 48 * 1024;

const CASE_MARK: &[u8; 8] = b"MPMCASE5";

/// The step at which engine and reference part.
#[derive(Debug)]
pub struct Difference {
    pub index: usize,
    pub expected: Option<Reply>,
    pub got: Result<Reply, String>,
}

pub struct Comparison<'a> {
    engine: &'a mut dyn Engine,
    table: Table,
}

impl<'a> Comparison<'a> {
    pub fn new(engine: &'a mut dyn Engine) -> Comparison<'a> {
        Comparison {
            engine,
            table: Table::default(),
        }
    }

    /// Runs the steps, which begin with an image and a list of their own; None if all is the same.
    pub fn run(&mut self, made: &[Made]) -> Option<Difference> {
        let mut first = 0;
        while first < made.len() {
            let last = first + batch_length(&made[first..]);
            match self.run_batch(&made[first..last], first) {
                None => first = last,
                Some(difference) if difference.got.is_err() => {
                    return Some(self.one_by_one(made, difference))
                }
                different => return different,
            }
        }
        None
    }

    fn run_batch(&mut self, batch: &[Made], first: usize) -> Option<Difference> {
        let steps: Vec<&Step> = batch.iter().map(|made| &made.step).collect();
        let mut replies = match self.engine.run(&mut self.table, &steps) {
            Ok(replies) => replies.into_iter(),
            Err(trouble) => {
                return Some(Difference {
                    index: first + batch.len() - 1,
                    expected: batch.last()?.reply.clone(),
                    got: Err(trouble),
                })
            }
        };
        for (offset, made) in batch.iter().enumerate() {
            let Some(expected) = &made.reply else {
                continue;
            };
            let got = replies.next().ok_or("no reply".to_string());
            if got.as_ref() != Ok(expected) {
                return Some(Difference {
                    index: first + offset,
                    expected: Some(expected.clone()),
                    got,
                });
            }
        }
        None
    }

    /// The engine broke off somewhere in a batch: a fresh one gets the steps singly.
    fn one_by_one(&mut self, made: &[Made], found: Difference) -> Difference {
        if !self.engine.restart() {
            return found;
        }
        self.table = Table::default();
        (0..made.len())
            .find_map(|index| self.run_batch(&made[index..=index], index))
            .unwrap_or(found)
    }
}

fn batch_length(made: &[Made]) -> usize {
    let (mut sent, mut received) = (Vec::new(), Vec::new());
    for (number, one) in made.iter().enumerate() {
        put_step(&one.step, &mut sent);
        if let Some(reply) = &one.reply {
            put_reply(reply, &mut received);
        }
        if number > 0 && (sent.len() > BATCH_BYTES || received.len() > BATCH_BYTES) {
            return number;
        }
    }
    made.len()
}

/// What the reference replies to the steps.
pub fn on_reference(steps: Vec<Step>) -> Vec<Made> {
    let (mut table, mut reference) = (Table::default(), Reference::default());
    steps
        .into_iter()
        .map(|step| Made {
            reply: table.serve(&mut reference, &step),
            step,
        })
        .collect()
}

/// Where the steps begin of which one must have made the difference: the last one, or, where the
/// whole image was compared, those behind the last such comparison.
fn first_suspect(steps: &[Step]) -> usize {
    let last = steps.len().saturating_sub(1);
    if steps.last() != Some(&Step::Whole) {
        return last;
    }
    let is_beginning = |step: &Step| matches!(step, Step::Whole | Step::Image { .. });
    steps[..last]
        .iter()
        .rposition(is_beginning)
        .map_or(0, |before| before + 1)
}

/// The suspects, with the whole image compared behind each one that has an answer.
fn watched_closely(suspects: &[Step]) -> Vec<Step> {
    let watched = |step: &Step| match step {
        Step::Whole => vec![Step::Whole],
        step if step.is_answered() => vec![step.clone(), Step::Whole],
        step => vec![step.clone()],
    };
    match suspects {
        [_] => suspects.to_vec(),
        _ => suspects.iter().flat_map(watched).collect(),
    }
}

/// The whole session, the suspects watched closely.
fn trace(steps: &[Step]) -> Vec<Step> {
    let (before, suspects) = steps.split_at(first_suspect(steps));
    [before, &watched_closely(suspects)].concat()
}

/// The suspects alone, with the image, the list and the vector as they stood before them.
fn single(steps: &[Step]) -> Vec<Step> {
    let (mut table, mut reference) = (Table::default(), Reference::default());
    let (before, suspects) = steps.split_at(first_suspect(steps));
    for step in before {
        table.serve(&mut reference, step);
    }
    let mut single = set_image(table.image(), 0xE5);
    single.extend(set_list(table.list()));
    single.extend(set_vector(table.vector()));
    single.extend(watched_closely(suspects));
    single
}

fn case_bytes(steps: &[Step]) -> Vec<u8> {
    let mut bytes = CASE_MARK.to_vec();
    for step in steps {
        put_step(step, &mut bytes);
    }
    bytes
}

/// Keeps the case: the whole session up to the difference, the differing step alone, and a report.
pub fn keep_case(folder: &Path, made: &[Made], difference: &Difference) -> io::Result<()> {
    let steps: Vec<Step> = made[..=difference.index]
        .iter()
        .map(|made| made.step.clone())
        .collect();
    fs::create_dir_all(folder)?;
    fs::write(folder.join("trace.case"), case_bytes(&trace(&steps)))?;
    fs::write(folder.join("single.case"), case_bytes(&single(&steps)))?;
    fs::write(folder.join("report.txt"), describe(made, difference))
}

/// The steps of a kept case.
pub fn read_case(path: &Path) -> io::Result<Vec<Step>> {
    let bytes = fs::read(path)?;
    let mut from = &bytes[..];
    let mut mark = [0; 8];
    from.read_exact(&mut mark)?;
    if mark != *CASE_MARK {
        return Err(io::Error::new(io::ErrorKind::InvalidData, "not a case"));
    }
    let mut steps = Vec::new();
    while let Some(step) = get_step(&mut from)? {
        steps.push(step);
    }
    Ok(steps)
}

pub fn describe(made: &[Made], difference: &Difference) -> String {
    let step = &made[difference.index].step;
    let mut text = format!("step {}: {}\n", difference.index, describe_step(step));
    let expected = difference
        .expected
        .as_ref()
        .map_or("no reply".to_string(), describe_reply);
    let got = match &difference.got {
        Ok(reply) => describe_reply(reply),
        Err(trouble) => format!("  {trouble}\n"),
    };
    // Writing to a String cannot fail.
    let _ = write!(text, "expected:\n{expected}got:\n{got}");
    text
}

pub fn describe_step(step: &Step) -> String {
    match step {
        Step::Call { numbers, fcb, dma } => {
            let Numbers {
                kind,
                function,
                process,
                count,
            } = numbers;
            format!(
                "call of {function} by {process}, count {count}, kind {kind}\n  FCB {}\n  DMA {}",
                hex(fcb),
                hex_and_fill(dma)
            )
        }
        other => format!("{other:?}"),
    }
}

fn describe_reply(reply: &Reply) -> String {
    let Reply {
        answer,
        broken_guards,
        apart,
        changes,
    } = reply;
    let mut text = format!("  answer {}\n", a_and_h(*answer));
    if *broken_guards != 0 {
        let _ = writeln!(text, "  guards broken: {broken_guards:010b}");
    }
    if let Some(apart) = apart {
        text.push_str(&describe_apart(apart));
    }
    for (name, changes) in BUFFERS.iter().zip(changes) {
        text.push_str(&describe_changes(name, changes));
    }
    text
}

fn a_and_h(answer: u32) -> String {
    format!("{answer} ({}/{})", answer % 256, answer / 256)
}

fn describe_apart(apart: &Apart) -> String {
    let Apart { parts, answer } = apart;
    let mut names: Vec<&str> = (0..)
        .zip(BUFFERS)
        .filter(|(i, _)| parts & (1 << i) != 0)
        .map(|(_, name)| name)
        .collect();
    if parts & ANSWER_APART != 0 {
        names.push("answer");
    }
    let answer = a_and_h(*answer);
    format!(
        "  mpm_singly has done otherwise: {}; its answer is {answer}\n",
        names.join(", ")
    )
}

fn describe_changes(name: &str, changes: &Changes) -> String {
    let Some(changes) = changes else {
        return format!("  {name}: too many changes\n");
    };
    changes
        .iter()
        .map(|change| format!("  {name} at {}: {}\n", change.at, hex(&change.bytes)))
        .collect()
}

fn hex_and_fill(bytes: &[u8]) -> String {
    let (told, fill) = before_the_fill(bytes);
    format!(
        "{} and {} times {fill:02X}",
        hex(&bytes[..told]),
        bytes.len() - told
    )
}

fn hex(bytes: &[u8]) -> String {
    bytes.iter().map(|byte| format!("{byte:02X}")).collect()
}
