//! An engine at the other end of a pipe: a child process that takes batches of steps on its
//! standard input and gives the replies on its standard output.

use crate::engine::Engine;
use crate::step::{set_image, set_list, set_vector, Changes, Reply, Step, Told, BUFFERS};
use crate::table::Table;
use crate::wire::{get_reply, put_step};
use reference::calls::{Buffers, Numbers};
use std::io::{self, Read, Write};
use std::process::{Child, ChildStdin, Command, Stdio};
use std::sync::mpsc::{channel, Receiver};
use std::time::Duration;

/// A child that says nothing for so long is taken to hang.
const PATIENCE: Duration = Duration::from_secs(60);

pub struct Pipe {
    command: Vec<String>,
    running: Option<Running>,
}

pub struct Running {
    child: Child,
    input: Option<ChildStdin>,
    output: Output,
}

/// What the child writes, read by a thread so that a silent child can be left.
pub struct Output {
    parts: Receiver<Vec<u8>>,
    part: Vec<u8>,
    used: usize,
}

impl Read for Output {
    fn read(&mut self, to: &mut [u8]) -> io::Result<usize> {
        if self.used == self.part.len() {
            self.part = self
                .parts
                .recv_timeout(PATIENCE)
                .map_err(|_| io::Error::new(io::ErrorKind::UnexpectedEof, "the engine ended or hangs"))?;
            self.used = 0;
        }
        let number = to.len().min(self.part.len() - self.used);
        to[..number].copy_from_slice(&self.part[self.used..self.used + number]);
        self.used += number;
        Ok(number)
    }
}

fn watch(mut from: impl Read + Send + 'static) -> Output {
    let (send, parts) = channel();
    std::thread::spawn(move || loop {
        let mut part = vec![0; 65_536];
        match from.read(&mut part) {
            Ok(number) if number > 0 => part.truncate(number),
            _ => return,
        }
        if send.send(part).is_err() {
            return;
        }
    });
    Output {
        parts,
        part: Vec::new(),
        used: 0,
    }
}

pub fn begin(command: &[String]) -> io::Result<Running> {
    let (program, arguments) = command
        .split_first()
        .ok_or(io::Error::new(io::ErrorKind::InvalidInput, "no command"))?;
    let mut child = Command::new(program)
        .args(arguments)
        .stdin(Stdio::piped())
        .stdout(Stdio::piped())
        .spawn()?;
    let input = child.stdin.take();
    let output = child
        .stdout
        .take()
        .ok_or(io::Error::other("the child has no output"))?;
    Ok(Running {
        child,
        input,
        output: watch(output),
    })
}

impl Running {
    fn send(&mut self, steps: &[&Step]) -> io::Result<()> {
        let mut batch = vec![0; 4];
        for step in steps {
            put_step(step, &mut batch);
        }
        let length = batch.len() as u32 - 4;
        batch[..4].copy_from_slice(&length.to_le_bytes());
        self.write(&batch)
    }

    pub fn write(&mut self, bytes: &[u8]) -> io::Result<()> {
        match &mut self.input {
            Some(input) => input.write_all(bytes).and_then(|()| input.flush()),
            None => Err(io::Error::other("the child has no input")),
        }
    }

    pub fn output(&mut self) -> &mut Output {
        &mut self.output
    }

    fn run(&mut self, steps: &[&Step]) -> io::Result<Vec<Reply>> {
        self.send(steps)?;
        let answered = steps.iter().filter(|step| step.is_answered()).count();
        (0..answered).map(|_| get_reply(&mut self.output)).collect()
    }
}

impl Drop for Running {
    fn drop(&mut self) {
        drop(self.input.take());
        // It may have ended already; there is nobody to tell.
        let _ = self.child.kill();
        let _ = self.child.wait();
    }
}

impl Pipe {
    pub fn new(command: Vec<String>) -> Pipe {
        Pipe {
            command,
            running: None,
        }
    }

    fn running(&mut self) -> io::Result<&mut Running> {
        if self.running.is_none() {
            self.running = Some(begin(&self.command)?);
        }
        self.running
            .as_mut()
            .ok_or(io::Error::other("the engine does not run"))
    }

    fn run_steps(&mut self, steps: &[&Step]) -> Result<Vec<Reply>, String> {
        let replies = self.running().and_then(|running| running.run(steps));
        replies.map_err(|error| format!("pipe: {error}"))
    }

    /// One answered step, with the buffers sent before it. A breakdown answers u32::MAX.
    fn single(&mut self, mut steps: Vec<Step>, step: Step) -> Reply {
        steps.push(step);
        let mut last = None;
        for step in &steps {
            last = self
                .run_steps(&[step])
                .ok()
                .and_then(|replies| replies.into_iter().next());
        }
        last.unwrap_or(Reply {
            answer: u32::MAX,
            broken_guards: 0,
            apart: None,
            changes: [const { None }; BUFFERS.len()],
        })
    }
}

fn whole_image(image: &[u8]) -> Vec<Step> {
    set_image(image, 0xE5)
}

fn apply(changes: &Changes, to: &mut [u8]) {
    for change in changes.iter().flatten() {
        if let Some(place) = to.get_mut(change.at..change.at + change.bytes.len()) {
            place.copy_from_slice(&change.bytes);
        }
    }
}

impl Engine for Pipe {
    fn start(&mut self, kind: u32, numbers: [u32; 4], users: &mut [u8], list: &mut [u8]) -> u32 {
        let step = Step::Start {
            kind,
            numbers,
            users: users.to_vec(),
        };
        let reply = self.single(set_list(list), step);
        apply(&reply.changes[0], users);
        apply(&reply.changes[2], list);
        reply.answer
    }

    fn check(&mut self, told: Told, image: &mut [u8]) -> u32 {
        let reply = self.single(whole_image(image), Step::Check { told });
        apply(&reply.changes[3], image);
        reply.answer
    }

    fn look(&mut self, told: Told, user: u32, name: &mut [u8], record: u32, image: &mut [u8]) -> u32 {
        let step = Step::Look {
            told,
            user,
            name: name.to_vec(),
            record,
        };
        let reply = self.single(whole_image(image), step);
        apply(&reply.changes[0], name);
        apply(&reply.changes[3], image);
        reply.answer
    }

    fn vector(&mut self, told: Told, image: &mut [u8], vector: &mut [u8]) -> u32 {
        let steps = [whole_image(image), set_vector(vector)].concat();
        let reply = self.single(steps, Step::Build { told });
        apply(&reply.changes[3], image);
        apply(&reply.changes[4], vector);
        reply.answer
    }

    fn call(&mut self, numbers: Numbers, buffers: Buffers) -> u32 {
        let step = Step::Call {
            numbers,
            fcb: buffers.fcb.to_vec(),
            dma: buffers.dma.to_vec(),
        };
        let steps = [
            set_list(buffers.list),
            whole_image(buffers.image),
            set_vector(buffers.vector),
        ];
        let reply = self.single(steps.concat(), step);
        let Buffers {
            fcb,
            dma,
            list,
            image,
            vector,
        } = buffers;
        let all = [fcb, dma, list, image, vector];
        for (changes, buffer) in reply.changes.iter().zip(all) {
            apply(changes, buffer);
        }
        reply.answer
    }

    fn run(&mut self, _: &mut Table, steps: &[&Step]) -> Result<Vec<Reply>, String> {
        self.run_steps(steps)
    }

    fn restart(&mut self) -> bool {
        self.running = None;
        true
    }
}
