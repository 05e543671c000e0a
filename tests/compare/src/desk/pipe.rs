//! A desk at the other end of a pipe: a child process that takes cases on its standard input and gives their outcomes
//! on its standard output.

use super::wire::{get_outcome, put_case};
use super::{Case, Desk, Outcome};
use crate::pipe::{begin, Running};
use std::io;

pub struct DeskPipe {
    command: Vec<String>,
    running: Option<Running>,
}

impl DeskPipe {
    pub fn new(command: Vec<String>) -> DeskPipe {
        DeskPipe {
            command,
            running: None,
        }
    }

    fn ask(&mut self, case: &Case) -> io::Result<Outcome> {
        if self.running.is_none() {
            self.running = Some(begin(&self.command)?);
        }
        let running = self.running.as_mut().ok_or(io::Error::other("it does not run"))?;
        let mut bytes = Vec::new();
        put_case(case, &mut bytes);
        running.write(&bytes)?;
        get_outcome(case, running.output())
    }
}

impl Desk for DeskPipe {
    /// After a breakdown the next case gets a new child.
    fn serve(&mut self, case: &Case) -> Result<Outcome, String> {
        self.ask(case).map_err(|error| {
            self.running = None;
            format!("pipe: {error}")
        })
    }
}
