//! An engine is whatever serves the five functions, and perhaps has a plain side that makes a call
//! as single calls.

use crate::step::{Reply, Step, Told};
use crate::table::Table;
use reference::calls::{call_explained, Buffers, Numbers};
use reference::singly::{is_run_function, singly};

/// Buffers are lent mutable even where the function may only read, so that a write can be seen.
pub trait Engine {
    /// The numbers are capacity, open limit, lock limit and rule.
    fn start(&mut self, kind: u32, numbers: [u32; 4], users: &mut [u8], list: &mut [u8]) -> u32;

    fn check(&mut self, told: Told, image: &mut [u8]) -> u32;

    /// Where the 128 bytes begin in the image, or 0.
    fn look(&mut self, told: Told, user: u32, name: &mut [u8], record: u32, image: &mut [u8]) -> u32;

    /// Builds the allocation vector of the image.
    fn vector(&mut self, told: Told, image: &mut [u8], vector: &mut [u8]) -> u32;

    fn call(&mut self, numbers: Numbers, buffers: Buffers) -> u32;

    /// The same call made by the plain side on buffers of its own; None if it makes none of this.
    fn singly(&mut self, _: Numbers, _: Buffers) -> Option<u32> {
        None
    }

    /// The replies to those steps that have one. The table is the engine's own from run to run.
    fn run(&mut self, table: &mut Table, steps: &[&Step]) -> Result<Vec<Reply>, String> {
        Ok(steps.iter().filter_map(|step| table.serve(self, step)).collect())
    }

    /// Begins afresh after a breakdown, if the engine can.
    fn restart(&mut self) -> bool {
        false
    }
}

/// The reference as an engine. `why` is the reason or kind of success of the last call.
#[derive(Default)]
pub struct Reference {
    pub why: &'static str,
}

impl Engine for Reference {
    fn start(&mut self, kind: u32, numbers: [u32; 4], users: &mut [u8], list: &mut [u8]) -> u32 {
        let [capacity, open_limit, lock_limit, rule] = numbers;
        reference::start(kind, capacity, open_limit, lock_limit, rule, users, list)
    }

    fn check(&mut self, told: Told, image: &mut [u8]) -> u32 {
        reference::check(told.kind, told.rule, image)
    }

    fn look(&mut self, told: Told, user: u32, name: &mut [u8], record: u32, image: &mut [u8]) -> u32 {
        let found = reference::look(told.kind, told.rule, user, name, record, image);
        found.map_or(0, |at| at as u32)
    }

    fn vector(&mut self, told: Told, image: &mut [u8], vector: &mut [u8]) -> u32 {
        reference::vector(told.kind, told.rule, image, vector)
    }

    fn call(&mut self, numbers: Numbers, buffers: Buffers) -> u32 {
        let (answer, why) = call_explained(numbers, buffers);
        self.why = why;
        answer.word()
    }

    /// What is no run of several records is a single call already.
    fn singly(&mut self, numbers: Numbers, buffers: Buffers) -> Option<u32> {
        if !is_run_function(numbers.function) || numbers.count < 2 {
            return None;
        }
        Some(singly(numbers, buffers, |numbers, buffers| {
            call_explained(numbers, buffers).0.word()
        }))
    }
}
