//! The reference at the other end of a pipe, to try the pipe with.

use compare::engine::Reference;
use compare::table::Table;
use compare::wire::{get_step, put_reply};
use std::io::{self, Read, Write};

fn read_batch(from: &mut impl Read) -> io::Result<Option<Vec<u8>>> {
    let mut length = [0; 4];
    match from.read_exact(&mut length) {
        Err(error) if error.kind() == io::ErrorKind::UnexpectedEof => return Ok(None),
        other => other?,
    }
    let mut batch = vec![0; u32::from_le_bytes(length) as usize];
    from.read_exact(&mut batch)?;
    Ok(Some(batch))
}

fn main() -> io::Result<()> {
    let (mut table, mut reference) = (Table::default(), Reference::default());
    let (mut input, mut output) = (io::stdin().lock(), io::stdout().lock());
    while let Some(batch) = read_batch(&mut input)? {
        let mut steps = &batch[..];
        let mut replies = Vec::new();
        while let Some(step) = get_step(&mut steps)? {
            if let Some(reply) = table.serve(&mut reference, &step) {
                put_reply(&reply, &mut replies);
            }
        }
        output.write_all(&replies)?;
        output.flush()?;
    }
    Ok(())
}
