//! Cases and outcomes as bytes: for the pipe, and for a case kept in a file. Numbers are little-endian and have four
//! bytes.
//!
//! Case:    the function ('R' salvage, 'P' pack, 'M' same), kind, rule, and for each of its buffers:
//!          length, fill byte, runs
//! Outcome: 'A', broken guards(1), answer, and for each buffer runs: what differs from the buffer as it was lent
//! Runs:    as often as there are any: length (not 0), place, bytes; then a length of 0

use super::{Case, Outcome, What};
use std::io::{self, Read};

/// A run goes on over so many bytes that are alike.
const GAP: usize = 8;

/// No buffer is longer than the longest image and a block.
pub const MAX_BUFFER: usize = 4_098 * 2_048;

fn tag(what: What) -> u8 {
    match what {
        What::Salvage => b'R',
        What::Pack => b'P',
        What::Same => b'M',
    }
}

fn put_number(number: usize, out: &mut Vec<u8>) {
    out.extend((number as u32).to_le_bytes());
}

fn put_run(at: usize, bytes: &[u8], out: &mut Vec<u8>) {
    put_number(bytes.len(), out);
    put_number(at, out);
    out.extend(bytes);
}

/// The next place from `at` on that is not the fill byte.
fn next_place(bytes: &[u8], at: usize, fill: u8) -> Option<usize> {
    let whole = [fill; 64];
    let mut from = at;
    while bytes.len() - from >= 64 && bytes[from..from + 64] == whole {
        from += 64;
    }
    let found = bytes[from..].iter().position(|byte| *byte != fill);
    found.map(|place| from + place)
}

/// The runs of bytes that are not all the fill byte.
fn put_runs(bytes: &[u8], fill: u8, out: &mut Vec<u8>) {
    let mut at = 0;
    while let Some(first) = next_place(bytes, at, fill) {
        let mut end = first + 1;
        while let Some(next) = next_place(bytes, end, fill).filter(|next| next - end <= GAP) {
            end = next + 1;
        }
        put_run(first, &bytes[first..end], out);
        at = end;
    }
    put_number(0, out);
}

pub fn put_case(case: &Case, out: &mut Vec<u8>) {
    out.push(tag(case.what));
    out.extend(case.kind.to_le_bytes());
    out.extend(case.rule.to_le_bytes());
    for buffer in &case.buffers {
        let fill = buffer.last().copied().unwrap_or(0);
        put_number(buffer.len(), out);
        out.push(fill);
        put_runs(buffer, fill, out);
    }
}

fn malformed(what: &str) -> io::Error {
    io::Error::new(io::ErrorKind::InvalidData, what.to_string())
}

fn get_byte(from: &mut impl Read) -> io::Result<u8> {
    let mut byte = [0];
    from.read_exact(&mut byte)?;
    Ok(byte[0])
}

fn get_word(from: &mut impl Read) -> io::Result<u32> {
    let mut bytes = [0; 4];
    from.read_exact(&mut bytes)?;
    Ok(u32::from_le_bytes(bytes))
}

fn get_number(from: &mut impl Read) -> io::Result<usize> {
    Ok(get_word(from)? as usize)
}

/// Puts the runs into the buffer.
fn get_runs(buffer: &mut [u8], from: &mut impl Read) -> io::Result<()> {
    loop {
        let length = get_number(from)?;
        if length == 0 {
            return Ok(());
        }
        let at = get_number(from)?;
        let end = at.checked_add(length).ok_or(malformed("too long"))?;
        let place = buffer.get_mut(at..end).ok_or(malformed("too long"))?;
        from.read_exact(place)?;
    }
}

pub fn get_case(from: &mut impl Read) -> io::Result<Case> {
    let first = get_byte(from)?;
    let what = What::ALL.into_iter().find(|what| tag(*what) == first);
    let what = what.ok_or(malformed("no such function"))?;
    let (kind, rule) = (get_word(from)?, get_word(from)?);
    let mut buffers = Vec::new();
    for _ in what.buffers() {
        let length = get_number(from)?;
        if length > MAX_BUFFER {
            return Err(malformed("too long"));
        }
        let mut buffer = vec![get_byte(from)?; length];
        get_runs(&mut buffer, from)?;
        buffers.push(buffer);
    }
    Ok(Case {
        what,
        kind,
        rule,
        buffers,
    })
}

/// The outcome of this case.
pub fn get_outcome(case: &Case, from: &mut impl Read) -> io::Result<Outcome> {
    if get_byte(from)? != b'A' {
        return Err(malformed("not an outcome"));
    }
    let broken_guards = get_byte(from)?;
    let answer = get_word(from)?;
    let mut buffers = case.buffers.clone();
    for buffer in &mut buffers {
        get_runs(buffer, from)?;
    }
    Ok(Outcome {
        answer,
        broken_guards,
        buffers,
    })
}
