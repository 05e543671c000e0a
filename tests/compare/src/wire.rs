//! Steps and replies as bytes: for the pipe, and for cases kept in a file. Numbers are
//! little-endian.
//!
//! Step:   'I' length(4) fill(1)              the image gets this length
//!         'i' at(4) n(2) bytes               a part of it gets these bytes
//!         'L', 'l'                           the same for the list
//!         'B', 'b'                           the same for the allocation vector
//!         'S' kind(4) capacity(4) open limit(4) lock limit(4) rule(4) n(2) users
//!         'C' kind(4) function(4) process(4) count(4) n(2) FCB, DMA
//!         'K' kind(4) rule(4)                check the image
//!         'M' kind(4) rule(4)                make the vector from the image
//!         'V' kind(4) rule(4) user(4) record(4) n(2) name    look
//!         'W'                                compare the whole image
//! DMA:    length(2) fill(1) n(2) bytes       the bytes, and behind them the fill byte
//! Reply, to S, C, K, M, V and W (whose answer is 0):
//!         'A' broken guards(2) answer(4) apart(1), where apart is not 0 the plain side's
//!         answer(4), then for users or FCB or name, DMA, list, image and vector:
//!         n(2), and n times at(4) n(2) bytes; n of 65,535 means too many to tell.

use crate::step::{
    Apart, Change, Changes, Reply, Step, Told, BUFFERS, MAX_CHANGED_BYTES, MAX_CHANGES, MAX_DMA, MAX_IMAGE,
    MAX_LIST, MAX_VECTOR,
};
use reference::calls::Numbers;
use std::io::{self, Read};

const TOO_MANY: u16 = u16::MAX;

fn put_number(number: usize, out: &mut Vec<u8>) {
    out.extend((number as u32).to_le_bytes());
}

fn put_bytes(bytes: &[u8], out: &mut Vec<u8>) {
    out.extend((bytes.len() as u16).to_le_bytes());
    out.extend(bytes);
}

fn put_length(tag: u8, length: usize, fill: u8, out: &mut Vec<u8>) {
    out.push(tag);
    put_number(length, out);
    out.push(fill);
}

fn put_patch(tag: u8, at: usize, bytes: &[u8], out: &mut Vec<u8>) {
    out.push(tag);
    put_number(at, out);
    put_bytes(bytes, out);
}

fn put_numbers(tag: u8, numbers: &[u32], out: &mut Vec<u8>) {
    out.push(tag);
    for number in numbers {
        out.extend(number.to_le_bytes());
    }
}

/// How many bytes stand before those that are all like the last one, and that last byte.
pub fn before_the_fill(bytes: &[u8]) -> (usize, u8) {
    let fill = bytes.last().copied().unwrap_or(0);
    let told = bytes.iter().rposition(|&byte| byte != fill);
    (told.map_or(0, |last| last + 1), fill)
}

fn put_dma(dma: &[u8], out: &mut Vec<u8>) {
    let (told, fill) = before_the_fill(dma);
    out.extend((dma.len() as u16).to_le_bytes());
    out.push(fill);
    put_bytes(&dma[..told], out);
}

pub fn put_step(step: &Step, out: &mut Vec<u8>) {
    match step {
        Step::Image { length, fill } => put_length(b'I', *length, *fill, out),
        Step::List { length, fill } => put_length(b'L', *length, *fill, out),
        Step::PatchImage { at, bytes } => put_patch(b'i', *at, bytes, out),
        Step::PatchList { at, bytes } => put_patch(b'l', *at, bytes, out),
        Step::Vector { length, fill } => put_length(b'B', *length, *fill, out),
        Step::PatchVector { at, bytes } => put_patch(b'b', *at, bytes, out),
        Step::Start { kind, numbers, users } => {
            let [capacity, open_limit, lock_limit, rule] = *numbers;
            put_numbers(b'S', &[*kind, capacity, open_limit, lock_limit, rule], out);
            put_bytes(users, out);
        }
        Step::Call { numbers, fcb, dma } => {
            let Numbers {
                kind,
                function,
                process,
                count,
            } = *numbers;
            put_numbers(b'C', &[kind, function, process, count], out);
            put_bytes(fcb, out);
            put_dma(dma, out);
        }
        Step::Check { told } => put_numbers(b'K', &[told.kind, told.rule], out),
        Step::Build { told } => put_numbers(b'M', &[told.kind, told.rule], out),
        Step::Look {
            told,
            user,
            name,
            record,
        } => {
            put_numbers(b'V', &[told.kind, told.rule, *user, *record], out);
            put_bytes(name, out);
        }
        Step::Whole => out.push(b'W'),
    }
}

pub fn put_reply(reply: &Reply, out: &mut Vec<u8>) {
    out.push(b'A');
    out.extend(reply.broken_guards.to_le_bytes());
    out.extend(reply.answer.to_le_bytes());
    match &reply.apart {
        None => out.push(0),
        Some(apart) => {
            out.push(apart.parts);
            out.extend(apart.answer.to_le_bytes());
        }
    }
    for changes in &reply.changes {
        let Some(changes) = changes else {
            out.extend(TOO_MANY.to_le_bytes());
            continue;
        };
        out.extend((changes.len() as u16).to_le_bytes());
        for change in changes {
            put_number(change.at, out);
            put_bytes(&change.bytes, out);
        }
    }
}

fn malformed(what: &str) -> io::Error {
    io::Error::new(io::ErrorKind::InvalidData, what.to_string())
}

fn get<const N: usize>(from: &mut impl Read) -> io::Result<[u8; N]> {
    let mut bytes = [0; N];
    from.read_exact(&mut bytes)?;
    Ok(bytes)
}

fn get_u8(from: &mut impl Read) -> io::Result<u8> {
    Ok(get::<1>(from)?[0])
}

fn get_u16(from: &mut impl Read) -> io::Result<u16> {
    Ok(u16::from_le_bytes(get(from)?))
}

fn get_u32(from: &mut impl Read) -> io::Result<u32> {
    Ok(u32::from_le_bytes(get(from)?))
}

fn get_told(from: &mut impl Read) -> io::Result<Told> {
    Ok(Told {
        kind: get_u32(from)?,
        rule: get_u32(from)?,
    })
}

fn get_at_most(limit: usize, from: &mut impl Read) -> io::Result<usize> {
    let number = get_u32(from)? as usize;
    if number > limit {
        return Err(malformed("too long"));
    }
    Ok(number)
}

fn get_bytes(from: &mut impl Read) -> io::Result<Vec<u8>> {
    let mut bytes = vec![0; usize::from(get_u16(from)?)];
    from.read_exact(&mut bytes)?;
    Ok(bytes)
}

fn get_dma(from: &mut impl Read) -> io::Result<Vec<u8>> {
    let length = usize::from(get_u16(from)?);
    let fill = get_u8(from)?;
    let mut bytes = get_bytes(from)?;
    if length > MAX_DMA || bytes.len() > length {
        return Err(malformed("too long"));
    }
    bytes.resize(length, fill);
    Ok(bytes)
}

fn get_tag(from: &mut impl Read) -> io::Result<Option<u8>> {
    let mut tag = [0];
    match from.read(&mut tag)? {
        0 => Ok(None),
        _ => Ok(Some(tag[0])),
    }
}

/// The next step; None at the end.
pub fn get_step(from: &mut impl Read) -> io::Result<Option<Step>> {
    let Some(tag) = get_tag(from)? else {
        return Ok(None);
    };
    let step = match tag {
        b'I' => Step::Image {
            length: get_at_most(MAX_IMAGE, from)?,
            fill: get_u8(from)?,
        },
        b'L' => Step::List {
            length: get_at_most(MAX_LIST, from)?,
            fill: get_u8(from)?,
        },
        b'i' => Step::PatchImage {
            at: get_at_most(MAX_IMAGE, from)?,
            bytes: get_bytes(from)?,
        },
        b'l' => Step::PatchList {
            at: get_at_most(MAX_LIST, from)?,
            bytes: get_bytes(from)?,
        },
        b'B' => Step::Vector {
            length: get_at_most(MAX_VECTOR, from)?,
            fill: get_u8(from)?,
        },
        b'b' => Step::PatchVector {
            at: get_at_most(MAX_VECTOR, from)?,
            bytes: get_bytes(from)?,
        },
        b'S' => Step::Start {
            kind: get_u32(from)?,
            numbers: [get_u32(from)?, get_u32(from)?, get_u32(from)?, get_u32(from)?],
            users: get_bytes(from)?,
        },
        b'C' => Step::Call {
            numbers: Numbers {
                kind: get_u32(from)?,
                function: get_u32(from)?,
                process: get_u32(from)?,
                count: get_u32(from)?,
            },
            fcb: get_bytes(from)?,
            dma: get_dma(from)?,
        },
        b'K' => Step::Check {
            told: get_told(from)?,
        },
        b'M' => Step::Build {
            told: get_told(from)?,
        },
        b'W' => Step::Whole,
        b'V' => Step::Look {
            told: get_told(from)?,
            user: get_u32(from)?,
            record: get_u32(from)?,
            name: get_bytes(from)?,
        },
        _ => return Err(malformed("unknown step")),
    };
    Ok(Some(step))
}

pub fn get_reply(from: &mut impl Read) -> io::Result<Reply> {
    if get_u8(from)? != b'A' {
        return Err(malformed("not a reply"));
    }
    let broken_guards = get_u16(from)?;
    let answer = get_u32(from)?;
    let apart = get_apart(from)?;
    let mut changes = [const { None }; BUFFERS.len()];
    for one in &mut changes {
        *one = get_changes(from)?;
    }
    Ok(Reply {
        answer,
        broken_guards,
        apart,
        changes,
    })
}

fn get_apart(from: &mut impl Read) -> io::Result<Option<Apart>> {
    let parts = get_u8(from)?;
    if parts == 0 {
        return Ok(None);
    }
    let answer = get_u32(from)?;
    Ok(Some(Apart { parts, answer }))
}

fn get_changes(from: &mut impl Read) -> io::Result<Changes> {
    let number = get_u16(from)?;
    if number == TOO_MANY {
        return Ok(None);
    }
    let mut changes = Vec::new();
    let mut changed_bytes = 0;
    for _ in 0..number {
        let at = get_at_most(MAX_IMAGE, from)?;
        let bytes = get_bytes(from)?;
        changed_bytes += bytes.len();
        changes.push(Change { at, bytes });
    }
    if changes.len() > MAX_CHANGES || changed_bytes > MAX_CHANGED_BYTES {
        return Err(malformed("more changes than a reply may tell"));
    }
    Ok(Some(changes))
}
