//! A sample of sources with their answers, as README.md describes the lines.

use crate::lent::Sizes;
use lc3::raw::Answer;
use std::collections::BTreeMap;
use std::fmt::Write;

/// How many hexadecimal digits of a source are kept, but for the first of each number.
const SHORT: usize = 600;
/// How many of the first few of each number.
const MIDDLE: usize = 4000;
const FEW: usize = 8;
/// How many sources of one refusal number are kept.
const EACH: usize = 58;
/// How many accepted ones.
const ACCEPTED: usize = 760;
/// How many of a number that other sizes of buffers do not change.
const AGAIN: usize = 3;
/// How long a listing is kept.
pub const LISTING: usize = 400;
/// How long a repeated part of a source is looked for.
const UNIT: usize = 16;

#[derive(Default)]
pub struct Sample {
    /// How many are kept of a number, with buffers of full size or others.
    kept: BTreeMap<(u64, bool), usize>,
    lines: String,
}

/// Bytes in hexadecimal digits.
pub fn hex(bytes: &[u8]) -> String {
    match bytes {
        [] => "-".to_string(),
        _ => bytes.iter().map(|b| format!("{b:02x}")).collect(),
    }
}

/// The longest stretch that repeats its first `size` bytes: its start and its length.
fn stretch(src: &[u8], size: usize) -> (usize, usize) {
    let (mut best, mut start) = ((0, 0), 0);
    for i in 0..src.len() {
        if i >= start + size && src[i] != src[i - size] {
            start = i + 1 - size;
        }
        if i + 1 - start > best.1 {
            best = (start, i + 1 - start);
        }
    }
    best
}

/// The source as a head, a short part with how often it stands there, and a tail.
pub fn source(src: &[u8]) -> String {
    let whole = |(start, length): (usize, usize), size: usize| (start, length / size * size, size);
    let runs = (1..=UNIT).map(|size| whole(stretch(src, size), size));
    match runs.max_by_key(|(_, length, size)| (*length, UNIT - size)) {
        Some((start, length, size)) if length > 64 => {
            let (unit, tail) = (&src[start..start + size], &src[start + length..]);
            format!("{} {} {} {}", hex(&src[..start]), hex(unit), length / size, hex(tail))
        }
        _ => format!("{} - 0 -", hex(src)),
    }
}

impl Sample {
    /// Keeps a source, assembled into buffers of these sizes, if its number is short of its share.
    pub fn offer(&mut self, src: &[u8], sizes: Sizes, answer: &Answer) {
        let Some(lacking) = sizes.lacking() else { return };
        let full = lacking == [0; 6];
        let kept = self.kept.entry((answer[0], full)).or_default();
        let share = match answer[0] {
            0 if full => ACCEPTED,
            0 | 41 | 42 => EACH,
            _ if full => EACH,
            _ => AGAIN,
        };
        if *kept >= share {
            return;
        }
        let source = source(src);
        let most = match *kept {
            0 => usize::MAX,
            n if n < FEW => MIDDLE,
            _ => SHORT,
        };
        if source.len() > most {
            return;
        }
        *kept += 1;
        let listing = if answer[0] == 0 { lc3::assemble(src).map_or(String::new(), |o| o.list()) } else { String::new() };
        let shown = if listing.len() < LISTING { hex(listing.as_bytes()) } else { "-".to_string() };
        let numbers: Vec<_> = lacking.iter().map(usize::to_string).chain(answer.iter().map(u64::to_string)).collect();
        writeln!(self.lines, "{source} {} {shown}", numbers.join(" ")).unwrap();
    }

    /// Writes the lines; how many there are, and of how many numbers.
    pub fn write(&self, path: &str) -> std::io::Result<(usize, usize)> {
        std::fs::write(path, &self.lines)?;
        let numbers: std::collections::BTreeSet<_> = self.kept.iter().filter(|(_, n)| **n > 0).map(|((number, _), _)| number).collect();
        Ok((self.kept.values().sum(), numbers.len()))
    }
}
