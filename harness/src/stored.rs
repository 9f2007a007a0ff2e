//! The stored form, written from document 01: an object to bytes, and bytes to an object or the offset of 50.

use crate::reference::{Object, BLOCKS, NAMES};
use crate::valid::good_name;

/// The first address that no block has.
const END: usize = 0xFE00;
/// The most words of one field of set words.
pub const RUN: usize = 16_384;

/// A field: tag, length, content.
pub fn field(tag: u8, content: &[u8]) -> Vec<u8> {
    let size = u16::try_from(content.len()).expect("a content of two bytes' length").to_be_bytes();
    [&[tag][..], &size, content].concat()
}

/// Numbers of two bytes, the high one first.
fn numbers(all: &[u16]) -> Vec<u8> {
    all.iter().flat_map(|n| n.to_be_bytes()).collect()
}

fn number_and_name(number: u16, name: &str) -> Vec<u8> {
    [&number.to_be_bytes(), name.as_bytes()].concat()
}

/// The runs of a block: set words 16,384 at a time, unset words by their count.
fn runs(words: &[Option<u16>]) -> Vec<Vec<u8>> {
    let runs = words.chunk_by(|a, b| a.is_some() == b.is_some());
    let fields = |run: &[Option<u16>]| match run[0] {
        None => vec![field(3, &numbers(&[run.len() as u16]))],
        Some(_) => run.chunks(RUN).map(|part| field(2, &numbers(&part.iter().flatten().copied().collect::<Vec<_>>()))).collect(),
    };
    runs.flat_map(fields).collect()
}

/// The fields of an object, in their order.
pub fn fields(o: &Object) -> Vec<Vec<u8>> {
    let mut all = vec![];
    for (start, words) in &o.blocks {
        all.push(field(1, &numbers(&[*start, words.len() as u16])));
        all.extend(runs(words));
    }
    for (name, (at, external)) in &o.labels {
        all.push(if *external { field(5, name.as_bytes()) } else { field(4, &number_and_name(*at, name)) });
    }
    all.extend(o.relocations.iter().map(|(at, name)| field(6, &number_and_name(*at, name))));
    all.push(field(0, &[]));
    all
}

pub fn store(o: &Object) -> Vec<u8> {
    fields(o).concat()
}

/// What the fields so far have made.
#[derive(Default)]
struct Reading {
    object: Object,
    /// How many words the last block still waits for, and the tag and words of the run before.
    waits: usize,
    before: Option<(u8, usize)>,
}

/// An object, or the offset of the first field that breaks the form; that of what stands behind x00; the end of the bytes where x00 is missing.
pub fn read(bytes: &[u8]) -> Result<Object, usize> {
    let (mut reading, mut at) = (Reading::default(), 0);
    loop {
        let (tag, content) = split(&bytes[at..]).ok_or(at)?;
        let next = at + 3 + content.len();
        match tag {
            0 if !content.is_empty() || reading.waits > 0 => return Err(at),
            0 if next < bytes.len() => return Err(next),
            0 => return Ok(reading.object),
            _ => reading.take(tag, content).ok_or(at)?,
        }
        at = next;
    }
}

/// The tag and the content of the first field, if it is whole.
fn split(bytes: &[u8]) -> Option<(u8, &[u8])> {
    let (tag, rest) = bytes.split_first()?;
    let (size, rest) = rest.split_first_chunk::<2>()?;
    rest.get(..usize::from(u16::from_be_bytes(*size))).map(|content| (*tag, content))
}

/// The number at the front and what comes after it.
fn number(content: &[u8]) -> Option<(u16, &[u8])> {
    content.split_first_chunk::<2>().map(|(n, rest)| (u16::from_be_bytes(*n), rest))
}

fn only(content: &[u8]) -> Option<u16> {
    number(content).filter(|(_, rest)| rest.is_empty()).map(|(n, _)| n)
}

fn name(content: &[u8]) -> Option<String> {
    good_name(content).then(|| String::from_utf8(content.to_vec()).unwrap())
}

/// Something, where this holds.
fn when(holds: bool) -> Option<()> {
    holds.then_some(())
}

impl Reading {
    fn take(&mut self, tag: u8, content: &[u8]) -> Option<()> {
        when(self.waits == 0 || tag == 2 || tag == 3)?;
        match tag {
            1 => self.block(content),
            2 => {
                let words: Vec<_> = content.chunks(2).map(only).collect::<Option<_>>()?;
                self.run(2, words.into_iter().map(Some).collect())
            }
            3 => self.run(3, vec![None; only(content)?.into()]),
            4 => number(content).and_then(|(at, rest)| self.label(rest, at, false)),
            5 => self.label(content, 0, true),
            6 => number(content).and_then(|(at, rest)| self.relocation(at, rest)),
            _ => None,
        }
    }

    fn block(&mut self, content: &[u8]) -> Option<()> {
        let (start, rest) = number(content)?;
        let size = only(rest)?;
        let o = &mut self.object;
        let end = o.blocks.last().map_or(0, |(start, words)| usize::from(*start) + words.len());
        when(o.labels.is_empty() && o.relocations.is_empty() && o.blocks.len() < BLOCKS)?;
        when(size > 0 && end <= usize::from(start) && usize::from(start) + usize::from(size) <= END)?;
        o.blocks.push((start, vec![]));
        (self.waits, self.before) = (size.into(), None);
        Some(())
    }

    fn run(&mut self, tag: u8, words: Vec<Option<u16>>) -> Option<()> {
        when(!words.is_empty() && words.len() <= self.waits && (tag == 3 || words.len() <= RUN))?;
        when(self.before.map_or(true, |(last, size)| last != tag || (tag == 2 && size == RUN)))?;
        self.waits -= words.len();
        self.before = Some((tag, words.len()));
        self.object.blocks.last_mut()?.1.extend(words);
        Some(())
    }

    fn label(&mut self, content: &[u8], at: u16, external: bool) -> Option<()> {
        let o = &mut self.object;
        let name = name(content)?;
        when(o.relocations.is_empty() && o.labels.len() < NAMES && o.labels.keys().next_back().map_or(true, |last| *last < name))?;
        o.labels.insert(name, (at, external));
        Some(())
    }

    fn relocation(&mut self, at: u16, content: &[u8]) -> Option<()> {
        let o = &mut self.object;
        let name = name(content)?;
        let word = |(start, words): &(u16, Vec<Option<u16>>)| at.checked_sub(*start).and_then(|i| words.get(usize::from(i)).copied());
        when(o.relocations.len() < NAMES && o.relocations.keys().next_back().map_or(true, |last| *last < at))?;
        when(o.blocks.iter().find_map(word) == Some(Some(0)) && o.labels.get(&name) == Some(&(0, true)))?;
        o.relocations.insert(at, name);
        Some(())
    }
}
