//! What makes lent buffers an object (43), written from document 01, the listing of what stands in them, and the object itself.

use crate::lent::Sizes;
use crate::reference::Object;
use lc3::raw::Lent;
use lc3_ensemble::parse::lex::{Ident, Token};
use logos::Logos;
use std::fmt::Write;

/// The name of a label row.
fn name<'a>(o: &Lent<'a>, row: usize) -> Option<&'a [u8]> {
    let (start, size) = (o.labels[4 * row + 2] as usize, o.labels[4 * row + 3] as usize);
    o.names.get(start..start + size)
}

/// One label token in upper case, at most 64 bytes.
pub fn good_name(name: &[u8]) -> bool {
    let Ok(text) = std::str::from_utf8(name) else { return false };
    let mut lexer = Token::lexer(text);
    name.is_ascii()
        && (1..=64).contains(&name.len())
        && !name.contains(&b'"')
        && matches!(lexer.next(), Some(Ok(Token::Ident(Ident::Label(_)))))
        && lexer.span() == (0..name.len())
        && text == text.to_ascii_uppercase()
}

fn good_blocks(o: &Lent) -> bool {
    let [n, words, ..] = o.counts;
    if n > 64 || words > o.words.len() || words > o.marks.len() {
        return false;
    }
    let (mut end, mut sum) = (0, 0);
    for row in o.blocks.chunks(2).take(n) {
        let (start, size) = (usize::from(row[0]), usize::from(row[1]));
        if start < end || size == 0 || start + size > 0xFE00 {
            return false;
        }
        end = start + size;
        sum += size;
    }
    sum == words && (0..words).all(|i| o.marks[i] == 1 || (o.marks[i] == 0 && o.words[i] == 0))
}

fn good_labels(o: &Lent) -> bool {
    let n = o.counts[2];
    if n > 1024 {
        return false;
    }
    let mut before: &[u8] = &[];
    for (row, fields) in o.labels.chunks(4).take(n).enumerate() {
        let Some(name) = name(o, row) else { return false };
        let good = fields[0] < 65536 && fields[1] <= 1 && (fields[1] == 0 || fields[0] == 0) && good_name(name) && before < name;
        if !good {
            return false;
        }
        before = name;
    }
    true
}

/// The place in the words of an address.
fn place(o: &Lent, at: u32) -> Option<usize> {
    let mut before = 0;
    for row in o.blocks.chunks(2).take(o.counts[0]) {
        let (start, size) = (u32::from(row[0]), u32::from(row[1]));
        if (start..start + size).contains(&at) {
            return Some(before + (at - start) as usize);
        }
        before += size as usize;
    }
    None
}

fn good_relocations(o: &Lent) -> bool {
    let n = o.counts[3];
    let mut before = None;
    n <= 1024
        && o.relocations.chunks(2).take(n).all(|row| {
            let (at, label) = (row[0], row[1] as usize);
            let rises = before < Some(at);
            before = Some(at);
            let zero = place(o, at).is_some_and(|i| o.marks[i] == 1 && o.words[i] == 0);
            rises && label < o.counts[2] && o.labels[4 * label + 1] == 1 && zero
        })
}

/// Whether a table or the names are shorter than full capacities need (42).
pub fn short(o: &Lent) -> bool {
    let f = Sizes::FULL;
    o.blocks.len() < f.blocks || o.labels.len() < f.labels || o.relocations.len() < f.relocations || o.names.len() < f.names
}

/// Whether the buffers, each of full size, are an object.
pub fn valid(o: &Lent) -> bool {
    good_blocks(o) && good_labels(o) && good_relocations(o)
}

/// The listing of an object.
pub fn listing(o: &Lent) -> String {
    let (mut out, mut at) = (String::new(), 0);
    let text = |row: usize| String::from_utf8(name(o, row).unwrap().to_vec()).unwrap();
    for row in o.blocks.chunks(2).take(o.counts[0]) {
        writeln!(out, "BLOCK {:04X} {:04X}", row[0], row[1]).unwrap();
        for i in 0..row[1] {
            writeln!(out, "{:04X} {:04X}", row[0] + i, o.words[at]).unwrap();
            at += 1;
        }
    }
    for (row, fields) in o.labels.chunks(4).take(o.counts[2]).enumerate() {
        match fields[1] {
            1 => writeln!(out, "EXTERN {}", text(row)).unwrap(),
            _ => writeln!(out, "LABEL {:04X} {}", fields[0], text(row)).unwrap(),
        }
    }
    for row in o.relocations.chunks(2).take(o.counts[3]) {
        writeln!(out, "REL {:04X} {}", row[0], text(row[1] as usize)).unwrap();
    }
    out
}

/// The object that stands in the buffers.
pub fn object(o: &Lent) -> Object {
    let text = |row: usize| String::from_utf8(name(o, row).unwrap().to_vec()).unwrap();
    let mut cells = o.words.iter().zip(o.marks).map(|(word, mark)| (*mark == 1).then_some(*word));
    Object {
        blocks: o.blocks.chunks(2).take(o.counts[0]).map(|row| (row[0], cells.by_ref().take(row[1].into()).collect())).collect(),
        labels: o.labels.chunks(4).take(o.counts[2]).enumerate().map(|(row, f)| (text(row), (f[0] as u16, f[1] == 1))).collect(),
        relocations: o.relocations.chunks(2).take(o.counts[3]).map(|row| (row[0] as u16, text(row[1] as usize))).collect(),
    }
}
