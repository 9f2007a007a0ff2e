//! Byte strings to check and load, the same for the same seed: stored objects whole, cut, changed, and with fields that break the form.

use crate::random::Random;
use crate::reference::{Object, BLOCKS, NAMES};
use crate::stored::{field, fields, RUN};

/// Up to this length a string is cut at every length and changed at every place.
const SHORT: usize = 400;
/// How many cuts and changes a longer one has.
const SOME: usize = 60;
/// How often a short one is changed by its fields.
const EDITS: usize = 60;

/// A string and what was done to a stored object to make it.
pub struct Damaged {
    pub bytes: Vec<u8>,
    pub kind: &'static str,
}

/// All strings of up to two bytes.
pub fn shortest() -> impl Iterator<Item = Vec<u8>> {
    let one = (0..=255u8).map(|a| vec![a]);
    let two = (0..=65_535u16).map(|n| n.to_be_bytes().to_vec());
    std::iter::once(vec![]).chain(one).chain(two)
}

/// Objects at the ends of what the form allows and one past them, in fields: runs of 16,384 words and around it, all words, all tables full.
pub fn fixed() -> Vec<Vec<Vec<u8>>> {
    let block = |start: u16, words: Vec<Option<u16>>| Object { blocks: vec![(start, words)], ..Object::default() };
    let mut all: Vec<Object> = [1, RUN - 1, RUN, RUN + 1, 2 * RUN, 2 * RUN + 1, 0xFE00].map(|n| block(0, vec![Some(7); n])).into();
    all.extend([1, 2, 0xFE00].map(|n| block(0, vec![None; n])));
    all.push(block(0x3000, (0..40).map(|i| (i % 3 > 0).then_some(i)).collect()));
    all.push(block(0, vec![vec![Some(0); RUN], vec![None; 5], vec![Some(9); RUN + 2]].concat()));
    let blocks = |n: usize| Object { blocks: (0..n).map(|i| (2 * i as u16, vec![Some(0)])).collect(), ..Object::default() };
    all.extend([BLOCKS, BLOCKS + 1].map(blocks));
    let labels = |n: usize| Object { labels: (0..n).map(|i| (format!("N{i:04}"), (0, i % 2 == 0))).collect(), ..Object::default() };
    all.extend([0, 1, NAMES, NAMES + 1].map(labels));
    let relocations = |n: usize| Object {
        labels: [("F".to_string(), (0, true))].into(),
        relocations: (0..n as u16).map(|i| (i, "F".to_string())).collect(),
        ..block(0, vec![Some(0); n])
    };
    all.extend([1, 2, NAMES, NAMES + 1].map(relocations));
    let mut all: Vec<_> = all.iter().map(fields).collect();
    all.push(vec![field(1, &[0, 0, 0x40, 1]), field(2, &[0; 2 * (RUN + 1)]), field(0, &[])]);
    all
}

/// A stored object, whole and damaged in every way.
pub fn damaged(r: &mut Random, fields: &[Vec<u8>]) -> Vec<Damaged> {
    let whole = fields.concat();
    let mut all = vec![Damaged { bytes: whole.clone(), kind: "whole" }];
    let places: Vec<usize> = match whole.len() {
        n if n <= SHORT => (0..n).collect(),
        n => (0..SOME).map(|_| r.below(n)).collect(),
    };
    for at in places {
        all.push(Damaged { bytes: whole[..at].to_vec(), kind: "cut" });
        let mut bytes = whole.clone();
        bytes[at] = other_byte(r, bytes[at]);
        all.push(Damaged { bytes, kind: "a byte changed" });
    }
    for _ in 0..if whole.len() <= SHORT { EDITS } else { 4 } {
        let mut edited = fields.to_vec();
        if let Some(kind) = edit(r, &mut edited) {
            all.push(Damaged { bytes: edited.concat(), kind });
        }
    }
    all
}

fn other_byte(r: &mut Random, byte: u8) -> u8 {
    match r.below(3) {
        0 => byte ^ (1 << r.below(8)),
        1 => byte.wrapping_add(r.pick(&[1, 255])),
        _ => r.pick(&[0, 1, 2, 3, 4, 5, 6, 7, b'a', b'_', b' ', 0xFD, 0xFE, 0xFF]),
    }
}

/// A field of this tag or of another one given, if there is one.
fn some_field(r: &mut Random, fields: &[Vec<u8>], tags: &[u8]) -> Option<usize> {
    let there: Vec<usize> = (0..fields.len()).filter(|i| tags.contains(&fields[*i][0])).collect();
    (!there.is_empty()).then(|| there[r.below(there.len())])
}

fn number(field: &[u8], at: usize) -> u16 {
    u16::from_be_bytes([field[at], field[at + 1]])
}

fn set_number(field: &mut [u8], at: usize, n: u16) {
    field[at..at + 2].copy_from_slice(&n.to_be_bytes());
}

/// One change by fields; what it was.
fn edit(r: &mut Random, fields: &mut Vec<Vec<u8>>) -> Option<&'static str> {
    let (n, any) = (fields.len(), r.below(fields.len()));
    match r.below(20) {
        0 => {
            fields.swap(any, (any + 1) % n);
            Some("two neighbouring fields swapped")
        }
        1 => {
            fields.swap(any, r.below(n));
            Some("two fields swapped")
        }
        2 => {
            fields.insert(any, fields[any].clone());
            Some("a field repeated")
        }
        3 => {
            fields.remove(any);
            Some("a field dropped")
        }
        4 => {
            let size = number(&fields[any], 1);
            set_number(&mut fields[any], 1, size.wrapping_add(r.pick(&[1, u16::MAX])));
            Some("a length off by one")
        }
        5 => longer(r, &mut fields[any]),
        6 => {
            fields[any][0] = r.pick(&[0, 1, 2, 3, 4, 5, 6, 7, 8, 255]);
            Some("another tag")
        }
        7 => {
            let tail = r.pick(&[&[0u8][..], &[0, 0, 0], &[5, 0, 1, b'Z'], &[9]]);
            fields.push(tail.to_vec());
            Some("bytes after the end")
        }
        8 => zero_count(r, fields),
        9 | 10 => split_run(r, fields),
        11 => join_runs(r, fields),
        12 | 13 => rename(r, fields),
        14 | 15 => move_relocation(r, fields),
        16 => move_block(r, fields),
        17 => {
            let i = some_field(r, fields, &[4])?;
            set_number(&mut fields[i], 3, r.pick(&[0, 1, 0xFE00, 0xFFFF]));
            Some("a label's address changed")
        }
        18 => relocate_set_word(r, fields),
        _ => swap_sorts(r, fields),
    }
}

/// A byte more or less, the length with it.
fn longer(r: &mut Random, one: &mut Vec<u8>) -> Option<&'static str> {
    let mut content = one[3..].to_vec();
    if r.chance(50) || content.is_empty() {
        content.insert(r.below(content.len() + 1), r.pick(b"\0\x01AZ_"));
    } else {
        content.remove(r.below(content.len()));
    }
    *one = field(one[0], &content);
    Some("a content of another length")
}

fn zero_count(r: &mut Random, fields: &mut [Vec<u8>]) -> Option<&'static str> {
    let i = some_field(r, fields, &[1, 2, 3])?;
    match fields[i][0] {
        1 => set_number(&mut fields[i], 5, 0),
        2 => fields[i] = field(2, &[]),
        _ => set_number(&mut fields[i], 3, 0),
    }
    Some("a count of zero")
}

fn split_run(r: &mut Random, fields: &mut Vec<Vec<u8>>) -> Option<&'static str> {
    let i = some_field(r, fields, &[2, 3])?;
    let run = fields[i].clone();
    let halves = if run[0] == 2 {
        let cut = 3 + 2 * r.below((run.len() - 3) / 2 + 1);
        [field(2, &run[3..cut]), field(2, &run[cut..])]
    } else {
        let (size, part) = (number(&run, 3), r.below(usize::from(number(&run, 3)) + 1) as u16);
        [field(3, &part.to_be_bytes()), field(3, &(size - part).to_be_bytes())]
    };
    fields.splice(i..=i, halves);
    Some("a run split")
}

/// A run and the next one as one of the first one's kind.
fn join_runs(r: &mut Random, fields: &mut Vec<Vec<u8>>) -> Option<&'static str> {
    let i = some_field(r, fields, &[2, 3])?;
    let next = fields.get(i + 1).filter(|f| f[0] == 2 || f[0] == 3)?.clone();
    let size = |f: &[u8]| if f[0] == 2 { (f.len() - 3) / 2 } else { number(f, 3).into() };
    let joined = if fields[i][0] == 2 {
        let zeros = vec![0; 2 * size(&next)];
        let tail = if next[0] == 2 { &next[3..] } else { &zeros[..] };
        let all = [&fields[i][3..], tail].concat();
        (all.len() <= 2 * RUN + 2).then(|| field(2, &all))?
    } else {
        field(3, &((size(&fields[i]) + size(&next)) as u16).to_be_bytes())
    };
    fields.splice(i..=i + 1, [joined]);
    Some("two runs joined")
}

fn rename(r: &mut Random, fields: &mut [Vec<u8>]) -> Option<&'static str> {
    let i = some_field(r, fields, &[4, 5, 6])?;
    let (head, name) = fields[i][3..].split_at(if fields[i][0] == 5 { 0 } else { 2 });
    let (name, kind) = match r.below(6) {
        0 => (name.to_ascii_lowercase(), "a name in lower case"),
        1 => (r.pick(&[&b"ADD"[..], b"BRNZP", b"HALT", b"GETC", b"IN", b"LD"]).to_vec(), "a reserved name"),
        2 => (r.pick(&[&b"R0"[..], b"R7", b"R8", b"R007", b"X1", b"XF00D", b"12", b"#3", b"X-1"]).to_vec(), "a register or number for a name"),
        3 => (b"N".repeat(r.pick(&[63, 64, 65, 66])), "a name of 63 to 66 bytes"),
        4 => (r.pick(&[&b""[..], b"A B", b"A.", b";A", b"A\n", b"\x80", b"\"A\"", b".A"]).to_vec(), "no name"),
        _ => (r.pick(&[&b"A"[..], b"F", b"R8X", b"XZ", b"RX", b"BRPN", b"_", b"ADDX", b"ZZZ"]).to_vec(), "another name"),
    };
    fields[i] = field(fields[i][0], &[head, &name].concat());
    Some(kind)
}

fn move_relocation(r: &mut Random, fields: &mut [Vec<u8>]) -> Option<&'static str> {
    let i = some_field(r, fields, &[6])?;
    let at = number(&fields[i], 3);
    set_number(&mut fields[i], 3, r.pick(&[at.wrapping_add(1), at.wrapping_sub(1), 0, 0xFE00, 0xFFFF]));
    Some("a relocation elsewhere")
}

fn move_block(r: &mut Random, fields: &mut [Vec<u8>]) -> Option<&'static str> {
    let i = some_field(r, fields, &[1])?;
    let (start, size) = (number(&fields[i], 3), number(&fields[i], 5));
    let last = 0xFE00u16.wrapping_sub(size);
    set_number(&mut fields[i], 3, r.pick(&[start.wrapping_add(1), start.wrapping_sub(1), 0, last, last.wrapping_add(1), 0xFE00, 0xFFFF]));
    Some("a block elsewhere")
}

/// The word of the first relocation is set to another number, or unset.
fn relocate_set_word(r: &mut Random, fields: &mut [Vec<u8>]) -> Option<&'static str> {
    let i = some_field(r, fields, &[2])?;
    let words = (fields[i].len() - 3) / 2;
    let at = 3 + 2 * r.below(words);
    set_number(&mut fields[i], at, r.pick(&[0, 1, 0x0100, 0xFFFF]));
    Some("a word changed")
}

/// A defined label made external, or the other way round.
fn swap_sorts(r: &mut Random, fields: &mut [Vec<u8>]) -> Option<&'static str> {
    let i = some_field(r, fields, &[4, 5])?;
    let content = fields[i][3..].to_vec();
    fields[i] = if fields[i][0] == 4 { field(5, &content[2..]) } else { field(4, &[&[0, 0], &content[..]].concat()) };
    Some("a label of the other sort")
}
