//! Document 01's section "Linking", written from its words for this program alone (crates/rules is not read), and the crate's link beside it.

use crate::reference::{Notes, Object, BLOCKS, LINK_CAPACITY, LINK_NAME, LINK_SPANS, NAMES};
use crate::refusal::{guarded, numbered, one};
use lc3::{raw, Refusal};
use lc3_ensemble::asm::{AsmErr, ObjectFile};

/// Two objects linked, where so many words are lent. "In a link: 28, 25, 40, 41, counted on the result."
pub fn link(a: &Object, b: &Object, room: usize) -> Result<Object, Refusal> {
    let o = joined(a, b)?;
    let words: usize = o.blocks.iter().map(|(_, words)| words.len()).sum();
    if o.blocks.len() > BLOCKS || o.labels.len() > NAMES || o.relocations.len() > NAMES {
        return Err(one(40, 0..0));
    }
    if words > room.min(raw::WORDS) {
        return Err(one(41, 0..0));
    }
    Ok(o)
}

/// The result before it is counted.
fn joined(a: &Object, b: &Object) -> Result<Object, Refusal> {
    if shared(a, b) {
        return Err(one(28, 0..0));
    }
    if let Some(row) = a.labels.keys().position(|name| disputed(a, b, name)) {
        return Err(one(25, row..row + 1));
    }
    let mut o = a.clone();
    o.blocks.extend(b.blocks.iter().cloned());
    o.blocks.sort_by_key(|(start, _)| *start);
    for (name, label) in &b.labels {
        if definition(a, name).is_none() {
            o.labels.insert(name.clone(), *label);
        }
    }
    o.relocations.extend(b.relocations.clone());
    resolve(&mut o);
    Ok(o)
}

/// "Blocks of both; any shared address is 28."
pub fn shared(a: &Object, b: &Object) -> bool {
    let range = |(start, words): &(u16, Vec<Option<u16>>)| (usize::from(*start), usize::from(*start) + words.len());
    a.blocks.iter().map(range).any(|(start, end)| b.blocks.iter().map(range).any(|(s, e)| start.max(s) < end.min(e)))
}

fn definition(o: &Object, name: &str) -> Option<u16> {
    o.labels.get(name).filter(|(_, external)| !external).map(|(at, _)| *at)
}

/// "A name defined twice at different addresses is 25." "A definition at address 0 counts like any other."
pub fn disputed(a: &Object, b: &Object, name: &str) -> bool {
    matches!((definition(a, name), definition(b, name)), (Some(x), Some(y)) if x != y)
}

/// "Each relocation to it, from either object, is written and removed."
fn resolve(o: &mut Object) {
    let all = std::mem::take(&mut o.relocations);
    for (at, name) in all {
        match definition(o, &name) {
            Some(address) => *word(o, at) = Some(address),
            None => drop(o.relocations.insert(at, name)),
        }
    }
}

/// The word at an address that a block has.
fn word(o: &mut Object, at: u16) -> &mut Option<u16> {
    let block = o.blocks.iter_mut().rev().find(|(start, _)| *start <= at);
    let (start, words) = block.expect("a relocation stands in a block");
    &mut words[usize::from(at - *start)]
}

/// Holds document 01's answer beside the crate's, and gives the crate's object where both accept.
pub fn beside_crate(a: &ObjectFile, b: &ObjectFile, ours: &Result<Object, Refusal>, notes: &mut Notes) -> Option<ObjectFile> {
    let crates = guarded(|| ObjectFile::link(a.clone(), b.clone()));
    match (ours, crates) {
        (Ok(o), Some(Ok(file))) if *o == Object::of(&file) => return Some(file),
        (Err(r), Some(Ok(_))) if r.number() == 40 => notes.named.push(LINK_CAPACITY),
        (Err(r), Some(Err(e))) if r.number() == 28 && numbered(&e) == (28, vec![]) => {}
        (Err(r), Some(Err(e))) if r.number() == 25 => beside_names(a, b, r, &e, notes),
        (ours, crates) => notes.differences.push(format!("link: 01 {ours:?}, crate {crates:?}")),
    }
    None
}

/// The crate gives 25 the places of some such name in both sources.
fn beside_names(a: &ObjectFile, b: &ObjectFile, ours: &Refusal, e: &AsmErr, notes: &mut Notes) {
    let (x, y) = (Object::of(a), Object::of(b));
    let place = |file: &ObjectFile, name: &str| file.symbol_table().and_then(|s| s.get_label_source(name)).unwrap();
    let disputes = x.labels.keys().enumerate().filter(|(_, name)| disputed(&x, &y, name));
    let rows: Vec<_> = disputes.filter(|(_, name)| numbered(e) == (25, vec![place(a, name), place(b, name)])).map(|(row, _)| row).collect();
    match rows.first() {
        None => notes.differences.push(format!("25: 01 {ours:?}, crate {e:?}")),
        Some(_) => notes.named.push(LINK_SPANS),
    }
    if rows.first().is_some_and(|row| *row != ours.spans[0].start) {
        notes.named.push(LINK_NAME);
    }
}
