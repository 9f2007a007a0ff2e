//! Buffers of full size, lent to the library for one call; an object's rows are copied into them and out of them.

use crate::object::Object;
use crate::raw::{self, Answer, Buffers, Lent};
use crate::Refusal;
use std::cell::RefCell;

/// The tables of one object, with room for full capacities. What stands past an object's counts does not matter where it is lent.
pub(crate) struct Tables {
    blocks: Vec<u16>,
    labels: Vec<u32>,
    relocations: Vec<u32>,
    names: Vec<u8>,
}

impl Tables {
    fn new() -> Tables {
        Tables {
            blocks: vec![0; raw::BLOCKS],
            labels: vec![0; raw::LABELS],
            relocations: vec![0; raw::RELOCATIONS],
            names: vec![0; raw::NAMES],
        }
    }

    /// An object as a call takes it: its rows in these tables, its words where they are.
    fn lend<'a>(&'a mut self, o: &'a Object) -> Lent<'a> {
        self.blocks[..o.blocks.len()].copy_from_slice(&o.blocks);
        self.labels[..o.labels.len()].copy_from_slice(&o.labels);
        self.relocations[..o.relocations.len()].copy_from_slice(&o.relocations);
        self.names[..o.names.len()].copy_from_slice(&o.names);
        Lent {
            counts: [o.blocks.len() / 2, o.words.len(), o.labels.len() / 4, o.relocations.len() / 2],
            blocks: &self.blocks,
            words: &o.words,
            marks: &o.marks,
            labels: &self.labels,
            relocations: &self.relocations,
            names: &self.names,
        }
    }

    /// What a call makes that is lent so many words.
    fn made(&mut self, words: usize, call: impl FnOnce(&mut Buffers) -> Answer) -> Result<Object, Refusal> {
        let (mut words, mut marks) = (vec![0; words], vec![0; words]);
        let answer = call(&mut Buffers {
            blocks: &mut self.blocks,
            words: &mut words,
            marks: &mut marks,
            labels: &mut self.labels,
            relocations: &mut self.relocations,
            names: &mut self.names,
        });
        let [n_blocks, n_words, n_labels, n_relocations] = Refusal::or_counts(&answer)?;
        words.truncate(n_words);
        marks.truncate(n_words);
        words.shrink_to_fit();
        marks.shrink_to_fit();
        let labels = self.labels[..4 * n_labels].to_vec();
        let named = labels.chunks(4).map(|row| (row[2] + row[3]) as usize).max().unwrap_or(0);
        Ok(Object {
            blocks: self.blocks[..2 * n_blocks].to_vec(),
            words,
            marks,
            labels,
            relocations: self.relocations[..2 * n_relocations].to_vec(),
            names: self.names[..named].to_vec(),
        })
    }
}

thread_local! {
    static TABLES: RefCell<[Tables; 3]> = RefCell::new([(); 3].map(|_| Tables::new()));
}

/// What a call makes of bytes, with so many words lent.
pub(crate) fn make(words: usize, call: impl FnOnce(&mut Buffers) -> Answer) -> Result<Object, Refusal> {
    TABLES.with_borrow_mut(|[to, ..]| to.made(words, call))
}

/// The same of an object that is lent.
pub(crate) fn lend<R>(o: &Object, call: impl FnOnce(Lent) -> R) -> R {
    TABLES.with_borrow_mut(|[from, ..]| call(from.lend(o)))
}

/// The same of two objects that are lent.
pub(crate) fn link(a: &Object, b: &Object, words: usize) -> Result<Object, Refusal> {
    TABLES.with_borrow_mut(|[to, first, second]| {
        let (a, b) = (first.lend(a), second.lend(b));
        to.made(words, |to| raw::link(a, b, to))
    })
}
