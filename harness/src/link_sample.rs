//! A sample of links with their answers, as README.md describes the lines.

use crate::links::{Linked, Tree};
use crate::sample::{hex, source, LISTING};
use std::collections::BTreeMap;
use std::fmt::Write;

/// How many characters a line has.
const SHORT: usize = 470;
/// How many of the first few of each number.
const MIDDLE: usize = 2700;
const FEW: usize = 6;
/// How many where these meet a capacity, into buffers of full size.
const LONG: usize = 14_000;
/// How many links of one refusal number are kept.
const EACH: usize = 40;
/// How many accepted ones of each count of modules.
const ACCEPTED: usize = 50;
/// How many modules a link has at most.
const MODULES: usize = 4;
/// How many words are lent where nothing is lacking; the objects of a line have no more together.
const WORDS: usize = 8192;

#[derive(Default)]
pub struct LinkSample {
    /// How many are kept of a number and a count of modules, with buffers of full size or others.
    kept: BTreeMap<(u64, usize, bool), usize>,
    lines: String,
}

/// The order and grouping, a link before its two sides.
fn tree(t: &Tree, sources: &[String]) -> String {
    match t {
        Tree::Module(i) => source(sources[*i].as_bytes()),
        Tree::Link(a, b) => format!("+ {} {}", tree(a, sources), tree(b, sources)),
    }
}

impl LinkSample {
    /// Keeps a link if its number is short of its share.
    pub fn offer(&mut self, sources: &[String], linked: &Linked) {
        let Some(lacking) = linked.sizes.lacking().filter(|_| linked.words <= WORDS && linked.tree.modules() <= MODULES) else { return };
        let room = |lent: usize| WORDS - lent.min(WORDS);
        let [blocks, _, _, labels, relocations, names] = lacking;
        let lacking = [blocks, room(linked.sizes.words), room(linked.sizes.marks), labels, relocations, names];
        let (number, modules) = (linked.answer[0], linked.tree.modules());
        let full = lacking == [0; 6];
        let kept = self.kept.entry((number, modules, full)).or_default();
        let share = if number == 0 { ACCEPTED } else { EACH };
        if *kept >= share {
            return;
        }
        let tree = tree(&linked.tree, sources);
        let most = match number {
            _ if *kept >= FEW => SHORT,
            0 | 40 if full => LONG,
            _ => MIDDLE,
        };
        let shown = if linked.listing.len() < LISTING { hex(linked.listing.as_bytes()) } else { "-".to_string() };
        if tree.len() + shown.len() > most {
            return;
        }
        *kept += 1;
        let [lacking, answer] = [numbers(lacking.map(|n| n as u64).as_slice()), numbers(&linked.answer)];
        writeln!(self.lines, "{lacking} {tree} {answer} {shown}").unwrap();
    }

    /// Writes the lines; how many there are.
    pub fn write(&self, path: &str) -> std::io::Result<usize> {
        std::fs::write(path, &self.lines)?;
        Ok(self.kept.values().sum())
    }
}

fn numbers(all: &[u64]) -> String {
    all.iter().map(u64::to_string).collect::<Vec<_>>().join(" ")
}
