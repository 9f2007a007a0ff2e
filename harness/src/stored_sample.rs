//! A sample of stored bytes with their answers, as README.md describes the lines.

use crate::sample::source;
use crate::storing::Opened;
use crate::strings::Damaged;
use std::collections::BTreeMap;
use std::fmt::Write;

/// How many characters a line's bytes have, but for the first of each sort.
const SHORT: usize = 200;
const LONG: usize = 2400;
/// How many are kept of one kind of damage, by the answers of checking and loading.
const EACH: usize = 14;
/// How many words are lent where nothing is lacking; the object of a line has no more.
const WORDS: usize = 32_768;

#[derive(Default)]
pub struct StoredSample {
    kept: BTreeMap<(&'static str, u64, u64), usize>,
    lines: String,
}

impl StoredSample {
    /// Keeps a string that was checked and loaded, if its kind is short of its share.
    pub fn offer(&mut self, damaged: &Damaged, opened: &Opened) {
        let (Some(loaded), Some(lacking)) = (opened.loaded, opened.sizes.lacking()) else { return };
        if opened.checked[6] as usize > WORDS {
            return;
        }
        let kept = self.kept.entry((damaged.kind, opened.checked[0], loaded[0])).or_default();
        let bytes = source(&damaged.bytes);
        if *kept >= EACH || bytes.len() > if *kept == 0 { LONG } else { SHORT } {
            return;
        }
        *kept += 1;
        let room = |lent: usize| WORDS - lent.min(WORDS);
        let [blocks, _, _, labels, relocations, names] = lacking;
        let lacking = [blocks, room(opened.sizes.words), room(opened.sizes.marks), labels, relocations, names];
        let lacking = lacking.map(|n| n.to_string()).join(" ");
        let checked = opened.checked.map(|n| n.to_string()).join(" ");
        writeln!(self.lines, "{lacking} {bytes} {checked} {}", loaded[0]).unwrap();
    }

    /// Writes the lines; how many there are.
    pub fn write(&self, path: &str) -> std::io::Result<usize> {
        std::fs::write(path, &self.lines)?;
        Ok(self.kept.values().sum())
    }
}
