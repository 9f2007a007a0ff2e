//! Buffers to lend: dirty before each call, and held to every number afterwards.

use crate::random::Random;
use crate::reference::Object;
use lc3::raw::{self, Answer, Buffers, Lent};
use lc3::Refusal;

/// Six buffers, of the largest sizes that are tried or as an object needs them.
#[derive(Clone, PartialEq)]
pub struct Six {
    blocks: Vec<u16>,
    words: Vec<u16>,
    marks: Vec<u8>,
    labels: Vec<u32>,
    relocations: Vec<u32>,
    names: Vec<u8>,
}

/// How much of each is lent.
#[derive(Clone, Copy, Debug)]
pub struct Sizes {
    pub blocks: usize,
    pub words: usize,
    pub marks: usize,
    pub labels: usize,
    pub relocations: usize,
    pub names: usize,
}

/// A few more than any call uses.
const MORE: usize = 5;

impl Sizes {
    pub const FULL: Sizes = Sizes {
        blocks: raw::BLOCKS,
        words: raw::WORDS,
        marks: raw::WORDS,
        labels: raw::LABELS,
        relocations: raw::RELOCATIONS,
        names: raw::NAMES,
    };
    /// All buffers longer than needed.
    pub const LONG: Sizes = Sizes {
        blocks: raw::BLOCKS + MORE,
        words: raw::WORDS + MORE,
        marks: raw::WORDS + MORE,
        labels: raw::LABELS + MORE,
        relocations: raw::RELOCATIONS + MORE,
        names: raw::NAMES + MORE,
    };

    /// How many numbers each lacks of its full size, where none is longer.
    pub fn lacking(&self) -> Option<[usize; 6]> {
        let f = Sizes::FULL;
        Some([
            f.blocks.checked_sub(self.blocks)?,
            f.words.checked_sub(self.words)?,
            f.marks.checked_sub(self.marks)?,
            f.labels.checked_sub(self.labels)?,
            f.relocations.checked_sub(self.relocations)?,
            f.names.checked_sub(self.names)?,
        ])
    }

    pub fn short(&self) -> bool {
        let f = Sizes::FULL;
        self.blocks < f.blocks || self.labels < f.labels || self.relocations < f.relocations || self.names < f.names
    }
}

/// Whether every number is this one.
fn all<T: PartialEq>(buffer: &[T], number: T) -> bool {
    buffer.is_empty() || (buffer[0] == number && buffer[1..] == buffer[..buffer.len() - 1])
}

/// Whether the buffer has these numbers first and zero after them.
fn holds<T: PartialEq + From<u8>>(buffer: &[T], first: &[T]) -> bool {
    buffer.len() >= first.len() && buffer[..first.len()] == *first && all(&buffer[first.len()..], T::from(0))
}

/// The one layout of an object.
#[derive(Default)]
pub struct Layout {
    pub blocks: Vec<u16>,
    pub words: Vec<u16>,
    pub marks: Vec<u8>,
    pub labels: Vec<u32>,
    pub relocations: Vec<u32>,
    pub names: Vec<u8>,
}

impl Layout {
    pub fn of(o: &Object) -> Layout {
        let mut l = Layout::default();
        for (start, words) in &o.blocks {
            l.blocks.extend([*start, words.len() as u16]);
            l.words.extend(words.iter().map(|w| w.unwrap_or(0)));
            l.marks.extend(words.iter().map(|w| u8::from(w.is_some())));
        }
        for (name, (at, external)) in &o.labels {
            l.labels.extend([u32::from(*at), u32::from(*external), l.names.len() as u32, name.len() as u32]);
            l.names.extend(name.bytes());
        }
        for (at, name) in &o.relocations {
            let row = o.labels.keys().position(|n| n == name).unwrap();
            l.relocations.extend([u32::from(*at), row as u32]);
        }
        l
    }

    pub fn counts(&self) -> [usize; 4] {
        [self.blocks.len() / 2, self.words.len(), self.labels.len() / 4, self.relocations.len() / 2]
    }
}

/// The nine numbers that an answer should be.
pub fn numbers(answer: Result<[usize; 4], &Refusal>) -> Answer {
    match answer {
        Ok([b, w, l, r]) => [0, 0, 0, 0, 0, b as u64, w as u64, l as u64, r as u64],
        Err(Refusal { kind, spans: [a, b] }) => {
            [u64::from(kind.number()), a.start as u64, a.end as u64, b.start as u64, b.end as u64, 0, 0, 0, 0]
        }
    }
}

impl Six {
    pub fn new() -> Six {
        let f = Sizes::LONG;
        Six {
            blocks: vec![0; f.blocks],
            words: vec![0; f.words],
            marks: vec![0; f.marks],
            labels: vec![0; f.labels],
            relocations: vec![0; f.relocations],
            names: vec![0; f.names],
        }
    }

    fn soil(&mut self) {
        self.blocks.fill(0xA5A5);
        self.words.fill(0xA5A5);
        self.marks.fill(0xA5);
        self.labels.fill(0xA5A5_A5A5);
        self.relocations.fill(0xA5A5_A5A5);
        self.names.fill(0xA5);
    }

    /// Assembles into dirty buffers of these sizes.
    pub fn assemble(&mut self, src: &[u8], n: Sizes) -> Answer {
        self.soil();
        self.assemble_clean(src, n)
    }

    /// Assembles into the buffers as they are.
    pub fn assemble_clean(&mut self, src: &[u8], n: Sizes) -> Answer {
        raw::assemble(src, &mut self.buffers(n))
    }

    /// Links into dirty buffers of these sizes.
    pub fn link(&mut self, a: Lent, b: Lent, n: Sizes) -> Answer {
        self.soil();
        self.link_clean(a, b, n)
    }

    /// Links into the buffers as they are.
    pub fn link_clean(&mut self, a: Lent, b: Lent, n: Sizes) -> Answer {
        raw::link(a, b, &mut self.buffers(n))
    }

    /// Loads into dirty buffers of these sizes.
    pub fn load(&mut self, bytes: &[u8], n: Sizes) -> Answer {
        self.soil();
        self.load_clean(bytes, n)
    }

    /// Loads into the buffers as they are.
    pub fn load_clean(&mut self, bytes: &[u8], n: Sizes) -> Answer {
        raw::load(bytes, &mut self.buffers(n))
    }

    fn buffers(&mut self, n: Sizes) -> Buffers<'_> {
        Buffers {
            blocks: &mut self.blocks[..n.blocks],
            words: &mut self.words[..n.words],
            marks: &mut self.marks[..n.marks],
            labels: &mut self.labels[..n.labels],
            relocations: &mut self.relocations[..n.relocations],
            names: &mut self.names[..n.names],
        }
    }

    /// What is wrong with the buffers after a call that should leave this, if anything: what was lent holds it and zero after it,
    /// and what was not lent is as it was.
    pub fn fault(&self, n: Sizes, l: &Layout) -> Option<&'static str> {
        let lent = [
            (holds(&self.blocks[..n.blocks], &l.blocks), "blocks"),
            (holds(&self.words[..n.words], &l.words), "words"),
            (holds(&self.marks[..n.marks], &l.marks), "marks"),
            (holds(&self.labels[..n.labels], &l.labels), "labels"),
            (holds(&self.relocations[..n.relocations], &l.relocations), "relocations"),
            (holds(&self.names[..n.names], &l.names), "names"),
        ];
        let kept = all(&self.blocks[n.blocks..], 0xA5A5)
            && all(&self.words[n.words..], 0xA5A5)
            && all(&self.marks[n.marks..], 0xA5)
            && all(&self.names[n.names..], 0xA5)
            && all(&self.labels[n.labels..], 0xA5A5_A5A5)
            && all(&self.relocations[n.relocations..], 0xA5A5_A5A5);
        lent.iter().find(|(good, _)| !good).map(|(_, name)| *name).or((!kept).then_some("what was not lent"))
    }

    /// Whether this object stands at the front of each buffer.
    pub fn starts_with(&self, l: &Layout) -> bool {
        self.blocks.starts_with(&l.blocks)
            && self.words.starts_with(&l.words)
            && self.marks.starts_with(&l.marks)
            && self.labels.starts_with(&l.labels)
            && self.relocations.starts_with(&l.relocations)
            && self.names.starts_with(&l.names)
    }

    /// Changes one number of the object that stands in the buffers, or one of its counts.
    pub fn damage(&mut self, r: &mut Random, counts: &mut [usize; 4]) {
        let edge = r.pick(&[0, 1, 2, 63, 64, 65, 1024, 0xFDFF, 0xFE00, 0xFFFF, 0x10000, u32::MAX]);
        let near = |r: &mut Random, n: u32| r.pick(&[n.wrapping_add(1), n.wrapping_sub(1), edge]);
        let [blocks, words, labels, relocations] = counts.map(|n| n.clamp(1, 64));
        let (b, w, l, m) = (r.below(2 * blocks), r.below(words.min(self.words.len())), r.below(4 * labels), r.below(2 * relocations));
        match r.below(9) {
            0 => self.blocks[b] = near(r, self.blocks[b].into()) as u16,
            1 => self.words[w] = near(r, self.words[w].into()) as u16,
            2 => self.marks[w] = r.pick(&[0, 1, 2, 255]),
            3 | 4 => self.labels[l] = near(r, self.labels[l]),
            5 => self.relocations[m] = near(r, self.relocations[m]),
            6 => self.names[r.below(8 * labels)] = r.pick(b"Aaz_09XR@ \x80\"\0\n"),
            7 => self.labels.swap(l, l / 4 * 4),
            _ => {
                let i = r.below(4);
                counts[i] = r.pick(&[counts[i] + 1, counts[i].wrapping_sub(1), 0, 65, 1025, 65_025, usize::MAX]);
            }
        }
    }

    /// The object in the buffers in buffers of its own, with a few words more than it has.
    pub fn kept(&self, counts: [usize; 4]) -> Kept {
        let f = Sizes::FULL;
        let room = counts[1] + MORE;
        let six = Six {
            blocks: self.blocks[..f.blocks].to_vec(),
            words: self.words[..room].to_vec(),
            marks: self.marks[..room].to_vec(),
            labels: self.labels[..f.labels].to_vec(),
            relocations: self.relocations[..f.relocations].to_vec(),
            names: self.names[..f.names].to_vec(),
        };
        Kept { counts, sizes: Sizes { words: room, marks: room, ..f }, six }
    }

    /// The object in the buffers, lent on.
    pub fn lent(&self, counts: [usize; 4], n: Sizes) -> Lent<'_> {
        Lent {
            counts,
            blocks: &self.blocks[..n.blocks],
            words: &self.words[..n.words],
            marks: &self.marks[..n.marks],
            labels: &self.labels[..n.labels],
            relocations: &self.relocations[..n.relocations],
            names: &self.names[..n.names],
        }
    }
}

/// An object that a call has made, to be lent on.
#[derive(Clone)]
pub struct Kept {
    pub counts: [usize; 4],
    pub sizes: Sizes,
    pub six: Six,
}

impl Kept {
    pub fn lent(&self) -> Lent<'_> {
        self.six.lent(self.counts, self.sizes)
    }
}
