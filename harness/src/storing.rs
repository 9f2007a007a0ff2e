//! Stored bytes: every answer of store, check and load beside document 01's writer and reader (`stored.rs`), and every buffer.

use crate::compare::Tally;
use crate::lent::{numbers, Kept, Layout, Sizes};
use crate::random::Random;
use crate::reference::{reference, Notes, Object};
use crate::refusal::one;
use crate::stored;
use crate::strings::{self, Damaged};
use lc3::raw::{self, Answer};

/// One in so many refused strings is loaded too; every accepted one is.
const LOADED: usize = 4;

/// A string with its answers: of checking, and of loading into buffers of these sizes.
pub struct Opened {
    pub checked: Answer,
    pub sizes: Sizes,
    pub loaded: Option<Answer>,
}

impl Tally {
    /// An object stored with exactly enough room, with more, and one byte short; its bytes are those that document 01 has for it.
    pub fn stored(&mut self, object: &Object, kept: &Kept) {
        let there = stored::store(object);
        let n = there.len();
        for room in [n, n + 7, n - 1, 0] {
            self.text[..n + 8].fill(0xA5);
            let here = raw::store(kept.lent(), &mut self.text[..room]);
            let answer = if room < n { numbers(Err(&one(51, 0..0))) } else { [0, 0, 0, 0, 0, n as u64, 0, 0, 0] };
            self.expect(&there, "store", here, answer);
            let written = if room < n { &[][..] } else { &there };
            let rest = &self.text[written.len()..room];
            if self.text[..written.len()] != *written || rest.iter().any(|b| *b != 0) || self.text[room] != 0xA5 {
                self.differs(&there, format!("the bytes of store with room for {room}"));
            }
        }
    }

    /// A changed object stored: 43, 42, or the bytes of what then stands in its buffers.
    pub fn stored_changed(&mut self, kept: &Kept) {
        let lent = kept.lent();
        let there = if crate::valid::short(&lent) {
            Err(one(42, 0..0))
        } else if !crate::valid::valid(&lent) {
            Err(one(43, 0..0))
        } else {
            Ok(stored::store(&crate::valid::object(&lent)))
        };
        let room = self.text.len() - 1;
        let here = raw::store(lent, &mut self.text[..room]);
        let answer = numbers(there.as_ref().map(|bytes| [bytes.len(), 0, 0, 0]));
        self.expect(b"", "store of a changed object", here, answer);
        let bytes = there.unwrap_or_default();
        if self.text[..bytes.len()] != bytes[..] || self.text[bytes.len()..room].iter().any(|b| *b != 0) {
            self.differs(&bytes, "the bytes of a changed object".to_string());
        }
    }

    /// A byte string checked and, if it is accepted or its turn comes, loaded.
    pub fn opened(&mut self, bytes: &[u8]) -> Opened {
        self.strings += 1;
        let there = stored::read(bytes);
        let layout = there.as_ref().map_or_else(|_| Layout::default(), Layout::of);
        let expected = numbers(there.as_ref().map(|_| layout.counts()).map_err(|at| one(50, *at..*at)).as_ref().copied());
        let checked = raw::check(bytes);
        self.expect(bytes, "check", checked, expected);
        *self.strings_by_number.entry(checked[0] as u16).or_default() += 1;
        let sizes = self.some_sizes(layout.words.len());
        let mut opened = Opened { checked, sizes, loaded: None };
        if there.is_err() && self.random.below(LOADED) > 0 {
            return opened;
        }
        opened.loaded = Some(self.loaded(bytes, &there, layout, sizes));
        opened
    }

    /// Full sizes, or words and marks exactly enough or one short, or a table one short.
    fn some_sizes(&mut self, words: usize) -> Sizes {
        let (full, less) = (Sizes::FULL, words.saturating_sub(1));
        let room = words + 3;
        match self.random.below(16) {
            0 => Sizes { words: less, ..full },
            1 => Sizes { words: room, marks: less, ..full },
            2 => Sizes { labels: full.labels - 1, words: room, marks: room, ..full },
            3 => Sizes { blocks: full.blocks - 1, words: room, marks: room, ..full },
            4 => Sizes { relocations: full.relocations - 1, words: room, marks: room, ..full },
            5 => Sizes { names: full.names - 1, words: room, marks: room, ..full },
            6 => Sizes::LONG,
            7 => full,
            8..=11 => Sizes { words, marks: words, ..full },
            _ => Sizes { words: room, marks: room, ..full },
        }
    }

    fn loaded(&mut self, bytes: &[u8], there: &Result<Object, usize>, layout: Layout, sizes: Sizes) -> Answer {
        let answer = match there {
            _ if sizes.short() => Err(one(42, 0..0)),
            Err(at) => Err(one(50, *at..*at)),
            Ok(_) if layout.words.len() > sizes.words.min(sizes.marks) => Err(one(41, 0..0)),
            Ok(_) => Ok(layout.counts()),
        };
        let answer = numbers(answer.as_ref().copied());
        let here = self.six.load(bytes, sizes);
        self.expect(bytes, "load", here, answer);
        let left = if answer[0] == 0 { layout } else { Layout::default() };
        if let Some(buffer) = self.six.fault(sizes, &left) {
            self.differs(bytes, format!("after load with {sizes:?}, answer {here:?}: {buffer}"));
        }
        if here[0] == 0 && here == answer {
            let n = bytes.len();
            let stored = raw::store(self.six.lent(left.counts(), sizes), &mut self.text[..n]);
            self.expect(bytes, "store what was loaded", stored, [0, 0, 0, 0, 0, n as u64, 0, 0, 0]);
            if self.text[..n] != *bytes {
                self.differs(bytes, "what was loaded is stored as other bytes".to_string());
            }
        }
        here
    }

    /// The objects of some modules: stored, and their bytes in every damaged form.
    pub fn stored_modules(&mut self, sources: &[String], mut each: impl FnMut(&Damaged, &Opened)) {
        for src in sources {
            let Ok(there) = reference(src.as_bytes(), &mut Notes::default()).answer else { continue };
            let answer = self.six.assemble(src.as_bytes(), Sizes::FULL);
            let mut kept = self.six.kept([5, 6, 7, 8].map(|i| answer[i] as usize));
            self.stored(&there.object, &kept);
            let mut random = Random::new(self.random.next());
            for damaged in strings::damaged(&mut random, &stored::fields(&there.object)) {
                let before = damaged.bytes.clone();
                let opened = self.opened(&damaged.bytes);
                if before != damaged.bytes {
                    self.differs(&before, "check or load changes its bytes".to_string());
                }
                each(&damaged, &opened);
            }
            kept.six.damage(&mut random, &mut kept.counts);
            self.stored_changed(&kept);
        }
    }
}
