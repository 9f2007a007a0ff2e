//! One source at a time: every answer of the library beside the reference, and every buffer.

use crate::lent::{numbers, Layout, Six, Sizes};
use crate::random::Random;
use crate::reader;
use crate::reference::{reference, Assembled, Notes, Object, Reference, SAME_ADDRESS};
use crate::valid;
use lc3::{raw, Kind, Refusal, Span};
use lc3_ensemble::parse::lex::{Ident, Token};
use std::collections::BTreeMap;
use std::fmt::Write;

/// What was run and what was seen.
pub struct Tally {
    pub sources: usize,
    pub calls: usize,
    pub by_number: BTreeMap<u16, usize>,
    /// Changed objects that were lent, by number.
    pub lent: BTreeMap<u16, usize>,
    pub named: BTreeMap<&'static str, usize>,
    pub differences: usize,
    /// Sets of modules, of which so many keep to what document 01's third demand needs, and the answers of their links.
    pub sets: usize,
    pub promises: usize,
    pub links: usize,
    pub links_by_number: BTreeMap<u16, usize>,
    /// Byte strings that were checked, and the answers.
    pub strings: usize,
    pub strings_by_number: BTreeMap<u16, usize>,
    pub random: Random,
    pub six: Six,
    pub text: Vec<u8>,
}

/// How many differences are printed whole.
const SHOWN: usize = 100;
/// Bytes lent for the listing of a changed object.
const ROOM: usize = 20_000;

impl Tally {
    pub fn new(seed: u64) -> Tally {
        Tally {
            sources: 0,
            calls: 0,
            by_number: BTreeMap::new(),
            lent: BTreeMap::new(),
            named: BTreeMap::new(),
            differences: 0,
            sets: 0,
            promises: 0,
            links: 0,
            links_by_number: BTreeMap::new(),
            strings: 0,
            strings_by_number: BTreeMap::new(),
            random: Random::new(seed),
            six: Six::new(),
            text: vec![0; 1_000_000],
        }
    }

    pub fn differs(&mut self, src: &[u8], what: String) {
        self.differences += 1;
        if self.differences <= SHOWN {
            let head = &src[..src.len().min(400)];
            println!("DIFFERENCE {what}\n  in {} bytes: \"{}\"", src.len(), head.escape_ascii());
        }
    }

    pub fn expect<T: PartialEq + std::fmt::Debug>(&mut self, src: &[u8], call: &str, here: T, there: T) {
        self.calls += 1;
        if here != there {
            self.differs(src, format!("{call}: here {here:?}, there {there:?}"));
        }
    }

    /// Compares all answers on one source, and gives the library's answers of assembling with the sizes of the buffers lent, full ones first.
    pub fn source(&mut self, src: &[u8], every_room: bool) -> Vec<(Sizes, raw::Answer)> {
        self.sources += 1;
        let kept = src.to_vec();
        let mut notes = Notes::default();
        let expected = reference(src, &mut notes);
        self.tokens(src, &expected);
        self.token_from(src);
        self.first_refusal(src, &expected);
        let answer = self.assembled(src, &expected, Sizes::FULL);
        *self.by_number.entry(answer[0] as u16).or_default() += 1;
        match expected.lent(raw::WORDS) {
            Ok(a) if answer[0] == 0 => self.object(src, a, &mut notes),
            _ => {}
        }
        let mut answers = vec![(Sizes::FULL, answer)];
        answers.extend(self.rooms(src, &expected, every_room));
        if kept != src {
            self.differs(&kept, "the source is changed".to_string());
        }
        notes.named.sort();
        notes.named.dedup();
        notes.named.iter().for_each(|name| *self.named.entry(name).or_default() += 1);
        notes.differences.into_iter().for_each(|what| self.differs(src, what));
        answers
    }

    fn tokens(&mut self, src: &[u8], expected: &Reference) {
        let Some((toks, refusal)) = &expected.tokens else { return };
        let mut at = 0;
        for (token, span) in toks {
            let (sort, value) = sorted(token);
            let there = [0, span.start as u64, span.end as u64, 0, 0, sort, value, 0, 0];
            let here = raw::next_token(src, at);
            self.expect(src, "next_token", here, there);
            if here != there {
                return;
            }
            at = span.end;
        }
        let there = match refusal {
            Some(r) => numbers(Err(r)),
            None => [0, src.len() as u64, src.len() as u64, 0, 0, 10, 0, 0, 0],
        };
        self.expect(src, "next_token", raw::next_token(src, at), there);
    }

    /// The token from any place on, in the middle of a token or past the end as well.
    fn token_from(&mut self, src: &[u8]) {
        let Some(text) = std::str::from_utf8(src).ok().filter(|t| t.is_ascii() && t.len() <= raw::SOURCE) else { return };
        let at = self.random.below(src.len() + 3);
        let (toks, refusal) = text.get(at..).map_or((vec![], None), reader::tokens);
        let moved = |span: &Span| [(at + span.start) as u64, (at + span.end) as u64];
        let first = toks.iter().find(|(t, _)| *t != Token::Comment);
        let there = match (first, refusal) {
            (Some((token, span)), _) => {
                let ([start, end], (sort, value)) = (moved(span), sorted(token));
                [0, start, end, 0, 0, sort, value, 0, 0]
            }
            (None, Some(Refusal { kind, spans: [span, _] })) => {
                let [start, end] = moved(&span);
                [u64::from(kind.number()), start, end, 0, 0, 0, 0, 0, 0]
            }
            (None, None) => [0, at.max(src.len()) as u64, at.max(src.len()) as u64, 0, 0, 10, 0, 0, 0],
        };
        self.expect(src, "next_token from any place", raw::next_token(src, at), there);
    }

    fn first_refusal(&mut self, src: &[u8], expected: &Reference) {
        let there = match &expected.answer {
            Err(r) if r.number() <= 16 => numbers(Err(r)),
            _ => [0; 9],
        };
        self.expect(src, "first_refusal", raw::first_refusal(src), there);
    }

    /// Assembles with buffers of these sizes.
    fn assembled(&mut self, src: &[u8], expected: &Reference, sizes: Sizes) -> raw::Answer {
        let short = Refusal { kind: Kind::ShortBuffer, spans: [0..0, 0..0] };
        let there = if sizes.short() { Err(short) } else { expected.lent(sizes.words.min(sizes.marks)) };
        let layout = there.as_ref().map_or_else(|_| Layout::default(), |a| Layout::of(&a.object));
        let there = numbers(there.as_ref().map(|_| layout.counts()));
        let here = self.six.assemble(src, sizes);
        self.expect(src, "assemble", here, there);
        if here == there {
            if let Some(buffer) = self.six.fault(sizes, &layout) {
                self.differs(src, format!("after assemble with {sizes:?}, answer {here:?}: {buffer}"));
            }
        }
        here
    }

    /// Other rooms, all of them or one: words and marks of none, of one, exactly enough, one short; a table one short; all longer than needed.
    fn rooms(&mut self, src: &[u8], expected: &Reference, all: bool) -> Vec<(Sizes, raw::Answer)> {
        let full = Sizes::FULL;
        let total = expected.total.unwrap_or(0).min(raw::WORDS);
        let less = total.saturating_sub(1);
        let rooms = [
            Sizes { words: 0, marks: 0, ..full },
            Sizes { words: 1, marks: 1, ..full },
            Sizes { words: total, marks: total, ..full },
            Sizes { words: less, ..full },
            Sizes { marks: less, ..full },
            Sizes { blocks: full.blocks - 1, ..full },
            Sizes { labels: full.labels - 1, words: 3, marks: 2, ..full },
            Sizes { relocations: full.relocations - 1, ..full },
            Sizes { names: full.names - 1, ..full },
            Sizes { blocks: 0, words: 0, marks: 0, labels: 0, relocations: 0, names: 0 },
            Sizes::LONG,
        ];
        let one = self.random.below(rooms.len());
        let tried = if all { &rooms[..] } else { &rooms[one..one + 1] };
        tried.iter().map(|sizes| (*sizes, self.assembled(src, expected, *sizes))).collect()
    }

    /// What is asked of an accepted object, which still stands in the buffers.
    fn object(&mut self, src: &[u8], a: &Assembled, notes: &mut Notes) {
        let o = &a.object;
        let layout = Layout::of(o);
        let counts = layout.counts();
        self.listed(src, counts, &listing(o));
        let names: Vec<_> = o.labels.iter().collect();
        for _ in 0..names.len().min(3) {
            let (name, (at, external)) = names[self.random.below(names.len())];
            self.looked_up(src, counts, name, [0, 0, 0, 0, 0, 1, u64::from(*external), u64::from(*at), 0]);
            self.expect(src, "the crate's lookup_label", Some(*at), a.file.symbol_table().unwrap().lookup_label(name));
            self.reversed(src, counts, a, *at, notes);
        }
        let other = ["NO_SUCH_NAME", "", "A", "x", "HALT"][self.random.below(5)];
        if !o.labels.contains_key(&other.to_ascii_uppercase()) {
            self.looked_up(src, counts, other, [0; 9]);
        }
        let at = o.blocks.first().map_or(0, |(start, words)| start.wrapping_add(words.len() as u16));
        self.reversed(src, counts, a, at, notes);
        if let Some(buffer) = self.six.fault(Sizes::FULL, &layout) {
            self.differs(src, format!("list or a lookup changes the object: {buffer}"));
        }
        self.damaged(src, counts);
    }

    /// The object with a number changed: 43, or the listing of what then stands in the buffers.
    fn damaged(&mut self, src: &[u8], mut counts: [usize; 4]) {
        for _ in 0..2 {
            self.six.damage(&mut self.random, &mut counts);
        }
        let lent = self.six.lent(counts, Sizes::FULL);
        let number = if valid::valid(&lent) { 0 } else { 43 };
        let there = match number {
            0 => Some(valid::listing(&lent)).filter(|text| text.len() <= ROOM).ok_or(51),
            _ => Err(43),
        };
        *self.lent.entry(number).or_default() += 1;
        let here = raw::list(lent, &mut self.text[..ROOM]);
        let size = if here[0] == 0 { here[5] as usize } else { 0 };
        let here = match here {
            [0, 0, 0, 0, 0, _, 0, 0, 0] => Ok(String::from_utf8_lossy(&self.text[..size]).into_owned()),
            other => Err(other[0]),
        };
        let [name, address] = [raw::lookup_label(lent, b"A"), raw::rev_lookup_label(lent, 0)].map(|a| a[0]);
        self.expect(src, "list of a changed object", here, there);
        self.expect(src, "lookups in a changed object", [name, address], [u64::from(number); 2]);
    }

    fn looked_up(&mut self, src: &[u8], counts: [usize; 4], name: &str, there: raw::Answer) {
        let name = if self.random.below(2) == 0 { name.to_string() } else { name.to_ascii_lowercase() };
        let here = raw::lookup_label(self.six.lent(counts, Sizes::FULL), name.as_bytes());
        self.expect(src, "lookup_label", here, there);
    }

    /// The smallest name at an address; the crate gives some name there.
    fn reversed(&mut self, src: &[u8], counts: [usize; 4], a: &Assembled, at: u16, notes: &mut Notes) {
        let o = &a.object;
        let there: Vec<_> = o.labels.iter().enumerate().filter(|(_, (_, (a, _)))| *a == at).map(|(row, (name, _))| (row, name)).collect();
        let here = raw::rev_lookup_label(self.six.lent(counts, Sizes::FULL), at.into());
        let before = |row: usize| o.labels.keys().take(row).map(String::len).sum::<usize>() as u64;
        let expected = there.first().map_or([0; 9], |(row, name)| [0, 0, 0, 0, 0, 1, *row as u64, before(*row), name.len() as u64]);
        self.expect(src, "rev_lookup_label", here, expected);
        let crates = a.file.symbol_table().unwrap().rev_lookup_label(at);
        match (crates, there.as_slice()) {
            (Some(name), [(_, first), ..]) if name == *first => {}
            (Some(name), several) if several.iter().any(|(_, n)| *n == name) => notes.named.push(SAME_ADDRESS),
            (None, []) => {}
            _ => self.differs(src, format!("the crate's rev_lookup_label({at}): {crates:?}, labels {there:?}")),
        }
    }

    /// The listing, with exactly enough room or more, then one byte short.
    fn listed(&mut self, src: &[u8], counts: [usize; 4], there: &str) {
        let n = there.len();
        let room = if self.random.below(2) == 0 { n } else { n + 7 };
        self.text[..n + 8].fill(0xA5);
        let here = raw::list(self.six.lent(counts, Sizes::FULL), &mut self.text[..room]);
        self.expect(src, "list", here, [0, 0, 0, 0, 0, n as u64, 0, 0, 0]);
        let good = self.text[..n] == *there.as_bytes() && self.text[n..room].iter().all(|b| *b == 0) && self.text[room] == 0xA5;
        if !good {
            self.differs(src, "the listing's bytes".to_string());
        }
        if n > 0 {
            self.text[..n].fill(0xA5);
            let here = raw::list(self.six.lent(counts, Sizes::FULL), &mut self.text[..n - 1]);
            self.expect(src, "list, one byte short", here, numbers(Err(&Refusal { kind: Kind::NoWriteRoom, spans: [0..0, 0..0] })));
            if self.text[..n - 1].iter().any(|b| *b != 0) {
                self.differs(src, "text after 51".to_string());
            }
        }
    }
}

/// The sort and value that the library gives a token.
fn sorted(token: &Token) -> (u64, u64) {
    match token {
        Token::Unsigned(n) => (0, u64::from(*n)),
        Token::Signed(n) => (1, u64::from(n.unsigned_abs())),
        Token::Reg(n) => (2, u64::from(*n)),
        Token::Ident(Ident::Label(_)) => (3, 0),
        Token::String(_) => (4, 0),
        Token::Ident(word) => (5, lc3::RESERVED.iter().position(|w| *w == word.to_string()).unwrap() as u64),
        Token::Directive(_) => (6, 0),
        Token::Colon => (7, 0),
        Token::Comma => (8, 0),
        Token::NewLine => (9, 0),
        Token::Comment => unreachable!("comments are left out"),
    }
}

/// Document 01's listing.
pub fn listing(o: &Object) -> String {
    let mut out = String::new();
    for (start, words) in &o.blocks {
        writeln!(out, "BLOCK {start:04X} {:04X}", words.len()).unwrap();
        for (i, word) in words.iter().enumerate() {
            writeln!(out, "{:04X} {:04X}", usize::from(*start) + i, word.unwrap_or(0)).unwrap();
        }
    }
    for (name, (at, external)) in &o.labels {
        match external {
            true => writeln!(out, "EXTERN {name}").unwrap(),
            false => writeln!(out, "LABEL {at:04X} {name}").unwrap(),
        }
    }
    for (at, name) in &o.relocations {
        writeln!(out, "REL {at:04X} {name}").unwrap();
    }
    out
}

/// All 65,536 words: the library's line beside the crate's; the eight words that encode otherwise are named.
pub fn words(tally: &mut Tally) {
    const NAMED: &str = "the words xC800 to xC9C0, each x40 after the last";
    for word in 0..=0xFFFF {
        let (here, there) = (lc3::disassemble_line(word).to_string(), lc3_ensemble::ast::asm::disassemble_line(word).to_string());
        if (0xC800..=0xC9C0).contains(&word) && word % 0x40 == 0 && here == format!(".fill #{word}") {
            *tally.named.entry(NAMED).or_default() += 1;
        } else {
            tally.expect(&[], "disassemble", here, there);
        }
    }
}
