//! The other side: the crate's lexer, parser and passes, and around them what only document 01 has: the statement reader (13 to 16),
//! 11, 12, 40, 41. Where the crate does otherwise in a way that docs/DIFFERENCES.md names, the name is noted; anything else is a difference.

use crate::reader::{statements, tokens};
use crate::refusal::{asm, guarded, numbered, one};
use lc3::{raw, Kind, Refusal, Span};
use lc3_ensemble::asm::{encoding, AsmErr, ObjectFile};
use lc3_ensemble::ast::asm::{Directive as D, Stmt, StmtKind};
use lc3_ensemble::ast::{Label, PCOffset};
use lc3_ensemble::parse::lex::{Ident, Token};
use lc3_ensemble::parse::parse_ast;
use std::collections::{BTreeMap, BTreeSet};

pub const BLOCKS: usize = 64;
pub const NAMES: usize = 1024;

/// The rows of docs/DIFFERENCES.md that a source can show.
pub const BLKW: &str = ".blkw 0";
pub const BACKSLASH: &str = "a string whose line ends in a backslash";
pub const LONG_NAME: &str = "a label above 64 bytes";
pub const FIRST_LABEL: &str = "20 with several labels";
pub const READER: &str = "13 to 15: another class or place";
pub const SAME_ADDRESS: &str = "several labels at one address";
pub const NON_ASCII: &str = "a byte above x7F";
pub const CAPACITY: &str = "the capacities (11, 40, 41)";

/// The rows that a link can show.
pub const LINK_SPANS: &str = "25 in a link: two places in two sources";
pub const LINK_NAME: &str = "25 in a link: another name than the smallest";
pub const LINK_CAPACITY: &str = "the capacities in a link (40)";

/// What was noticed of the crate itself.
#[derive(Default)]
pub struct Notes {
    pub named: Vec<&'static str>,
    pub differences: Vec<String>,
}

/// Tokens without comments, and the refusal that ends them.
pub type Lexed = (Vec<(Token, Span)>, Option<Refusal>);

/// What document 01 and the crate say of a source.
pub struct Reference {
    /// None where a byte is above x7F or the source is too long.
    pub tokens: Option<Lexed>,
    /// The words of all blocks, where pass one accepts.
    pub total: Option<usize>,
    /// The answer but for 41.
    pub answer: Result<Assembled, Refusal>,
}

/// What an object holds, in the order of the listing.
#[derive(Clone, Debug, Default, PartialEq)]
pub struct Object {
    pub blocks: Vec<(u16, Vec<Option<u16>>)>,
    /// Address and whether external.
    pub labels: BTreeMap<String, (u16, bool)>,
    pub relocations: BTreeMap<u16, String>,
}

/// What an object holds, beside the crate's own object.
pub struct Assembled {
    pub object: Object,
    pub file: ObjectFile,
}

impl Reference {
    /// The answer where so many words are lent.
    pub fn lent(&self, words: usize) -> Result<&Assembled, Refusal> {
        match self.total {
            Some(total) if total > words.min(raw::WORDS) => Err(one(41, 0..0)),
            _ => self.answer.as_ref().map_err(Refusal::clone),
        }
    }
}

fn refused(tokens: Option<Lexed>, r: Refusal) -> Reference {
    Reference { tokens, total: None, answer: Err(r) }
}

/// The order is 11, 12, lexical, 13 to 16, pass one, 41, pass two.
pub fn reference(bytes: &[u8], notes: &mut Notes) -> Reference {
    if bytes.len() > raw::SOURCE {
        notes.named.push(CAPACITY);
        return refused(None, one(11, 0..bytes.len()));
    }
    if let Some(i) = bytes.iter().position(|b| !b.is_ascii()) {
        notes.named.push(NON_ASCII);
        return refused(None, one(12, i..i + 1));
    }
    let src = std::str::from_utf8(bytes).unwrap();
    let (toks, refusal) = lexed(src);
    let stmts = match &refusal {
        Some(r) => Err(r.clone()),
        None => statements(&toks, src.len()),
    };
    beside_parser(src, &toks, &stmts, notes);
    let tokens = Some((toks, refusal));
    match stmts {
        Err(r) => refused(tokens, r),
        Ok(stmts) => passes(tokens, stmts, notes),
    }
}

fn lexed(src: &str) -> Lexed {
    let (mut toks, refusal) = tokens(src);
    toks.retain(|(t, _)| *t != Token::Comment);
    (toks, refusal)
}

/// Holds the reader beside the crate's parser: acceptance, and the statements with all spans. Zero sizes of .blkw and names above 64 bytes,
/// which the crate takes otherwise, are first written as ones that it takes alike, in the same places.
fn beside_parser(src: &str, toks: &[(Token, Span)], ours: &Result<Vec<Stmt>, Refusal>, notes: &mut Notes) {
    let same = alike(src, toks, notes);
    if same == src {
        return compare_parser(src, ours, notes);
    }
    let (toks, refusal) = lexed(&same);
    let stmts = match refusal {
        Some(r) => Err(r),
        None => statements(&toks, same.len()),
    };
    compare_parser(&same, &stmts, notes);
}

fn alike(src: &str, toks: &[(Token, Span)], notes: &mut Notes) -> String {
    let mut out = src.as_bytes().to_vec();
    for (i, (token, span)) in toks.iter().enumerate() {
        match token {
            Token::Ident(Ident::Label(name)) if name.len() > 64 => {
                notes.named.push(LONG_NAME);
                out[span.start + 64..span.end].fill(b' ');
            }
            Token::Unsigned(0) | Token::Signed(0) if follows_blkw(&toks[..i]) => {
                notes.named.push(BLKW);
                out[span.clone()].iter_mut().filter(|b| **b == b'-').for_each(|b| *b = b'0');
                out[span.end - 1] = b'1';
            }
            _ => {}
        }
    }
    String::from_utf8(out).unwrap()
}

fn follows_blkw(before: &[(Token, Span)]) -> bool {
    matches!(before.last(), Some((Token::Directive(d), _)) if d.eq_ignore_ascii_case("blkw"))
}

fn compare_parser(src: &str, ours: &Result<Vec<Stmt>, Refusal>, notes: &mut Notes) {
    match (ours, guarded(|| parse_ast(src))) {
        (Ok(a), Some(Ok(b))) if *a == b => {}
        (Ok(a), Some(Ok(b))) => {
            let i = a.iter().zip(&b).take_while(|(a, b)| a == b).count();
            notes.differences.push(format!("statement {i}: 01 {:?}, crate {:?}", a.get(i), b.get(i)));
        }
        (Err(r), None) if r.number() == 7 && src[r.spans[0].clone()].ends_with('\\') => notes.named.push(BACKSLASH),
        (Err(r), Some(Err(_))) if r.number() <= 10 => {}
        (Err(r), Some(Err(_))) if r.number() <= 15 => notes.named.push(READER),
        (a, b) => notes.differences.push(format!("01 reads {:?}, the crate's parser {b:?}", a.as_ref().err())),
    }
}

fn passes(tokens: Option<Lexed>, stmts: Vec<Stmt>, notes: &mut Notes) -> Reference {
    let ours = pass_one(&stmts);
    let crates = encoding::pass_one(&stmts, None);
    if let Err(e) = &crates {
        beside_labels(&stmts, e, notes);
    }
    match (ours, crates.map_err(asm)) {
        (Err(r), _) if r.number() == 40 => {
            notes.named.push(CAPACITY);
            refused(tokens, r)
        }
        (Ok(total), Ok(symbols)) => {
            if total > raw::WORDS {
                notes.named.push(CAPACITY);
            }
            let answer = encoding::pass_two(stmts, symbols).map_err(asm).map(|file| Assembled { object: Object::of(&file), file });
            Reference { tokens, total: Some(total), answer }
        }
        (ours, crates) => {
            let (ours, crates) = (ours.err(), crates.err());
            if ours != crates {
                notes.differences.push(format!("pass one: 01 {ours:?}, crate {crates:?}"));
            }
            refused(tokens, crates.or(ours).unwrap())
        }
    }
}

/// The crate gives 20 the spans of all labels of the statement.
fn beside_labels(stmts: &[Stmt], e: &AsmErr, notes: &mut Notes) {
    let (20, spans) = numbered(e) else { return };
    let labels = |s: &Stmt| s.labels.iter().map(Label::span).collect::<Vec<_>>();
    match stmts.iter().find(|s| s.labels.first().map(Label::span) == spans.first().cloned()) {
        Some(s) if labels(s) != spans => notes.differences.push(format!("20: labels {:?}, crate {spans:?}", labels(s))),
        Some(_) if spans.len() > 1 => notes.named.push(FIRST_LABEL),
        Some(_) => {}
        None => notes.differences.push(format!("20 at no statement: {spans:?}")),
    }
}

impl Object {
    /// What the crate's object holds.
    pub fn of(file: &ObjectFile) -> Object {
        Object {
            blocks: encoding::blocks(file).map(|(start, words)| (start, words.to_vec())).collect(),
            labels: file.symbol_table().unwrap().label_iter().map(|(name, at, external)| (name.to_string(), (at, external))).collect(),
            relocations: encoding::relocations(file).map(|(at, name)| (at, name.to_string())).collect(),
        }
    }
}

/// The state of document 01's pass one.
#[derive(Default)]
struct One {
    /// Address, start in the source, whether external.
    names: BTreeMap<String, (u16, usize, bool)>,
    relocations: BTreeSet<u32>,
    /// Counter, words, the .orig.
    block: Option<(u32, usize, Span)>,
    blocks: usize,
    total: usize,
}

/// Document 01's pass one: the count of words of all blocks, or its refusal, 40 included.
fn pass_one(stmts: &[Stmt]) -> Result<usize, Refusal> {
    let mut state = One::default();
    for s in stmts {
        for label in &s.labels {
            let Some((counter, ..)) = state.block else { return Err(one(20, label.span())) };
            state.add(s, label, counter as u16, false)?;
        }
        let size = state.directive(s)?;
        state.advance(s, size)?;
    }
    match state.block {
        Some((.., orig)) => Err(one(22, orig)),
        None => Ok(state.total),
    }
}

impl One {
    fn add(&mut self, s: &Stmt, label: &Label, at: u16, external: bool) -> Result<(), Refusal> {
        let key = label.name.to_ascii_uppercase();
        match self.names.get(&key) {
            Some((old, start, _)) if *old != at => Err(Refusal { kind: Kind::OverlappingLabels, spans: [*start..start + key.len(), label.span()] }),
            Some(_) => Ok(()),
            None if self.names.len() == NAMES => Err(one(40, s.span.clone())),
            None => {
                self.names.insert(key, (at, label.span().start, external));
                Ok(())
            }
        }
    }

    /// Obeys a directive; how many words the statement has.
    fn directive(&mut self, s: &Stmt) -> Result<usize, Refusal> {
        match &s.nucleus {
            StmtKind::Instr(_) | StmtKind::Directive(D::Fill(PCOffset::Offset(_))) => Ok(1),
            StmtKind::Directive(D::Stringz(text)) => Ok(text.len() + 1),
            StmtKind::Directive(D::Blkw(n)) => Ok(n.get().into()),
            StmtKind::Directive(D::External(label)) => self.add(s, label, 0, true).map(|()| 0),
            StmtKind::Directive(D::Orig(at)) => match &self.block {
                Some((.., orig)) => Err(Refusal { kind: Kind::OverlappingOrig, spans: [orig.clone(), s.span.clone()] }),
                None => {
                    self.block = Some((at.get().into(), 0, s.span.clone()));
                    Ok(0)
                }
            },
            StmtKind::Directive(D::End) => self.close(s).map(|()| 0),
            StmtKind::Directive(D::Fill(PCOffset::Label(label))) => self.relocate(s, label).map(|()| 1),
        }
    }

    fn close(&mut self, s: &Stmt) -> Result<(), Refusal> {
        match self.block.take() {
            None => Err(one(23, s.span.clone())),
            Some((_, 0, _)) => Ok(()),
            Some(_) if self.blocks == BLOCKS => Err(one(40, s.span.clone())),
            Some((_, words, _)) => {
                self.blocks += 1;
                self.total += words;
                Ok(())
            }
        }
    }

    fn relocate(&mut self, s: &Stmt, label: &Label) -> Result<(), Refusal> {
        if !self.names.get(&label.name.to_ascii_uppercase()).is_some_and(|(.., external)| *external) {
            return Ok(());
        }
        let Some((counter, ..)) = self.block else { return Err(one(21, s.span.clone())) };
        if !self.relocations.contains(&counter) && self.relocations.len() == NAMES {
            return Err(one(40, s.span.clone()));
        }
        self.relocations.insert(counter);
        Ok(())
    }

    fn advance(&mut self, s: &Stmt, size: usize) -> Result<(), Refusal> {
        let (Some((counter, words, _)), 1..) = (&mut self.block, size) else { return Ok(()) };
        *counter += size as u32;
        *words += size;
        match *counter {
            0..=0xFE00 => Ok(()),
            0xFE01..=0x10000 => Err(one(27, s.span.clone())),
            _ => Err(one(26, s.span.clone())),
        }
    }
}
