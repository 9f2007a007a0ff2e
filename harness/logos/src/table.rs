//! Patterns as one table of states. Knows the patterns that lex.rs uses: bytes, classes and their repetition, no groups.

use std::collections::BTreeMap;

pub enum Rule {
    Regex(&'static str),
    Literal(&'static str),
}

/// One byte of a class, once or as often as the two flags allow.
struct Piece {
    class: [bool; 256],
    may_miss: bool,
    may_repeat: bool,
}

fn class(bytes: impl Fn(u8) -> bool) -> [bool; 256] {
    std::array::from_fn(|b| bytes(b as u8))
}

/// The class at the head of a pattern, and what is left of it.
fn head(pattern: &[u8]) -> ([bool; 256], &[u8]) {
    match pattern {
        [b'[', rest @ ..] => bracket(rest),
        [b'\\', b'd', rest @ ..] => (class(|b| b.is_ascii_digit()), rest),
        [b'\\', b'w', rest @ ..] => (class(|b| b.is_ascii_alphanumeric() || b == b'_'), rest),
        [b'\\', b'r', rest @ ..] => (class(|b| b == b'\r'), rest),
        [b'\\', b'n', rest @ ..] => (class(|b| b == b'\n'), rest),
        [b'\\', b't', rest @ ..] => (class(|b| b == b'\t'), rest),
        [b'\\', c, rest @ ..] => (class(|b| b == *c), rest),
        [b'.', rest @ ..] => (class(|b| b != b'\n'), rest),
        [c, rest @ ..] if !b"()|{}^$".contains(c) => (class(|b| b == *c), rest),
        _ => panic!("a pattern that the stand-in does not know: {}", String::from_utf8_lossy(pattern)),
    }
}

/// The class up to the closing bracket.
fn bracket(mut rest: &[u8]) -> ([bool; 256], &[u8]) {
    let mut all = [false; 256];
    while rest[0] != b']' {
        let part = match rest {
            [low, b'-', high, after @ ..] if *low != b'\\' && *high != b']' => {
                rest = after;
                class(|b| (*low..=*high).contains(&b))
            }
            _ => {
                let (one, after) = head(rest);
                rest = after;
                one
            }
        };
        (0..256).for_each(|b| all[b] |= part[b]);
    }
    (all, &rest[1..])
}

fn pieces(rule: &Rule) -> Vec<Piece> {
    let mut out = vec![];
    match rule {
        Rule::Literal(text) => out.extend(text.bytes().map(|c| Piece { class: class(|b| b == c), may_miss: false, may_repeat: false })),
        Rule::Regex(pattern) => {
            let mut rest = pattern.as_bytes();
            while !rest.is_empty() {
                let (class, after) = head(rest);
                let sign = after.first().copied().unwrap_or(0);
                rest = if b"?*+".contains(&sign) { &after[1..] } else { after };
                out.push(Piece { class, may_miss: b"?*".contains(&sign), may_repeat: b"*+".contains(&sign) });
            }
        }
    }
    out
}

/// Where each rule may stand: the rule and how many of its pieces are behind.
type State = Vec<(usize, usize)>;

/// Adds a place and those that it reaches by missing pieces.
fn reach(rules: &[Vec<Piece>], state: &mut State, rule: usize, mut at: usize) {
    loop {
        if !state.contains(&(rule, at)) {
            state.push((rule, at));
        }
        match rules[rule].get(at) {
            Some(piece) if piece.may_miss => at += 1,
            _ => break,
        }
    }
}

fn step(rules: &[Vec<Piece>], from: &State, byte: usize) -> State {
    let mut to = vec![];
    for &(rule, at) in from {
        match rules[rule].get(at) {
            Some(piece) if piece.class[byte] => {
                reach(rules, &mut to, rule, at + 1);
                if piece.may_repeat {
                    reach(rules, &mut to, rule, at);
                }
            }
            _ => {}
        }
    }
    to.sort();
    to
}

const DEAD: u16 = 0;
const START: u16 = 1;

pub struct Matcher {
    next: Vec<[u16; 256]>,
    /// For each state the first rule that it ends.
    ends: Vec<Option<usize>>,
}

impl Matcher {
    pub fn new(rules: &[Rule]) -> Self {
        let rules: Vec<_> = rules.iter().map(pieces).collect();
        let mut start = vec![];
        (0..rules.len()).for_each(|rule| reach(&rules, &mut start, rule, 0));
        start.sort();
        let mut numbers = BTreeMap::from([(vec![], DEAD), (start.clone(), START)]);
        let mut states = vec![vec![], start];
        let mut next = vec![];
        while let Some(state) = states.get(next.len()).cloned() {
            next.push(std::array::from_fn(|byte| {
                let to = step(&rules, &state, byte);
                *numbers.entry(to.clone()).or_insert_with(|| {
                    states.push(to);
                    (states.len() - 1) as u16
                })
            }));
        }
        let end = |s: &State| s.iter().filter(|(rule, at)| rules[*rule].len() == *at).map(|(rule, _)| *rule).min();
        let ends = states.iter().map(end).collect();
        Matcher { next, ends }
    }

    /// The rule and length of the longest match at the head of `text`.
    pub(crate) fn longest(&self, text: &[u8]) -> Option<(usize, usize)> {
        let (mut state, mut best) = (START, None);
        for (i, &byte) in text.iter().enumerate() {
            state = self.next[usize::from(state)][usize::from(byte)];
            if state == DEAD {
                break;
            }
            if let Some(rule) = self.ends[usize::from(state)] {
                best = Some((rule, i + 1));
            }
        }
        best
    }
}
