//! Tokens of a source, and the first refusal before the passes.

use crate::{raw, Refusal, Span};

/// The reserved words in the order of their codes.
pub const RESERVED: [&str; 32] = [
    "ADD", "AND", "NOT", "BR", "BRP", "BRZ", "BRZP", "BRN", "BRNP", "BRNZ", "BRNZP", "JMP", "JSR", "JSRR", "LD", "LDI", "LDR", "LEA", "ST",
    "STI", "STR", "TRAP", "NOP", "RET", "RTI", "GETC", "OUT", "PUTC", "PUTS", "IN", "PUTSP", "HALT",
];

/// What a token is; names, directives and strings stand in the source at the token's place.
#[derive(Debug, Clone, Copy, PartialEq, Eq)]
pub enum Token {
    /// A number without a sign.
    Unsigned(u16),
    /// A number with a minus sign.
    Signed(i16),
    /// A register, from 0 to 7.
    Reg(u8),
    /// A name.
    Label,
    /// A string in quotes.
    String,
    /// A reserved word.
    Reserved(&'static str),
    /// A dot and a word.
    Directive,
    /// `:`
    Colon,
    /// `,`
    Comma,
    /// The end of a line.
    NewLine,
}

/// The next token from a place on, and where it stands; `None` at the end of the source.
pub fn next_token(src: &[u8], at: usize) -> Result<Option<(Token, Span)>, Refusal> {
    let answer = raw::next_token(src, at);
    let [sort, value, ..] = Refusal::or_counts(&answer)?;
    let token = match sort {
        0 => Token::Unsigned(value as u16),
        1 => Token::Signed((value as i32).wrapping_neg() as i16),
        2 => Token::Reg(value as u8),
        3 => Token::Label,
        4 => Token::String,
        5 => Token::Reserved(RESERVED[value]),
        6 => Token::Directive,
        7 => Token::Colon,
        8 => Token::Comma,
        9 => Token::NewLine,
        _ => return Ok(None),
    };
    Ok(Some((token, answer[1] as usize..answer[2] as usize)))
}

/// The tokens of a source in order, up to the first refusal.
pub fn tokens(src: &[u8]) -> impl Iterator<Item = Result<(Token, Span), Refusal>> + '_ {
    let mut at = Some(0);
    std::iter::from_fn(move || {
        let next = next_token(src, at?).transpose();
        at = match &next {
            Some(Ok((_, span))) => Some(span.end),
            _ => None,
        };
        next
    })
}

/// The first refusal of a source before the passes: its length, its bytes, its tokens, its statements, in this order.
pub fn first_refusal(src: &[u8]) -> Option<Refusal> {
    Refusal::or_counts(&raw::first_refusal(src)).err()
}

/// The characters of a string token: what stands between its quotes, with `\\n \\r \\t \\\\ \\0 \\"` as one character each; before any other character
/// the backslash stays.
///
/// ```
/// let source = br#".stringz "a\tb\q""#;
/// let string = lc3::tokens(source).map(Result::unwrap).find(|(token, _)| *token == lc3::Token::String).unwrap();
/// assert_eq!(lc3::string_text(&source[string.1]), b"a\tb\\q");
/// ```
pub fn string_text(token: &[u8]) -> Vec<u8> {
    let inner = token.strip_prefix(b"\"").unwrap_or(token);
    let mut rest = inner.strip_suffix(b"\"").unwrap_or(inner).iter().copied().peekable();
    let mut text = Vec::new();
    while let Some(byte) = rest.next() {
        let escaped = match (byte, rest.peek()) {
            (b'\\', Some(b'n')) => Some(b'\n'),
            (b'\\', Some(b'r')) => Some(b'\r'),
            (b'\\', Some(b't')) => Some(b'\t'),
            (b'\\', Some(b'0')) => Some(0),
            (b'\\', Some(b'\\')) => Some(b'\\'),
            (b'\\', Some(b'"')) => Some(b'"'),
            _ => None,
        };
        text.push(escaped.unwrap_or(byte));
        if escaped.is_some() {
            rest.next();
        }
    }
    text
}
