//! Stored objects: to bytes and back.

use crate::object::Object;
use crate::Kind;
use crate::raw;
use crate::tables;

/// Why bytes are no stored object (50): the first field that breaks the form.
#[derive(Debug, Clone, PartialEq, Eq)]
pub struct BadField {
    /// Where the field begins; at the end of the bytes where x00 is missing.
    pub offset: usize,
    /// What is wrong there, in a few words.
    pub wrong: &'static str,
}

/// The tag of the field that ends the bytes.
const END: u8 = 0;

/// The tag and the content of the field at an offset, if it is whole.
fn field(bytes: &[u8], at: usize) -> Option<(u8, &[u8])> {
    let (head, rest) = bytes.get(at..)?.split_first_chunk::<3>()?;
    let size = u16::from_be_bytes([head[1], head[2]]);
    rest.get(..size.into()).map(|content| (head[0], content))
}

/// Whether the end stands before an offset, up to which all fields are whole.
fn ended(bytes: &[u8], offset: usize) -> bool {
    let mut at = 0;
    while let Some((tag, content)) = field(bytes, at).filter(|_| at < offset) {
        if tag == END {
            return true;
        }
        at += 3 + content.len();
    }
    false
}

impl BadField {
    /// What 50 at an offset says of the bytes.
    fn at(bytes: &[u8], offset: usize) -> BadField {
        let wrong = match field(bytes, offset) {
            _ if ended(bytes, offset) => "bytes after the end",
            None if offset >= bytes.len() => "the field that ends the bytes is missing",
            None => "a field that is cut short",
            Some((0, _)) => "the end with content, or before all words of a block",
            Some((1, _)) => "a block with no words, not above the last, past xFE00, before all words of the last, after a label, or one too many",
            Some((2, _)) => "set words where there are none, half a one, above 16,384, more than their block lacks, or behind others that are not full",
            Some((3, _)) => "unset words where there are none, more than their block lacks, or behind others",
            Some((5, _)) => "an external with no good name, not above the last, before all words of a block, after a relocation, or one too many",
            Some((4, _)) => "a label with no good name, not above the last, before all words of a block, after a relocation, or one too many",
            Some((6, _)) => "a relocation at no set word 0, of no external, not above the last, or one too many",
            Some(_) => "no field has this tag",
        };
        BadField { offset, wrong }
    }
}

impl std::fmt::Display for BadField {
    fn fmt(&self, f: &mut std::fmt::Formatter<'_>) -> std::fmt::Result {
        write!(f, "REFUSED {}, at {}: {}", Kind::BadField, self.offset, self.wrong)
    }
}
impl std::error::Error for BadField {}

impl Object {
    /// The stored form: one for each object, and no two objects share one.
    ///
    /// ```
    /// let object = lc3::assemble(b".orig x3000\nA HALT\n.end\n").unwrap();
    /// let bytes = object.to_bytes();
    /// assert_eq!(bytes, [1, 0, 4, 0x30, 0, 0, 1, 2, 0, 2, 0xF0, 0x25, 4, 0, 3, 0x30, 0, b'A', 0, 0, 0]);
    /// assert_eq!(lc3::Object::from_bytes(&bytes).unwrap(), object);
    /// ```
    pub fn to_bytes(&self) -> Vec<u8> {
        let (blocks, words) = (self.blocks.len() / 2, self.words.len());
        let (labels, relocations) = (self.labels.len() / 4, self.relocations.len() / 2);
        let name = 3 + 2 + 64;
        let mut bytes = vec![0; 7 * blocks + 5 * words + name * (labels + relocations) + 3];
        let answer = self.lend(|o| raw::store(o, &mut bytes));
        assert_eq!(answer[0], 0, "an object is stored where there is room for the most that it can take");
        bytes.truncate(answer[5] as usize);
        bytes
    }

    /// What was stored, or the first field that breaks the form. What is accepted is an object like any that was assembled or linked, and is stored
    /// as the same bytes.
    ///
    /// ```
    /// let mut bytes = lc3::assemble(b".orig x3000\nA HALT\n.end\n").unwrap().to_bytes();
    /// bytes[17] = b'a';
    /// let refused = lc3::Object::from_bytes(&bytes).unwrap_err();
    /// assert_eq!(refused.offset, 12);
    /// assert!(refused.wrong.starts_with("a label with no good name"));
    /// ```
    pub fn from_bytes(bytes: &[u8]) -> Result<Object, BadField> {
        tables::make(raw::WORDS, |to| raw::load(bytes, to)).map_err(|refusal| BadField::at(bytes, refusal.spans[0].start))
    }
}
