//! Refusals: document 01's numbers and names, what each means, and where it stands.

use crate::raw::{self, Answer};
use crate::Span;

/// Declares the refusals in one table: name, number, meaning.
macro_rules! kinds {
    ($($name:ident = $number:literal, $meaning:literal;)*) => {
        /// What a refusal is, by document 01's name.
        #[derive(Debug, Clone, Copy, PartialEq, Eq, PartialOrd, Ord, Hash)]
        #[non_exhaustive]
        #[repr(u16)]
        pub enum Kind { $(#[doc = concat!($number, ": ", $meaning, ".")] $name = $number,)* }

        impl Kind {
            /// All of them, by number.
            pub const ALL: &'static [Kind] = &[$(Kind::$name,)*];

            /// Its name in document 01.
            pub fn name(self) -> &'static str {
                match self { $(Kind::$name => stringify!($name),)* }
            }

            /// What it means, in a few words.
            pub fn meaning(self) -> &'static str {
                match self { $(Kind::$name => $meaning,)* }
            }
        }
    };
}

kinds! {
    DoesNotFitU16 = 1, "a number above 65535";
    DoesNotFitI16 = 2, "a number below -32768";
    InvalidHex = 3, "a digit that is not hexadecimal";
    InvalidNumeric = 4, "a digit that is not decimal";
    InvalidHexEmpty = 5, "a hexadecimal number without digits";
    InvalidDecEmpty = 6, "a decimal number without digits";
    UnclosedStrLit = 7, "a string that is not closed on its line";
    StrLitTooBig = 8, "a string of more than 65,534 characters";
    InvalidReg = 9, "no such register, they are R0 to R7";
    InvalidSymbol = 10, "a character that begins no token";
    SourceTooLong = 11, "the source is longer than this program takes";
    NonAscii = 12, "a byte that is not ASCII";
    BadStatement = 13, "this cannot stand here";
    BadOperand = 14, "the operand that is due here is missing or of another kind";
    OperandRange = 15, "a number that does not fit this operand";
    NameTooLong = 16, "a name of more than 64 characters";
    UndetAddrLabel = 20, "a label outside .orig and .end has no address";
    UndetAddrStmt = 21, "a statement outside .orig and .end has no address";
    UnclosedOrig = 22, "an .orig without its .end";
    UnopenedOrig = 23, "an .end without its .orig";
    OverlappingOrig = 24, "an .orig inside a block";
    OverlappingLabels = 25, "one label at two addresses";
    WrappingBlock = 26, "the block runs past xFFFF";
    BlockInIO = 27, "the block runs into the addresses of devices, xFE00 and above";
    OverlappingBlocks = 28, "two blocks share an address";
    OffsetNewErr = 29, "the label is too far away for this instruction";
    OffsetExternal = 30, "an external label has no address here, so there is no offset to it";
    CouldNotFindLabel = 31, "no label has this name";
    TableFull = 40, "more than 1,024 labels, 1,024 relocations or 64 blocks";
    NoRoom = 41, "more words than there is room for";
    ShortBuffer = 42, "a lent buffer is too short";
    BadObject = 43, "the lent buffers hold no object";
    BadField = 50, "the bytes are no stored object from this field on";
    NoWriteRoom = 51, "the bytes do not fit";
}

impl Kind {
    /// Its number in document 01.
    pub fn number(self) -> u16 {
        self as u16
    }

    /// The refusal of a number, if there is one.
    pub fn from_number(number: u16) -> Option<Kind> {
        Kind::ALL.iter().copied().find(|kind| kind.number() == number)
    }
}

impl std::fmt::Display for Kind {
    fn fmt(&self, f: &mut std::fmt::Formatter<'_>) -> std::fmt::Result {
        write!(f, "{} {}: {}", self.number(), self.name(), self.meaning())
    }
}

/// Why a call has no result, and where in the source.
///
/// ```
/// let refusal = lc3::assemble(b"ADD R0, R0, 16").unwrap_err();
/// assert_eq!(refusal.kind, lc3::Kind::OperandRange);
/// assert_eq!(refusal.to_string(), "REFUSED 15 OperandRange: a number that does not fit this operand, at 12..14");
/// ```
#[derive(Debug, Clone, PartialEq, Eq)]
pub struct Refusal {
    /// What it is.
    pub kind: Kind,
    /// Two places; one that is missing is `0..0`.
    pub spans: [Span; 2],
}

impl Refusal {
    /// The number in document 01.
    pub fn number(&self) -> u16 {
        self.kind.number()
    }

    /// The name in document 01.
    pub fn name(&self) -> &'static str {
        self.kind.name()
    }

    /// The refusal that an answer holds, or the answer's four counts.
    pub(crate) fn or_counts(a: &Answer) -> Result<[usize; 4], Refusal> {
        let n = |i: usize| a[i] as usize;
        match u16::try_from(a[0]).ok().and_then(Kind::from_number) {
            None => Ok([n(5), n(6), n(7), n(8)]),
            Some(kind) => Err(Refusal { kind, spans: [n(1)..n(2), n(3)..n(4)] }),
        }
    }
}

impl std::fmt::Display for Refusal {
    fn fmt(&self, f: &mut std::fmt::Formatter<'_>) -> std::fmt::Result {
        write!(f, "REFUSED {}", self.kind)?;
        match &self.spans {
            [a, b] if *a == (0..0) && *b == (0..0) => Ok(()),
            [a, b] if *b == (0..0) => write!(f, ", at {}..{}", a.start, a.end),
            [a, b] => write!(f, ", at {}..{} and {}..{}", a.start, a.end, b.start, b.end),
        }
    }
}
impl std::error::Error for Refusal {}

/// The line and the column of a place in a source, both from 1. The column counts bytes, a tab as one; a place past the end counts as the end.
///
/// ```
/// let source = b".orig x3000\n  LD R1, CONUT\n.end\n";
/// let refusal = lc3::assemble(source).unwrap_err();
/// assert_eq!(lc3::line_column(source, refusal.spans[0].start), (2, 10));
/// ```
pub fn line_column(src: &[u8], at: usize) -> (usize, usize) {
    let [.., lines, bytes, _, _] = raw::place(src, at);
    (1 + lines as usize, 1 + bytes as usize)
}
