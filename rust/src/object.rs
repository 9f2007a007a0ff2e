//! An assembled source, several linked, or one that was stored.

use crate::raw;
use crate::tables;
use crate::{Kind, Refusal};

/// Blocks of words, labels and relocations: the rows that it has, in the layout of the library's tables.
#[derive(Clone, PartialEq, Eq)]
pub struct Object {
    pub(crate) blocks: Vec<u16>,
    pub(crate) words: Vec<u16>,
    pub(crate) marks: Vec<u8>,
    pub(crate) labels: Vec<u32>,
    pub(crate) relocations: Vec<u32>,
    pub(crate) names: Vec<u8>,
}

/// What an object says of a name.
#[derive(Debug, Clone, Copy, PartialEq, Eq)]
pub enum Symbol {
    /// Defined at this address.
    Defined(u16),
    /// Declared by `.external`; another object defines it.
    External,
}

/// Words from one address on.
#[derive(Debug, Clone, Copy, PartialEq, Eq)]
pub struct Block<'a> {
    /// The address of the first word.
    pub start: u16,
    words: &'a [u16],
    marks: &'a [u8],
}

impl<'a> Block<'a> {
    /// How many words it has, at least one.
    #[allow(clippy::len_without_is_empty)]
    pub fn len(&self) -> usize {
        self.words.len()
    }
    /// Its words; one that `.blkw` leaves unset is `None`.
    pub fn words(&self) -> impl Iterator<Item = Option<u16>> + 'a {
        self.words.iter().zip(self.marks).map(|(&word, &mark)| (mark == 1).then_some(word))
    }
}

/// Assembles a source.
///
/// A source has room for as many words as it has bytes at first; where that is too little, as after a `.blkw`, it is assembled once more with room
/// for all that an object can have.
pub fn assemble(src: &[u8]) -> Result<Object, Refusal> {
    let words = src.len().min(raw::WORDS);
    match tables::make(words, |to| raw::assemble(src, to)) {
        Err(refusal) if refusal.kind == Kind::NoRoom && words < raw::WORDS => tables::make(raw::WORDS, |to| raw::assemble(src, to)),
        made => made,
    }
}

impl Object {
    /// Links two objects: the blocks of both, and each name once. A name that is external in one and defined in the other is defined, and each
    /// word that waits for it is its address.
    ///
    /// Refused where they share an address (28), where they define a name at two addresses (25; the first span is `r..r + 1` for the smallest
    /// such name, which is row r of `a_obj`'s labels) and where the result has more than 64 blocks, 1,024 names or 1,024 relocations (40).
    /// 41 does not come: blocks that share no address have room.
    ///
    /// ```
    /// let caller = lc3::assemble(b".external F\n.orig x3000\nLD R1, P\nJSRR R1\nHALT\nP .fill F\n.end\n").unwrap();
    /// let callee = lc3::assemble(b".orig x4000\nF ADD R0, R0, #1\nRET\n.end\n").unwrap();
    /// let program = lc3::Object::link(&caller, &callee).unwrap();
    /// assert_eq!(program.words(), [0x2202, 0x4040, 0xF025, 0x4000, 0x1021, 0xC1C0]);
    /// assert_eq!(program.lookup_label("F"), Some(lc3::Symbol::Defined(0x4000)));
    /// assert_eq!(program, lc3::Object::link(&callee, &caller).unwrap());
    /// assert_eq!(lc3::Object::link(&program, &callee).unwrap_err().name(), "OverlappingBlocks");
    /// ```
    pub fn link(a_obj: &Object, b_obj: &Object) -> Result<Object, Refusal> {
        let words = a_obj.words.len() + b_obj.words.len();
        tables::link(a_obj, b_obj, words.min(raw::WORDS))
    }

    /// Links a list of objects, one after another; of none, an object with nothing. The place of 25 is a row of the link of those before.
    ///
    /// A list of one or more objects, linked in any order and any grouping, gives one same object or is refused each way; refused exactly when
    /// two entries share an address or define one name at two addresses; each relocation whose name some entry defines holds that address,
    /// every other word is as its entry had it. This needs that blocks, labels and relocations, added up over the list, are within 64, 1,024 and
    /// 1,024; otherwise 40 can come of one grouping and not of another. (Words, of which every link here lends enough, need nothing.)
    ///
    /// ```
    /// let sources = [
    ///     ".external B\n.orig x3000\nA .fill B\n.end\n",
    ///     ".external C\n.orig x3001\nB .fill C\n.end\n",
    ///     ".external A\n.orig x3002\nC .fill A\n.end\n",
    /// ];
    /// let objects = sources.map(|src| lc3::assemble(src.as_bytes()).unwrap());
    /// let all = lc3::Object::link_all(&objects).unwrap();
    /// assert_eq!(all.words(), [0x3001, 0x3002, 0x3000]);
    /// assert_eq!(all, lc3::Object::link_all(objects.iter().rev()).unwrap());
    /// ```
    pub fn link_all<'a>(objects: impl IntoIterator<Item = &'a Object>) -> Result<Object, Refusal> {
        let mut objects = objects.into_iter();
        let first = objects.next().cloned().unwrap_or_else(Object::nothing);
        objects.try_fold(first, |linked, next| Object::link(&linked, next))
    }

    /// The object with nothing.
    fn nothing() -> Object {
        Object { blocks: vec![], words: vec![], marks: vec![], labels: vec![], relocations: vec![], names: vec![] }
    }

    /// Hands the object to a call over lent buffers (`lc3::raw`), in tables of full size.
    pub fn lend<R>(&self, call: impl FnOnce(raw::Lent) -> R) -> R {
        tables::lend(self, call)
    }

    /// The blocks, by start.
    pub fn blocks(&self) -> impl Iterator<Item = Block<'_>> {
        let mut at = 0;
        self.blocks.chunks(2).map(move |row| {
            let first = at;
            at += usize::from(row[1]);
            Block { start: row[0], words: &self.words[first..at], marks: &self.marks[first..at] }
        })
    }

    /// Each address of a block and its word, unset or set.
    pub fn addr_iter(&self) -> impl Iterator<Item = (u16, Option<u16>)> + '_ {
        self.blocks().flat_map(|b| (b.start..).zip(b.words()))
    }

    /// The words of all blocks one after another; an unset one is 0.
    pub fn words(&self) -> &[u16] {
        &self.words
    }

    fn name(&self, row: usize) -> &str {
        let (start, size) = (self.labels[4 * row + 2] as usize, self.labels[4 * row + 3] as usize);
        std::str::from_utf8(&self.names[start..start + size]).expect("a name is ASCII")
    }

    /// The names in order, each with what it stands for.
    pub fn labels(&self) -> impl Iterator<Item = (&str, Symbol)> {
        self.labels.chunks(4).enumerate().map(|(row, fields)| {
            let symbol = if fields[1] == 1 { Symbol::External } else { Symbol::Defined(fields[0] as u16) };
            (self.name(row), symbol)
        })
    }

    /// The addresses of words that wait for an external, in order, each with its name.
    pub fn relocations(&self) -> impl Iterator<Item = (u16, &str)> {
        self.relocations.chunks(2).map(|row| (row[0] as u16, self.name(row[1] as usize)))
    }

    /// The label row of a name in upper case, by halving: rows stand in the order of their names.
    fn row(&self, name: &str) -> Option<usize> {
        let (mut low, mut high) = (0, self.labels.len() / 4);
        while low < high {
            let middle = low + (high - low) / 2;
            match self.name(middle).cmp(name) {
                std::cmp::Ordering::Less => low = middle + 1,
                std::cmp::Ordering::Greater => high = middle,
                std::cmp::Ordering::Equal => return Some(middle),
            }
        }
        None
    }

    /// What the object says of a name, in any case of letters.
    pub fn lookup_label(&self, label: &str) -> Option<Symbol> {
        let row = self.row(&label.to_ascii_uppercase())?;
        let [address, external] = [self.labels[4 * row], self.labels[4 * row + 1]];
        Some(if external == 1 { Symbol::External } else { Symbol::Defined(address as u16) })
    }

    /// The smallest name at an address; an external counts at 0.
    pub fn rev_lookup_label(&self, addr: u16) -> Option<&str> {
        self.labels.chunks(4).position(|row| row[0] == u32::from(addr)).map(|row| self.name(row))
    }

    /// The listing: blocks with their words, labels, relocations, a line each.
    pub fn list(&self) -> String {
        let rows = 16 * self.blocks.len() / 2 + 10 * self.words.len() + 76 * self.labels.len() / 4 + 74 * self.relocations.len() / 2;
        let mut text = vec![0; rows];
        let answer = self.lend(|o| raw::list(o, &mut text));
        let [size, ..] = Refusal::or_counts(&answer).expect("an object that was made is an object");
        text.truncate(size);
        String::from_utf8(text).expect("a listing is ASCII")
    }
}

impl std::fmt::Debug for Object {
    fn fmt(&self, f: &mut std::fmt::Formatter<'_>) -> std::fmt::Result {
        let (blocks, words) = (self.blocks.len() / 2, self.words.len());
        let (labels, relocations) = (self.labels.len() / 4, self.relocations.len() / 2);
        write!(f, "Object {{ blocks: {blocks}, words: {words}, labels: {labels}, relocations: {relocations} }}")
    }
}
