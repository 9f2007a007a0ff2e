//! The library's functions over lent buffers, as they are: whatever is lent, the answer is nine numbers.
//!
//! An answer is the number (0 is acceptance), the start and end of two spans, and four counts, which each function names.

#![allow(unsafe_code)]

/// Numbers that the table of blocks needs: 64 rows of start and length.
pub const BLOCKS: usize = 128;
/// Numbers that the table of labels needs: 1,024 rows of address, external, name's start and length.
pub const LABELS: usize = 4096;
/// Numbers that the table of relocations needs: 1,024 rows of address and label row.
pub const RELOCATIONS: usize = 2048;
/// Bytes that the names need.
pub const NAMES: usize = 65536;
/// Words and marks that an object has at most.
pub const WORDS: usize = 65024;
/// Bytes that a source has at most.
pub const SOURCE: usize = 262_144;

/// The number, two spans and four counts.
pub type Answer = [u64; 9];

/// The buffers that an object is written to.
#[allow(missing_docs)]
pub struct Buffers<'a> {
    pub blocks: &'a mut [u16],
    pub words: &'a mut [u16],
    pub marks: &'a mut [u8],
    pub labels: &'a mut [u32],
    pub relocations: &'a mut [u32],
    pub names: &'a mut [u8],
}

/// An object that is lent: its counts of blocks, words, labels and relocations, and its buffers.
#[allow(missing_docs)]
#[derive(Clone, Copy)]
pub struct Lent<'a> {
    pub counts: [usize; 4],
    pub blocks: &'a [u16],
    pub words: &'a [u16],
    pub marks: &'a [u8],
    pub labels: &'a [u32],
    pub relocations: &'a [u32],
    pub names: &'a [u8],
}

/// Declares the C functions. A slice parameter is a pointer and a length.
mod c {
    macro_rules! on_object {
        ($($name:ident($($extra:ident: $type:ty),*);)*) => { extern "C" { $(
            pub fn $name(
                n_blocks: usize, n_words: usize, n_labels: usize, n_relocations: usize,
                blocks: *const u16, blocks_len: usize, words: *const u16, words_len: usize, marks: *const u8, marks_len: usize,
                labels: *const u32, labels_len: usize, relocations: *const u32, relocations_len: usize,
                names: *const u8, names_len: usize, $($extra: $type,)* out: *mut [u64; 9],
            );
        )* } };
    }
    on_object! {
        lc3_list(text: *mut u8, text_len: usize);
        lc3_store(bytes: *mut u8, bytes_len: usize);
        lc3_lookup_label(name: *const u8, name_len: usize);
        lc3_rev_lookup_label(address: u32);
        lc3_link(
            n_blocks2: usize, n_words2: usize, n_labels2: usize, n_relocations2: usize,
            blocks2: *const u16, blocks2_len: usize, words2: *const u16, words2_len: usize, marks2: *const u8, marks2_len: usize,
            labels2: *const u32, labels2_len: usize, relocations2: *const u32, relocations2_len: usize,
            names2: *const u8, names2_len: usize,
            to_blocks: *mut u16, to_blocks_len: usize, to_words: *mut u16, to_words_len: usize, to_marks: *mut u8, to_marks_len: usize,
            to_labels: *mut u32, to_labels_len: usize, to_relocations: *mut u32, to_relocations_len: usize,
            to_names: *mut u8, to_names_len: usize
        );
    }
    extern "C" {
        pub fn lc3_next_token(src: *const u8, src_len: usize, at: usize, out: *mut [u64; 9]);
        pub fn lc3_first_refusal(src: *const u8, src_len: usize, out: *mut [u64; 9]);
        pub fn lc3_place(src: *const u8, src_len: usize, at: usize, out: *mut [u64; 9]);
        pub fn lc3_refusal(number: u16, text: *mut u8, text_len: usize, out: *mut [u64; 9]);
        pub fn lc3_assemble(
            src: *const u8,
            src_len: usize,
            blocks: *mut u16,
            blocks_len: usize,
            words: *mut u16,
            words_len: usize,
            marks: *mut u8,
            marks_len: usize,
            labels: *mut u32,
            labels_len: usize,
            relocations: *mut u32,
            relocations_len: usize,
            names: *mut u8,
            names_len: usize,
            out: *mut [u64; 9],
        );
        pub fn lc3_check(bytes: *const u8, bytes_len: usize, out: *mut [u64; 9]);
        pub fn lc3_load(
            bytes: *const u8,
            bytes_len: usize,
            blocks: *mut u16,
            blocks_len: usize,
            words: *mut u16,
            words_len: usize,
            marks: *mut u8,
            marks_len: usize,
            labels: *mut u32,
            labels_len: usize,
            relocations: *mut u32,
            relocations_len: usize,
            names: *mut u8,
            names_len: usize,
            out: *mut [u64; 9],
        );
        pub fn lc3_disassemble(word: u16, out: *mut [u64; 9]);
    }
}

/// The next token from `at` on. Counts: sort, value, 0, 0; the first span is the token's.
pub fn next_token(src: &[u8], at: usize) -> Answer {
    let mut out = [0; 9];
    // SAFETY: the source is lent whole, the answer has nine numbers, and the function asks for nothing else.
    unsafe { c::lc3_next_token(src.as_ptr(), src.len(), at, &mut out) };
    out
}

/// The first of 11, 12, 1 to 10 and 13 to 16. Counts: 0.
pub fn first_refusal(src: &[u8]) -> Answer {
    let mut out = [0; 9];
    // SAFETY: as above.
    unsafe { c::lc3_first_refusal(src.as_ptr(), src.len(), &mut out) };
    out
}

/// A place of a source. Counts: lines before it, bytes before it in its line, 0, 0.
pub fn place(src: &[u8], at: usize) -> Answer {
    let mut out = [0; 9];
    // SAFETY: as above.
    unsafe { c::lc3_place(src.as_ptr(), src.len(), at, &mut out) };
    out
}

/// A refusal's number, name and meaning as text. Counts: bytes, 0, 0, 0.
pub fn refusal(number: u16, text: &mut [u8]) -> Answer {
    let mut out = [0; 9];
    // SAFETY: the text is lent whole and overlaps nothing, being borrowed.
    unsafe { c::lc3_refusal(number, text.as_mut_ptr(), text.len(), &mut out) };
    out
}

/// Bytes of a source or of a stored object into the lent buffers.
macro_rules! into_buffers {
    ($name:ident, $bytes:expr, $b:expr) => {{
        let (bytes, b, mut out): (&[u8], &mut Buffers, _) = ($bytes, $b, [0; 9]);
        // SAFETY: the bytes and each buffer are lent whole and no two overlap, being borrowed apart.
        unsafe {
            c::$name(
                bytes.as_ptr(),
                bytes.len(),
                b.blocks.as_mut_ptr(),
                b.blocks.len(),
                b.words.as_mut_ptr(),
                b.words.len(),
                b.marks.as_mut_ptr(),
                b.marks.len(),
                b.labels.as_mut_ptr(),
                b.labels.len(),
                b.relocations.as_mut_ptr(),
                b.relocations.len(),
                b.names.as_mut_ptr(),
                b.names.len(),
                &mut out,
            )
        };
        out
    }};
}

/// Assembles. Counts: blocks, words, labels, relocations.
pub fn assemble(src: &[u8], b: &mut Buffers) -> Answer {
    into_buffers!(lc3_assemble, src, b)
}

/// Checks stored bytes. Counts: blocks, words, labels, relocations. The first span of 50 is the offset of the field, at both ends.
pub fn check(bytes: &[u8]) -> Answer {
    let mut out = [0; 9];
    // SAFETY: the bytes are lent whole, and the answer has nine numbers.
    unsafe { c::lc3_check(bytes.as_ptr(), bytes.len(), &mut out) };
    out
}

/// Loads stored bytes. Counts: blocks, words, labels, relocations. The first span of 50 is the offset of the field, at both ends.
pub fn load(bytes: &[u8], b: &mut Buffers) -> Answer {
    into_buffers!(lc3_load, bytes, b)
}

macro_rules! call_on {
    ($name:ident, $o:expr $(, $extra:expr)*) => {{
        let (o, mut out) = ($o, [0; 9]);
        let [blocks, words, labels, relocations] = o.counts;
        // SAFETY: each buffer is lent whole, and one that is written overlaps no other, being borrowed apart; the function tests counts and
        // rows itself.
        unsafe {
            c::$name(
                blocks, words, labels, relocations, o.blocks.as_ptr(), o.blocks.len(), o.words.as_ptr(), o.words.len(),
                o.marks.as_ptr(), o.marks.len(), o.labels.as_ptr(), o.labels.len(), o.relocations.as_ptr(), o.relocations.len(),
                o.names.as_ptr(), o.names.len(), $($extra,)* &mut out,
            )
        };
        out
    }};
}

/// Writes the listing to `text`. Counts: bytes, 0, 0, 0.
pub fn list(o: Lent, text: &mut [u8]) -> Answer {
    call_on!(lc3_list, o, text.as_mut_ptr(), text.len())
}

/// Writes the stored form to `bytes`. Counts: bytes, 0, 0, 0.
pub fn store(o: Lent, bytes: &mut [u8]) -> Answer {
    call_on!(lc3_store, o, bytes.as_mut_ptr(), bytes.len())
}

/// What the object says of a name. Counts: found, external, address, 0.
pub fn lookup_label(o: Lent, name: &[u8]) -> Answer {
    call_on!(lc3_lookup_label, o, name.as_ptr(), name.len())
}

/// The smallest name at an address. Counts: found, label row, the name's start and length.
pub fn rev_lookup_label(o: Lent, address: u32) -> Answer {
    call_on!(lc3_rev_lookup_label, o, address)
}

/// Links two objects into a third. Counts: blocks, words, labels, relocations. The first span of 25 is row r of the first object's labels, as
/// r, r + 1.
#[rustfmt::skip]
pub fn link(a: Lent, b: Lent, to: &mut Buffers) -> Answer {
    call_on!(
        lc3_link, a, b.counts[0], b.counts[1], b.counts[2], b.counts[3], b.blocks.as_ptr(), b.blocks.len(), b.words.as_ptr(), b.words.len(),
        b.marks.as_ptr(), b.marks.len(), b.labels.as_ptr(), b.labels.len(), b.relocations.as_ptr(), b.relocations.len(),
        b.names.as_ptr(), b.names.len(), to.blocks.as_mut_ptr(), to.blocks.len(), to.words.as_mut_ptr(), to.words.len(),
        to.marks.as_mut_ptr(), to.marks.len(), to.labels.as_mut_ptr(), to.labels.len(), to.relocations.as_mut_ptr(), to.relocations.len(),
        to.names.as_mut_ptr(), to.names.len()
    )
}

/// The instruction of a word. Counts: its code, or 255 for a fill, and up to three operands.
pub fn disassemble(word: u16) -> Answer {
    let mut out = [0; 9];
    // SAFETY: the answer has nine numbers.
    unsafe { c::lc3_disassemble(word, &mut out) };
    out
}
