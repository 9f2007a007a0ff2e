/* Pleatspruce for C: the functions of liblc3.a. Each takes whatever it is lent and answers nine numbers; none keeps anything.

   What is lent: a buffer is a pointer and a length in elements. A pointer may be null only where its length is 0, and then it is not looked at.
   A buffer that is written, `out` among them, must overlap no other that is lent in the same call; buffers that are only read (`const`) may
   overlap each other. Nothing is asked of what stands in them: whatever it is, it gets an answer. Calls may run at the same time in several
   threads, if what one writes is lent to no other.

   What comes back: `out` has LC3_ANSWER numbers. The first is 0 where the call accepts, else the refusal; then the two spans and the four
   counts, which each function below names. After a refusal the counts are 0 and every buffer that is written is all zero; after acceptance
   what is not used of it is zero. Later editions may answer with more counts behind these: lend LC3_ANSWER_ROOM numbers, and they have room.

   Stack: lend a thread 64 KB. As measured (docs/FIGURES.md), lc3_assemble takes most, some 43 KB, for the tables of its first pass;
   lc3_link some 17 KB, lc3_check and lc3_load some 9 KB, the others about 1 KB. No call takes memory from a heap. */
#ifndef LC3_H
#define LC3_H

#include <stddef.h>
#include <stdint.h>

#ifdef __cplusplus
extern "C" {
#endif

/* Buffers of an object, in elements. The tables and the names must have at least these sizes in every call, else the answer is 42. */
#define LC3_BLOCKS 128       /* uint16_t: 64 rows of start, length, by start */
#define LC3_LABELS 4096      /* uint32_t: 1,024 rows of address, external (0 or 1), name's start, name's length, by name */
#define LC3_RELOCATIONS 2048 /* uint32_t: 1,024 rows of address, label row, by address */
#define LC3_NAMES 65536      /* uint8_t: the names in upper case, at most 64 bytes each */
#define LC3_WORDS 65024      /* uint16_t: the words of all blocks one after another; fewer may be lent, more are never used */
#define LC3_MARKS 65024      /* uint8_t: 1 where the word is set, 0 where it is not; the shorter of words and marks counts */
#define LC3_SOURCE 262144    /* uint8_t: the longest source */
#define LC3_STORED_BYTES 466881 /* uint8_t: the most that a stored object takes */

/* Where an answer has what. A missing span is 0, 0; an offset stands at both ends of its span; counts after a refusal are 0. */
enum lc3_place {
    LC3_NUMBER = 0,       /* 0 is acceptance, else one of lc3_refusal */
    LC3_START = 1,        /* first span: bytes of the source from start to before end */
    LC3_END = 2,
    LC3_SECOND_START = 3, /* second span */
    LC3_SECOND_END = 4,
    LC3_FIRST_COUNT = 5,  /* four counts, as each function says */
    LC3_SECOND_COUNT = 6,
    LC3_THIRD_COUNT = 7,
    LC3_FOURTH_COUNT = 8,
    LC3_ANSWER = 9,       /* how many numbers an answer has */
    LC3_ANSWER_ROOM = 16  /* how many to lend, so that later editions have room for more counts */
};

/* The four counts of a call that makes an object, and of lc3_check. */
enum lc3_counts {
    LC3_N_BLOCKS = LC3_FIRST_COUNT,
    LC3_N_WORDS = LC3_SECOND_COUNT,
    LC3_N_LABELS = LC3_THIRD_COUNT,
    LC3_N_RELOCATIONS = LC3_FOURTH_COUNT
};

/* The refusals. */
enum lc3_refusal {
    LC3_ACCEPTED = 0,
    LC3_DOES_NOT_FIT_U16 = 1,     /* DoesNotFitU16: the token */
    LC3_DOES_NOT_FIT_I16 = 2,     /* DoesNotFitI16: the token */
    LC3_INVALID_HEX = 3,          /* InvalidHex: the token */
    LC3_INVALID_NUMERIC = 4,      /* InvalidNumeric: the token */
    LC3_INVALID_HEX_EMPTY = 5,    /* InvalidHexEmpty: the token */
    LC3_INVALID_DEC_EMPTY = 6,    /* InvalidDecEmpty: the token */
    LC3_UNCLOSED_STR_LIT = 7,     /* UnclosedStrLit: the quote to the end of the line */
    LC3_STR_LIT_TOO_BIG = 8,      /* StrLitTooBig: the token */
    LC3_INVALID_REG = 9,          /* InvalidReg: the token */
    LC3_INVALID_SYMBOL = 10,      /* InvalidSymbol: one byte */
    LC3_SOURCE_TOO_LONG = 11,     /* SourceTooLong: the whole source */
    LC3_NON_ASCII = 12,           /* NonAscii: the first byte above x7F */
    LC3_BAD_STATEMENT = 13,       /* BadStatement: the first token that cannot stand there, or the end of the source */
    LC3_BAD_OPERAND = 14,         /* BadOperand: the same */
    LC3_OPERAND_RANGE = 15,       /* OperandRange: the token */
    LC3_NAME_TOO_LONG = 16,       /* NameTooLong: the token */
    LC3_UNDET_ADDR_LABEL = 20,    /* UndetAddrLabel: the statement's first label */
    LC3_UNDET_ADDR_STMT = 21,     /* UndetAddrStmt: the statement */
    LC3_UNCLOSED_ORIG = 22,       /* UnclosedOrig: the .orig */
    LC3_UNOPENED_ORIG = 23,       /* UnopenedOrig: the .end */
    LC3_OVERLAPPING_ORIG = 24,    /* OverlappingOrig: both .orig */
    LC3_OVERLAPPING_LABELS = 25,  /* OverlappingLabels: the first and the second label; in a link the label row r of the first object, as r, r + 1 */
    LC3_WRAPPING_BLOCK = 26,      /* WrappingBlock: the statement */
    LC3_BLOCK_IN_IO = 27,         /* BlockInIO: the statement */
    LC3_OVERLAPPING_BLOCKS = 28,  /* OverlappingBlocks: both .orig, the earlier first; in a link no place */
    LC3_OFFSET_NEW_ERR = 29,      /* OffsetNewErr: the label operand */
    LC3_OFFSET_EXTERNAL = 30,     /* OffsetExternal: the label operand */
    LC3_COULD_NOT_FIND_LABEL = 31, /* CouldNotFindLabel: the label operand */
    LC3_TABLE_FULL = 40,          /* TableFull: the statement; in a link no place */
    LC3_NO_ROOM = 41,             /* NoRoom: no place */
    LC3_SHORT_BUFFER = 42,        /* ShortBuffer: no place */
    LC3_BAD_OBJECT = 43,          /* BadObject: no place */
    LC3_BAD_FIELD = 50,           /* BadField: the offset of the field */
    LC3_NO_WRITE_ROOM = 51        /* NoWriteRoom: no place */
};

/* What sort of token it is, and what its value is; a value that is not named is 0. */
enum lc3_sort {
    LC3_UNSIGNED = 0, /* the number */
    LC3_SIGNED = 1,   /* the negative number's size, 0 to 32768 */
    LC3_REGISTER = 2, /* 0 to 7 */
    LC3_LABEL = 3,
    LC3_STRING = 4,
    LC3_RESERVED = 5, /* 0 to 31: ADD AND NOT BR BRP BRZ BRZP BRN BRNP BRNZ BRNZP JMP JSR JSRR LD LDI LDR LEA ST STI STR TRAP NOP
                         RET RTI GETC OUT PUTC PUTS IN PUTSP HALT */
    LC3_DIRECTIVE = 6,
    LC3_COLON = 7,
    LC3_COMMA = 8,
    LC3_NEWLINE = 9,
    LC3_END_OF_SOURCE = 10
};

/* The instructions that a word disassembles to. */
enum lc3_instr {
    LC3_ADD, LC3_AND, LC3_BR, LC3_JMP, LC3_JSR, LC3_JSRR, LC3_LD, LC3_LDI, LC3_LDR, LC3_LEA, LC3_NOT, LC3_RET, LC3_RTI, LC3_ST, LC3_STI,
    LC3_STR, LC3_TRAP, LC3_NOP, LC3_GETC, LC3_OUT, LC3_PUTC, LC3_PUTS, LC3_IN, LC3_PUTSP, LC3_HALT,
    LC3_FILL = 255
};

/* The next token from `at` on; blanks and comments are skipped. Counts: sort (lc3_sort), value, 0, 0. The first span is the token's. */
void lc3_next_token(const uint8_t *src, size_t src_len, size_t at, uint64_t out[LC3_ANSWER]);

/* The first of 11, 12, 1 to 10 and 13 to 16 in the source, in this order. Counts: 0. */
void lc3_first_refusal(const uint8_t *src, size_t src_len, uint64_t out[LC3_ANSWER]);

/* A place of a source, as a span's start: how many lines stand before it, and how many bytes before it in its line. Line and column, from 1, are
   one more each. A place past the end counts as the end. Counts: lines, bytes, 0, 0. */
void lc3_place(const uint8_t *src, size_t src_len, size_t at, uint64_t out[LC3_ANSWER]);

/* A refusal as text, `REFUSED`, its number, document 01's name and what it means, as far as it fits into `text`, the rest of it zero; LC3_REFUSAL_TEXT
   bytes are enough for every one. A number that is none has no name and no meaning. Counts: bytes, 0, 0, 0. */
#define LC3_REFUSAL_TEXT 128
void lc3_refusal(uint16_t number, uint8_t *text, size_t text_len, uint64_t out[LC3_ANSWER]);

/* Assembles the source into the six buffers. Counts: blocks, words, labels, relocations; the unused rest of each buffer is zero.
   After a refusal every buffer is zero. */
void lc3_assemble(const uint8_t *src, size_t src_len,
                  uint16_t *blocks, size_t blocks_len, uint16_t *words, size_t words_len, uint8_t *marks, size_t marks_len,
                  uint32_t *labels, size_t labels_len, uint32_t *relocations, size_t relocations_len, uint8_t *names, size_t names_len,
                  uint64_t out[LC3_ANSWER]);

/* Links two lent objects into the six buffers behind them, which must not overlap those lent. Counts: blocks, words, labels, relocations; the
   unused rest of each buffer is zero. After a refusal every buffer is zero: 42 (any table of the three is short), 43 (one of the two is no
   object), 28 (they share an address), 25 (they define a name at two addresses; its place is the row of the smallest such name in the first
   object), then 40 and 41, counted on the result.

   A list of one or more objects, linked in any order and any grouping, gives one same object or is refused each way; refused exactly when two
   entries share an address or define one name at two addresses; each relocation whose name some entry defines holds that address, every other
   word is as its entry had it. This needs that every link lends at least as many words and marks as the list has together, and that blocks,
   words, labels and relocations, added up over the list, are within 64, the lent words, 1,024 and 1,024; otherwise 40 or 41 can come of one
   grouping and not of another. */
void lc3_link(size_t n_blocks1, size_t n_words1, size_t n_labels1, size_t n_relocations1,
              const uint16_t *blocks1, size_t blocks1_len, const uint16_t *words1, size_t words1_len, const uint8_t *marks1, size_t marks1_len,
              const uint32_t *labels1, size_t labels1_len, const uint32_t *relocations1, size_t relocations1_len,
              const uint8_t *names1, size_t names1_len,
              size_t n_blocks2, size_t n_words2, size_t n_labels2, size_t n_relocations2,
              const uint16_t *blocks2, size_t blocks2_len, const uint16_t *words2, size_t words2_len, const uint8_t *marks2, size_t marks2_len,
              const uint32_t *labels2, size_t labels2_len, const uint32_t *relocations2, size_t relocations2_len,
              const uint8_t *names2, size_t names2_len,
              uint16_t *blocks, size_t blocks_len, uint16_t *words, size_t words_len, uint8_t *marks, size_t marks_len,
              uint32_t *labels, size_t labels_len, uint32_t *relocations, size_t relocations_len, uint8_t *names, size_t names_len,
              uint64_t out[LC3_ANSWER]);

/* Writes the listing of a lent object to `text`, the rest of it zero. Counts: bytes, 0, 0, 0. Refusals: 42, 43, 51. */
void lc3_list(size_t n_blocks, size_t n_words, size_t n_labels, size_t n_relocations,
              const uint16_t *blocks, size_t blocks_len, const uint16_t *words, size_t words_len, const uint8_t *marks, size_t marks_len,
              const uint32_t *labels, size_t labels_len, const uint32_t *relocations, size_t relocations_len,
              const uint8_t *names, size_t names_len, uint8_t *text, size_t text_len, uint64_t out[LC3_ANSWER]);

/* Writes a lent object in its stored form to `bytes`, the rest of it zero. Counts: bytes, 0, 0, 0. Refusals: 42, 43, 51. No object takes more
   than LC3_STORED_BYTES. */
void lc3_store(size_t n_blocks, size_t n_words, size_t n_labels, size_t n_relocations,
               const uint16_t *blocks, size_t blocks_len, const uint16_t *words, size_t words_len, const uint8_t *marks, size_t marks_len,
               const uint32_t *labels, size_t labels_len, const uint32_t *relocations, size_t relocations_len,
               const uint8_t *names, size_t names_len, uint8_t *bytes, size_t bytes_len, uint64_t out[LC3_ANSWER]);

/* Checks stored bytes. Counts: blocks, words, labels, relocations. Refusal: 50, whose place, at both ends, is the offset of the first field that
   breaks the form or is cut short, of what stands after the end, or of the end of the bytes where the field x00 is missing. */
void lc3_check(const uint8_t *bytes, size_t bytes_len, uint64_t out[LC3_ANSWER]);

/* Loads stored bytes into the six buffers. Counts: blocks, words, labels, relocations; the unused rest of each buffer is zero. After a refusal
   every buffer is zero: 42, 50 as lc3_check gives it, then 41. What is accepted is an object like any other: it may be linked, and is stored as the
   same bytes. */
void lc3_load(const uint8_t *bytes, size_t bytes_len,
              uint16_t *blocks, size_t blocks_len, uint16_t *words, size_t words_len, uint8_t *marks, size_t marks_len,
              uint32_t *labels, size_t labels_len, uint32_t *relocations, size_t relocations_len, uint8_t *names, size_t names_len,
              uint64_t out[LC3_ANSWER]);

/* What a lent object says of a name, matched in upper case. Counts: found (0 or 1), external (0 or 1), address, 0. Refusals: 42, 43. */
void lc3_lookup_label(size_t n_blocks, size_t n_words, size_t n_labels, size_t n_relocations,
                      const uint16_t *blocks, size_t blocks_len, const uint16_t *words, size_t words_len, const uint8_t *marks, size_t marks_len,
                      const uint32_t *labels, size_t labels_len, const uint32_t *relocations, size_t relocations_len,
                      const uint8_t *names, size_t names_len, const uint8_t *name, size_t name_len, uint64_t out[LC3_ANSWER]);

/* The smallest name at an address, externals counted at 0. Counts: found (0 or 1), label row, the name's start and length in `names`.
   Refusals: 42, 43. */
void lc3_rev_lookup_label(size_t n_blocks, size_t n_words, size_t n_labels, size_t n_relocations,
                          const uint16_t *blocks, size_t blocks_len, const uint16_t *words, size_t words_len, const uint8_t *marks, size_t marks_len,
                          const uint32_t *labels, size_t labels_len, const uint32_t *relocations, size_t relocations_len,
                          const uint8_t *names, size_t names_len, uint32_t address, uint64_t out[LC3_ANSWER]);

/* The instruction that encodes to exactly this word. Counts: lc3_instr, then up to three operands: a register's number; an offset or
   immediate as its 16 bits; the last operand of ADD and AND is a register's number, or 65536 and the 16 bits of an immediate;
   BR has n, z and p as three bits, then its offset; LC3_FILL has the word. */
void lc3_disassemble(uint16_t word, uint64_t out[LC3_ANSWER]);

#ifdef __cplusplus
}
#endif
#endif
