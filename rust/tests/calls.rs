//! Each function of the crate on the marked examples of document 01.

use lc3::{assemble, disassemble_line, first_refusal, line_column, next_token, raw, string_text, tokens};
use lc3::{Kind, Line, Object, Refusal, Symbol, Token};

const P1: &[u8] = b".orig x3000\nSTART LEA R0, MSG\nPUTS\nHALT\nMSG .stringz \"Hi\"\n.end\n";
const P1_LISTING: &str = "BLOCK 3000 0006\n3000 E002\n3001 F022\n3002 F025\n3003 0048\n3004 0069\n3005 0000\n\
    LABEL 3003 MSG\nLABEL 3000 START\n";
const P2: &[u8] = b".external F\n.orig x3000\nLD R1, P\nJSRR R1\nHALT\nP .fill F\n.end\n";
const P3: &[u8] = b".orig x4000\nF ADD R0, R0, #1\nRET\n.end\n";
const P2_P3_LISTING: &str = "BLOCK 3000 0004\n3000 2202\n3001 4040\n3002 F025\n3003 4000\nBLOCK 4000 0002\n4000 1021\n4001 C1C0\n\
    LABEL 4000 F\nLABEL 3003 P\n";

fn number(src: &str) -> u16 {
    assemble(src.as_bytes()).map_or_else(|r| r.number(), |_| 0)
}

#[test]
fn listing() {
    assert_eq!(assemble(P1).unwrap().list(), P1_LISTING);
    assert_eq!(assemble(b"").unwrap().list(), "");
}

#[test]
fn object() {
    let o = assemble(P2).unwrap();
    assert_eq!(o.words(), [0x2202, 0x4040, 0xF025, 0]);
    assert_eq!(o.labels().collect::<Vec<_>>(), [("F", Symbol::External), ("P", Symbol::Defined(0x3003))]);
    assert_eq!(o.relocations().collect::<Vec<_>>(), [(0x3003, "F")]);
    assert_eq!((o.lookup_label("f"), o.lookup_label("P")), (Some(Symbol::External), Some(Symbol::Defined(0x3003))));
    assert_eq!((o.lookup_label("Q"), o.lookup_label("")), (None, None));
    assert_eq!((o.rev_lookup_label(0x3003), o.rev_lookup_label(0), o.rev_lookup_label(1)), (Some("P"), Some("F"), None));
}

#[test]
fn blocks() {
    let o = assemble(b".orig 9\nHALT\n.end\n.orig 5\n.fill 7\n.blkw 2\n.end").unwrap();
    let blocks: Vec<_> = o.blocks().map(|b| (b.start, b.len(), b.words().collect::<Vec<_>>())).collect();
    assert_eq!(blocks, [(5, 3, vec![Some(7), None, None]), (9, 1, vec![Some(0xF025)])]);
    assert_eq!(o.addr_iter().collect::<Vec<_>>(), [(5, Some(7)), (6, None), (7, None), (9, Some(0xF025))]);
}

#[test]
fn refusals() {
    assert_eq!(number(".orig xFDFF\nHALT\n.end"), 0);
    assert_eq!(number(".orig xFE00\nHALT\n.end"), 27);
    assert_eq!(number(".orig xFFFF\n.blkw 2\n.end"), 26);
    assert_eq!(number(".external F\n.orig 0\nLD R0, F\n.end"), 30);
    assert_eq!(number(".fill -32769"), 2);
    let r = assemble(b".orig 0\nA HALT\nA HALT\n.end").unwrap_err();
    assert_eq!(r, Refusal { kind: Kind::OverlappingLabels, spans: [8..9, 15..16] });
    assert_eq!(r.to_string(), "REFUSED 25 OverlappingLabels: one label at two addresses, at 8..9 and 15..16");
    assert_eq!(assemble(b".orig 0\n.blkw 65024\n.end\n.orig 0\nHALT\n.end").unwrap_err().to_string(), "REFUSED 41 NoRoom: more words than there is room for");
    assert_eq!(first_refusal(b"ADD R0, R0").unwrap().to_string(), "REFUSED 13 BadStatement: this cannot stand here, at 10..10");
    assert_eq!(first_refusal(b"A HALT"), None);
    assert_eq!(first_refusal(&[b';'; 262_145]).unwrap().name(), "SourceTooLong");
}

/// The link of two sources that assemble.
fn linked(a: &[u8], b: &[u8]) -> Result<Object, Refusal> {
    Object::link(&assemble(a).unwrap(), &assemble(b).unwrap())
}

#[test]
fn linking() {
    assert_eq!(linked(P2, P3).unwrap().list(), P2_P3_LISTING);
    assert_eq!(linked(P3, P2).unwrap().list(), P2_P3_LISTING);
    assert_eq!(linked(P3, P3).unwrap_err(), Refusal { kind: Kind::OverlappingBlocks, spans: [0..0, 0..0] });
    assert_eq!(linked(b"", P2).unwrap(), assemble(P2).unwrap());
    let open = linked(P2, b".external F\n.orig 0\n.fill F\n.end").unwrap();
    assert_eq!(open.relocations().collect::<Vec<_>>(), [(0, "F"), (0x3003, "F")]);
    let zero = linked(P2, b".orig 0\nF .end").unwrap();
    assert_eq!((zero.words()[3], zero.lookup_label("F"), zero.relocations().count()), (0, Some(Symbol::Defined(0)), 0));
    let r = linked(b".orig 5\nC A B HALT\n.end", b".orig 6\nB C HALT\n.end").unwrap_err();
    assert_eq!((r.name(), r.spans), ("OverlappingLabels", [1..2, 0..0]));
}

#[test]
fn a_list_linked() {
    let object = |src: &str| assemble(src.as_bytes()).unwrap();
    let list =
        [".external B\n.orig 1\nA .fill B\n.end", ".orig 2\n.blkw 3\nB .end", ".external A\n.orig 9\n.fill A\n.fill 7\n.end"].map(object);
    let [a, b, c] = &list;
    let all = Object::link_all(&list).unwrap();
    assert_eq!(all.addr_iter().collect::<Vec<_>>(), [(1, Some(5)), (2, None), (3, None), (4, None), (9, Some(1)), (10, Some(7))]);
    for [x, y, z] in [[a, b, c], [a, c, b], [b, a, c], [b, c, a], [c, a, b], [c, b, a]] {
        assert_eq!(Object::link_all([x, y, z]).unwrap(), all);
        assert_eq!(Object::link(x, &Object::link(y, z).unwrap()).unwrap(), all);
    }
    assert_eq!(Object::link_all([]).unwrap(), object(""));
    assert_eq!(Object::link_all([a]).unwrap(), *a);
    let blocks = |at: usize| object(&(at..at + 33).map(|i| format!(".orig {}\nHALT\n.end\n", 2 * i)).collect::<String>());
    assert_eq!(Object::link_all(&[blocks(0), blocks(33)]).unwrap_err().kind, Kind::TableFull);
}

/// An object in tables of its own, as a caller of `raw` lends one.
struct Full(Vec<u16>, Vec<u16>, Vec<u8>, Vec<u32>, Vec<u32>, Vec<u8>, [usize; 4]);

impl Full {
    fn of(object: &Object) -> Full {
        object.lend(|o| {
            let (blocks, words, marks) = (o.blocks.to_vec(), o.words.to_vec(), o.marks.to_vec());
            Full(blocks, words, marks, o.labels.to_vec(), o.relocations.to_vec(), o.names.to_vec(), o.counts)
        })
    }
    fn lent(&self) -> raw::Lent<'_> {
        let Full(blocks, words, marks, labels, relocations, names, counts) = self;
        raw::Lent { counts: *counts, blocks, words, marks, labels, relocations, names }
    }
}

#[test]
fn linking_in_lent_buffers() {
    let (a, b) = (Full::of(&assemble(P2).unwrap()), Full::of(&assemble(P3).unwrap()));
    let number = |words: usize, names: usize, a: raw::Lent| {
        let (mut blocks, mut labels, mut relocations) = ([7; raw::BLOCKS], [7; raw::LABELS], [7; raw::RELOCATIONS]);
        let (mut words, mut marks, mut names) = (vec![7; words], vec![7; words], vec![7; names]);
        let (words, marks, names) = (&mut *words, &mut *marks, &mut *names);
        let (blocks, labels, relocations) = (&mut blocks[..], &mut labels[..], &mut relocations[..]);
        let answer = raw::link(a, b.lent(), &mut raw::Buffers { blocks, words, marks, labels, relocations, names });
        let zero = words.iter().chain(blocks.iter()).all(|n| *n == 0) && labels.iter().chain(relocations.iter()).all(|n| *n == 0);
        assert_eq!(zero && marks.iter().chain(names.iter()).all(|n| *n == 0), answer[0] != 0);
        answer[0]
    };
    assert_eq!([6, 5].map(|words| number(words, raw::NAMES, a.lent())), [0, 41]);
    assert_eq!(number(6, raw::NAMES - 1, a.lent()), 42);
    let mut bad = a.lent();
    bad.counts[3] = 2;
    assert_eq!(number(6, raw::NAMES, bad), 43);
    assert_eq!(number(6, raw::NAMES - 1, bad), 42);
}

/// What the library answers of a name, and of an address.
fn asked(o: &Object, name: &str, address: u16) -> (Option<Symbol>, Option<String>) {
    o.lend(|lent| {
        let [_, .., found, external, at, _] = raw::lookup_label(lent, name.as_bytes());
        let symbol = if external == 1 { Symbol::External } else { Symbol::Defined(at as u16) };
        let [_, .., is_there, _, start, size] = raw::rev_lookup_label(lent, address.into());
        let bytes = &lent.names[start as usize..(start + size) as usize];
        ((found == 1).then_some(symbol), (is_there == 1).then(|| String::from_utf8(bytes.to_vec()).unwrap()))
    })
}

#[test]
fn lookups_as_the_library_answers() {
    let source = ".external Z\n.orig 0\nB A .fill 1\nLONGER .fill Z\n.end\n.orig x3000\nC .blkw 3\nD .end\n";
    for o in [assemble(source.as_bytes()).unwrap(), assemble(P2).unwrap(), assemble(b"").unwrap()] {
        for name in ["a", "A", "B", "longer", "LONGE", "LONGERR", "Z", "c", "D", "", "F", "é"] {
            for address in [0, 1, 2, 0x3000, 0x3002, 0x3003] {
                let here = (o.lookup_label(name), o.rev_lookup_label(address).map(str::to_string));
                assert_eq!(here, asked(&o, name, address));
            }
        }
    }
}

#[test]
fn objects_are_small() {
    let o = assemble(P1).unwrap();
    let bytes = o.to_bytes();
    assert_eq!(o.lend(|lent| lent.counts), [1, 6, 2, 0]);
    assert!(bytes.len() < 64);
    let wide = assemble(b".orig 0\n.blkw 60000\nA .fill 1\n.end").unwrap();
    assert_eq!((wide.words().len(), wide.lookup_label("A")), (60001, Some(Symbol::Defined(60000))));
}

#[test]
fn places_and_texts() {
    let src = b"A\n\tB\r\nC";
    assert_eq!([0, 1, 2, 3, 5, 6, 7, 99].map(|at| line_column(src, at)), [(1, 1), (1, 2), (2, 1), (2, 2), (2, 4), (3, 1), (3, 2), (3, 2)]);
    assert_eq!(string_text(br#""a\\\"\n\0\x""#), b"a\\\"\n\0\\x");
    let object = assemble(br#".orig 0
        .stringz "q\\\"\t\z"
        .end"#).unwrap();
    let text: Vec<u16> = string_text(br#""q\\\"\t\z""#).into_iter().map(u16::from).chain([0]).collect();
    assert_eq!(object.words(), text);
    assert!(Kind::ALL.iter().all(|kind| Kind::from_number(kind.number()) == Some(*kind)));
    assert_eq!((Kind::from_number(0), Kind::from_number(17)), (None, None));
    for number in 0..=u16::from(u8::MAX) {
        let mut text = [7; 128];
        let size = raw::refusal(number, &mut text)[5] as usize;
        let told = Kind::from_number(number).map_or(format!("REFUSED {number} : "), |kind| format!("REFUSED {kind}"));
        assert_eq!((std::str::from_utf8(&text[..size]), text[size..].iter().any(|b| *b != 0)), (Ok(&*told), false));
        let mut short = [7; 9];
        assert_eq!((raw::refusal(number, &mut short)[5], &short[..]), (9, &told.as_bytes()[..9]));
    }
}

#[test]
fn lexing() {
    let all: Vec<_> = tokens(b"A: add R7, -5 ;c\n.fill \"x\"").map(|t| t.unwrap().0).collect();
    let word = Token::Reserved("ADD");
    let line = [Token::Label, Token::Colon, word, Token::Reg(7), Token::Comma, Token::Signed(-5), Token::NewLine];
    assert_eq!(all, [&line[..], &[Token::Directive, Token::String]].concat());
    assert_eq!(next_token(b" -32768", 0), Ok(Some((Token::Signed(-32768), 1..7))));
    assert_eq!(next_token(b"x10 ", 3), Ok(None));
    assert_eq!(next_token(b"R8", 0).unwrap_err().name(), "InvalidReg");
    assert_eq!(tokens(b"5 $ 6").count(), 2);
}

#[test]
fn disassembly() {
    let shown = |w: u16| disassemble_line(w).to_string();
    assert_eq!([0x1021, 0x5042, 0xC1C0, 0x0FFF].map(shown), ["ADD R0, R0, #1", "AND R0, R1, R2", "RET", "BRnzp #-1"]);
    assert_eq!([0xF021, 0xF0FF, 0x4040].map(shown), ["PUTC", "TRAP xFF", "JSRR R1"]);
    assert_eq!((disassemble_line(0xD000), disassemble_line(0xC800)), (Line::Fill(0xD000), Line::Fill(0xC800)));
}

#[test]
fn stored() {
    let nothing = assemble(b"").unwrap();
    assert_eq!(nothing.to_bytes(), [0, 0, 0]);
    for src in [P1, P2, P3, b".orig 7\n.blkw 9\n.fill 1\n.blkw 2\n.end"] {
        let object = assemble(src).unwrap();
        let bytes = object.to_bytes();
        assert_eq!(Object::from_bytes(&bytes).unwrap(), object);
        for size in 0..bytes.len() {
            assert!(Object::from_bytes(&bytes[..size]).unwrap_err().offset <= size);
        }
        let more = Object::from_bytes(&[&bytes[..], &[0]].concat()).unwrap_err();
        assert_eq!((more.offset, more.wrong), (bytes.len(), "bytes after the end"));
    }
    let linked = linked(P2, P3).unwrap();
    assert_eq!(Object::from_bytes(&linked.to_bytes()).unwrap().list(), P2_P3_LISTING);
}

#[test]
fn stored_refusals() {
    let wrong = |bytes: &[u8]| {
        let refused = Object::from_bytes(bytes).unwrap_err();
        (refused.offset, refused.wrong.split([',', ' ']).take(3).collect::<Vec<_>>().join(" "))
    };
    assert_eq!(wrong(&[]), (0, "the field that".to_string()));
    assert_eq!(wrong(&[0]), (0, "a field that".to_string()));
    assert_eq!(wrong(&[9, 0, 0]), (0, "no field has".to_string()));
    assert_eq!(wrong(&[1, 0, 4, 0, 0, 0, 0]), (0, "a block with".to_string()));
    assert_eq!(wrong(&[1, 0, 4, 0, 0, 0, 1, 3, 0, 2, 0, 2]), (7, "unset words where".to_string()));
    assert_eq!(wrong(&[1, 0, 4, 0, 0, 0, 1, 2, 0, 0]), (7, "set words where".to_string()));
    assert_eq!(wrong(&[5, 0, 1, b'a']), (0, "an external with".to_string()));
    assert_eq!(wrong(&[4, 0, 3, 0, 0, b'a']), (0, "a label with".to_string()));
    assert_eq!(wrong(&[6, 0, 3, 0, 0, b'A']), (0, "a relocation at".to_string()));
    assert_eq!(wrong(&[1, 0, 4, 0, 0, 0, 1, 0, 0, 0]), (7, "the end with".to_string()));
    assert_eq!(wrong(&[0, 0, 0, 0, 0, 0]), (3, "bytes after the".to_string()));
    let refused = Object::from_bytes(&[0]).unwrap_err();
    assert_eq!(refused.to_string(), "REFUSED 50 BadField: the bytes are no stored object from this field on, at 0: a field that is cut short");
}
