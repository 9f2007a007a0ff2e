//! Sources that stand fixed: every statement with every kind of token at every operand, the ends of every range, the examples of
//! document 01, and the capacities.

use std::collections::BTreeSet;

/// What an operand may be.
#[derive(Clone, Copy, PartialEq)]
enum Field {
    Reg,
    Imm,
    Off6,
    Off9,
    Off11,
    Trap,
    Word,
    Fill,
    Name,
    Text,
}
use Field::*;

fn rows() -> Vec<(String, &'static [Field])> {
    let mut out: Vec<(String, &'static [Field])> = vec![];
    for (words, fields) in [
        ("ADD AND", &[Reg, Reg, Imm] as &[Field]),
        ("NOT", &[Reg, Reg]),
        ("JMP JSRR", &[Reg]),
        ("JSR", &[Off11]),
        ("LD LDI LEA ST STI", &[Reg, Off9]),
        ("LDR STR", &[Reg, Reg, Off6]),
        ("TRAP", &[Trap]),
        ("NOP BR BRp BRz BRzp BRn BRnp BRnz BRnzp", &[Off9]),
        ("RET RTI GETC OUT PUTC PUTS IN PUTSP HALT .end .what", &[]),
        (".orig .blkw", &[Word]),
        (".fill", &[Fill]),
        (".stringz", &[Text]),
        (".external", &[Name]),
    ] {
        out.extend(words.split(' ').map(|w| (w.to_string(), fields)));
    }
    out
}

fn good(field: Field) -> &'static str {
    match field {
        Reg => "R1",
        Imm => "#-3",
        Off6 => "5",
        Off9 => "L",
        Off11 => "x-5",
        Trap => "x25",
        Word => "7",
        Fill => "F",
        Name => "E",
        Text => "\"s\"",
    }
}

fn range(field: Field) -> Option<(i64, i64)> {
    match field {
        Imm => Some((-16, 15)),
        Off6 => Some((-32, 31)),
        Off9 => Some((-256, 255)),
        Off11 => Some((-1024, 1023)),
        Trap => Some((0, 255)),
        Word => Some((0, 65535)),
        Fill => Some((-32768, 65535)),
        _ => None,
    }
}

const KINDS: [&str; 16] = ["R7", "R0", "12", "-12", "L", "HALT", ".fill", "\"t\"", ":", ",", "\n", "", "R8", "$", "x1G", "0"];

fn joined(word: &str, operands: &[&str]) -> String {
    format!("{word} {}", operands.join(", "))
}

/// Every statement with every kind of token at every operand, and one operand too few or too many.
fn kinds(out: &mut Vec<String>) {
    for (word, fields) in rows() {
        let all: Vec<_> = fields.iter().map(|f| good(*f)).collect();
        out.push(joined(&word, &all));
        out.push(joined(&word, &all) + ", R1");
        out.push(format!("{word} {}", all.join(" ")));
        for i in 0..all.len() {
            out.push(joined(&word, &all[..i]));
            out.push(joined(&word, &all[..i]) + ",");
            for kind in KINDS {
                let mut other = all.clone();
                other[i] = kind;
                out.push(joined(&word, &other));
            }
        }
        out.extend(KINDS.iter().map(|kind| joined(&word, &all) + " " + kind));
    }
}

/// Each number at the ends of each range, in four spellings.
fn ends(out: &mut Vec<String>) {
    for (word, fields) in rows() {
        for (i, field) in fields.iter().enumerate() {
            let Some((low, high)) = range(*field) else { continue };
            for n in [low - 1, low, -1, 0, high, high + 1] {
                let (minus, size) = (if n < 0 { "-" } else { "" }, n.abs());
                for text in
                    [format!("{minus}{size}"), format!("#{minus}{size}"), format!("x{minus}{size:X}"), format!("X{minus}{size:05x}")]
                {
                    let mut all: Vec<_> = fields.iter().map(|f| good(*f)).collect();
                    all[i] = &text;
                    out.push(joined(&word, &all));
                }
            }
        }
    }
}

fn in_block(body: &str, at: &str) -> String {
    format!(".orig {at}\n{body}\n.end\n")
}

/// The marked examples, the examples of tokens, and orders that are easy to get wrong.
const EXAMPLES: [&str; 68] = [
    "",
    "\n",
    "A",
    "A:",
    "A: B",
    "A B HALT",
    "A HALT",
    "HALT",
    ".fill 1",
    ".blkw 0",
    ".external A\n.fill A",
    ".end",
    ".orig 0",
    ".orig 0\n.end",
    ".orig x3000\nSTART LEA R0, MSG\nPUTS\nHALT\nMSG .stringz \"Hi\"\n.end\n",
    ".external F\n.orig x3000\nLD R1, P\nJSRR R1\nHALT\nP .fill F\n.end\n",
    ".orig x4000\nF ADD R0, R0, #1\nRET\n.end\n",
    ".external F\n.orig x3000\nLD R0, F\n.end",
    ".orig x3000\n.fill F\n.end\n.external F",
    ".orig 0\n.orig 1\n.end",
    ".orig 0\n.end\n.end",
    ".orig 0\nA HALT\nA HALT\n.end",
    ".orig 0\nA HALT\na .end\n.end",
    ".orig 0\nA a HALT\n.end",
    ".external A\n.orig 0\nA HALT\n.fill A\n.end",
    ".orig 0\nA .fill A\n.end\n.external A\n.orig 5\n.fill A\n.end",
    ".orig 1\nA HALT\n.end\n.external A",
    ".external A\n.external a",
    ".orig x3000\nLD R0, NOWHERE\n",
    ".orig x3000\nLD R0, NOWHERE\n.end",
    ".orig 5\nHALT\nHALT\n.end\n.orig 6\nHALT\n.end",
    ".orig 6\nHALT\n.end\n.orig 5\nHALT\nHALT\n.end",
    ".orig 6\nHALT\n.end\n.orig 5\nHALT\n.end",
    ".orig 5\n.blkw 3\n.end\n.orig 9\nHALT\n.end\n.orig 5\n.blkw 5\n.end",
    ".orig 0\n.blkw 65024\n.end",
    ".orig 0\n.blkw 65025\n.end",
    ".orig 0\n.blkw 65024\n.end\n.orig 0\nHALT\n.end",
    ".orig xFFFF\n.blkw 0\nA .end",
    ".orig 0\n.blkw 40000\n.end\n.orig 0\n.blkw 40000\nLD R0, NOWHERE\n.end",
    ".orig xFFFF\n.stringz \"\"\n.end",
    ".orig xFDFF\n.stringz \"\"\n.end",
    ".fill -32768",
    ".fill -32769",
    ".fill 65535",
    ".fill 65536",
    "\"a\\",
    ".stringz \"a\\\nHALT",
    ".stringz \"a\\\r\nHALT",
    ".stringz \"a\\\\",
    "x",
    "xyz",
    "x1G",
    "R8",
    "R8x",
    "R007",
    "#",
    "-",
    "x-",
    "##5",
    "-#5",
    "9999g",
    "99999g",
    "; a\rb",
    "A\rB",
    "\r",
    "\n\r",
    "\"a\rb\"",
    "'",
];

/// The same, with labels at the ends of their reach and blocks at the ends of memory.
fn examples(out: &mut Vec<String>) {
    let far = |n: u16| in_block(&format!("LD R0, A\n.blkw {n}\nA .fill 1"), "x3000");
    let near = |n: u16| in_block(&format!("A .fill 1\n.blkw {n}\nLD R0, A"), "x3000");
    let jump = |n: u16| in_block(&format!("JSR A\n.blkw {n}\nA HALT\n.blkw 2\nB HALT"), "x3000");
    out.extend([254, 255, 256].map(far));
    out.extend([253, 254, 255, 256].map(near));
    out.extend([1022, 1023, 1024].map(jump));
    out.extend(EXAMPLES.map(str::to_string));
    for at in ["xFDFE", "xFDFF", "xFE00", "xFFFE", "xFFFF", "0", "65535"] {
        out.extend(["HALT", ".blkw 0", ".blkw 1", ".blkw 2", ".blkw 3", ".stringz \"a\"", "A HALT"].map(|body| in_block(body, at)));
    }
}

/// Names at the limit of their size, in every place.
fn names(out: &mut Vec<String>) {
    for n in [1, 63, 64, 65, 200] {
        let name = "n".repeat(n);
        for text in
            ["% HALT", "LD R0, %", "A %: HALT", ".external %", "%", "JSR % ,", "ADD R0, R0, %", ".%", "% % HALT", ".orig 0\n% BR %\n.end"]
        {
            out.push(text.replace('%', &name));
        }
    }
}

/// Short orders of labels, colons, newlines and statements.
fn orders(out: &mut Vec<String>) {
    for parts in [["A", ":", "\n", "HALT"], ["B", ":", "\r\n", ".end"], [";c\n", ".blkw 0", "A", "\n"]] {
        for size in 0..5_u32 {
            for i in 0..4_usize.pow(size) {
                out.push((0..size).map(|k| parts[i / 4_usize.pow(k) % 4]).collect::<Vec<_>>().join(" "));
            }
        }
    }
}

/// The tables full and one more, in every order with other refusals.
fn capacities(out: &mut Vec<String>) {
    let labels = |n: usize| (0..n).map(|i| format!("L{i}")).collect::<Vec<_>>().join(" ");
    let externals = |n: usize| (0..n).map(|i| format!(".external E{i}\n")).collect::<String>();
    let fills = |n: usize| vec![".fill F"; n].join("\n");
    let tiny = |n: usize| (0..n).map(|i| in_block("HALT", &format!("x{:X}", 0x3000 + 2 * i))).collect::<String>();
    let down = |n: usize| (0..n).rev().map(|i| in_block("HALT\nHALT", &format!("x{:X}", 0x3000 + 2 * i))).collect::<String>();
    for n in [1023, 1024, 1025] {
        out.push(in_block(&(labels(n) + " HALT"), "x3000"));
        out.push(externals(1) + &in_block(&(labels(n - 1) + " HALT"), "x3000"));
        out.push(in_block(&(labels(n - 1) + " HALT"), "x3000") + &externals(1));
        out.push(externals(n));
        out.push(format!(".orig x3000\n{} HALT\n", labels(n)));
        out.push(in_block(&(labels(n) + " HALT"), "xFE00"));
        out.push(".external F\n".to_string() + &in_block(&fills(n), "x3000"));
        out.push(".external F\n".to_string() + &in_block(&fills(n), &format!("x{:X}", 0xFE00 - 1024)));
    }
    out.push(in_block(&(labels(1024) + " L5 HALT\nL7 HALT"), "x3000"));
    out.push(in_block(&("HALT\n".to_string() + &labels(1025) + " HALT"), "xFE00"));
    out.push(in_block(&(labels(1024) + " HALT\n.orig x4000\nA HALT"), "x3000"));
    out.push(".external F\n".to_string() + &in_block(&fills(1024), "x3000") + &in_block(&fills(1), "x3005"));
    out.extend([tiny(63), tiny(64), tiny(65), down(64), down(65)]);
    out.push(tiny(64) + &in_block("", "x9000") + &in_block(".blkw 0", "x9000") + &in_block("HALT", "x9000"));
    out.push(tiny(64) + &in_block("", "x9000") + &in_block(".blkw 0", "xFFFF"));
    out.push(tiny(64) + ".orig x9000\nHALT\nA .end\n");
}

/// Short fixed sources, each once.
pub fn short() -> Vec<Vec<u8>> {
    let mut out = vec![];
    kinds(&mut out);
    ends(&mut out);
    let framed: Vec<_> = out.iter().map(|body| format!(".external F\n.orig x3000\nL HALT\n{body}\n.end\n")).collect();
    out.extend(framed);
    examples(&mut out);
    names(&mut out);
    orders(&mut out);
    let mut seen = BTreeSet::new();
    out.retain(|text| seen.insert(text.clone()));
    let mut out: Vec<_> = out.into_iter().map(String::into_bytes).collect();
    out.extend([&b"A\xC3\xA9"[..], b"\x80", b"HALT\n;\xFF", b"$\x80", b"\"\xE9\""].map(<[u8]>::to_vec));
    out
}

/// Long fixed sources.
pub fn long() -> Vec<Vec<u8>> {
    let mut out = vec![];
    capacities(&mut out);
    out.extend([65535, 65536, 262_143, 262_144, 262_145].map(|n| ";".repeat(n - 1) + "\n"));
    for n in [65533, 65534, 65535] {
        out.push(format!(".stringz \"{}\"", "a".repeat(n)));
        out.push(format!(".stringz \"{}\"", "\\n".repeat(n)));
        out.push(in_block(&format!(".stringz \"{}\"", "a".repeat(n)), "0"));
    }
    out.push(in_block(&format!(".stringz \"{}\"", "a".repeat(65023)), "0"));
    out.push(in_block(&format!(".stringz \"{}\"", "a".repeat(65024)), "0"));
    out.push("HALT\n".repeat(50_000));
    out.push(in_block(&".fill 1\n".repeat(30_000), "0"));
    let mut out: Vec<_> = out.into_iter().map(String::into_bytes).collect();
    out.push([&b"\x80"[..], &b" ".repeat(262_144)].concat());
    out.push([&b" ".repeat(262_143)[..], b"\x80"].concat());
    out
}
