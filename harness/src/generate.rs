//! Sources of every kind, the same for the same seed: coursework, grammar-random ones (most valid, some nearly), byte-level damage of
//! both, token soups, and some near the capacities.

use crate::crowded::crowded;
use crate::grammar::grammar;
use crate::random::Random;
use crate::spelling::{odd, string};

/// A source of some kind.
pub fn source(r: &mut Random) -> Vec<u8> {
    if r.below(400) == 0 {
        return crowded(r).into_bytes();
    }
    match r.below(20) {
        0 => coursework(r),
        1..=8 => grammar(r).into_bytes(),
        9..=13 => damaged(r),
        _ => soup(r).into_bytes(),
    }
}

/// Routines of coursework; `@` is a number that makes their labels differ.
const ROUTINES: [(&str, &str); 7] = [
    ("MUL", "; R0 = R1 * R2\nMUL@    AND R0, R0, #0\n        ADD R2, R2, #0\n        BRz MULD@\nMULL@   ADD R0, R0, R1\n        ADD R2, R2, #-1\n        BRp MULL@\nMULD@   RET\n"),
    ("STRLEN", "; length of the string at R0, in R1\nSTRLEN@ ST R0, SLR0@\n        ST R2, SLR2@\n        AND R1, R1, #0\nSLLOOP@: LDR R2, R0, #0\n        BRz SLDONE@\n        ADD R1, R1, #1\n        ADD R0, R0, #1\n        BRnzp SLLOOP@\nSLDONE@\n        LD R0, SLR0@\n        LD R2, SLR2@\n        RET\nSLR0@   .blkw 1\nSLR2@   .blkw #1\n"),
    ("PRINT", "; prints the digit in R0\nPRINT@  ST R7, PRR7@    ; R7 is lost in a trap\n        ST R1, PRR1@\n        LD R1, ASCII@\n        ADD R0, R0, R1\n        OUT\n        LD R1, PRR1@\n        LD R7, PRR7@\n        RET\nASCII@  .fill x30\nPRR1@   .fill 0\nPRR7@   .fill 0\n"),
    ("FIB", "; R0 = fib(R0), with a stack in R6\nFIB@    ADD R6, R6, #-3\n        STR R7, R6, #0\n        STR R1, R6, #1\n        STR R0, R6, #2\n        ADD R1, R0, #-2\n        BRn FIBEND@\n        ADD R0, R0, #-1\n        JSR FIB@\n        ADD R1, R0, #0\n        LDR R0, R6, #2\n        ADD R0, R0, #-2\n        JSR FIB@\n        ADD R0, R0, R1\nFIBEND@ LDR R7, R6, #0\n        LDR R1, R6, #1\n        ADD R6, R6, #3\n        RET\n"),
    ("SORT", "; bubble sort of ARR, in place\nSORT@   LD R4, SRTN@\nSRTO@   ADD R4, R4, #-1\n        BRnz SRTE@\n        ADD R5, R4, #0\n        LEA R3, ARR@\nSRTI@   LDR R0, R3, #0\n        LDR R1, R3, #1\n        NOT R2, R1\n        ADD R2, R2, #1\n        ADD R2, R0, R2\n        BRnz SRTS@\n        STR R1, R3, #0\n        STR R0, R3, #1\nSRTS@   ADD R3, R3, #1\n        ADD R5, R5, #-1\n        BRp SRTI@\n        BR SRTO@\nSRTE@   RET\nSRTN@   .fill #8\nARR@    .fill 5\n        .fill x-3\n        .fill #12\n        .fill -7\n        .fill xFFFF\n        .fill 0\n        .fill 100\n        .fill x7F\n"),
    ("ECHO", "; echoes a line\nECHO@   ST R7, ECHR7@\nECHL@   GETC\n        PUTC\n        LD R1, ECHNL@\n        ADD R1, R0, R1\n        BRnp ECHL@\n        LD R7, ECHR7@\n        RET\nECHNL@  .fill #-10\nECHR7@  .blkw 1\n"),
    ("HELLO", "HELLO@  ST R7, HER7@\n        LEA R0, HEMSG@\n        PUTS\n        IN\n        TRAP x21\n        LDI R2, HEPTR@\n        STI R2, HEPTR@\n        LD R7, HER7@\n        RET\nHEMSG@  .stringz \"Hello, \\\"world\\\"!\\n\\tTab \\\\ and \\0 and \\q; not a comment\"\nHEPTR@  .fill HER7@\nHER7@   .blkw 1\n"),
];

fn coursework(r: &mut Random) -> Vec<u8> {
    let mut n = 1;
    while r.chance(80) && n < 40 {
        n += 1;
    }
    routines(r, n)
}

/// A program of so many routines.
pub fn routines(r: &mut Random, n: usize) -> Vec<u8> {
    let calls: Vec<_> = (0..n).map(|_| r.pick(&ROUTINES)).collect();
    let mut out = format!("; Homework {}\n;{}\n.orig x3000\n", r.below(12), "=".repeat(r.below(60)));
    out += "MAIN    LD R6, STACK\n        AND R0, R0, #0  ; clear\n";
    for (i, (name, _)) in calls.iter().enumerate().take(60) {
        match r.chance(50) {
            true => out += &format!("        LD R5, P{name}{i}\n        JSRR R5\n"),
            false => out += &format!("        ADD R{}, R{}, #{}\n", r.below(8), r.below(8), r.between(-16, 15)),
        }
    }
    out += "        HALT\nSTACK   .fill xFDFF\n";
    for (i, (name, _)) in calls.iter().enumerate().take(60) {
        out += &format!("P{name}{i} .fill {name}{i}\n");
    }
    for (i, (_, text)) in calls.iter().enumerate() {
        if i > 0 && n < 60 && r.chance(5) {
            out += &format!(".end\n\n.orig x{:X}\n", 0x3800 + 0x200 * i);
        }
        out += &text.replace('@', &i.to_string());
        out += &"\n".repeat(r.below(2));
    }
    out += ".end\n";
    if r.chance(30) {
        out = out.to_ascii_lowercase();
    }
    if r.chance(20) {
        out = out.replace('\n', "\r\n");
    }
    out.into_bytes()
}

fn damaged(r: &mut Random) -> Vec<u8> {
    let mut text = if r.chance(20) { coursework(r) } else { grammar(r).into_bytes() };
    for _ in 0..r.pick(&[1, 1, 1, 2, 4]) {
        damage(r, &mut text);
    }
    text
}

fn damage(r: &mut Random, text: &mut Vec<u8>) {
    const SPECIAL: &[u8] = b"\r\n\t \"\\;:,.#-xXR_0189$@\x00\x7f\x0b\x0c\x80\xff\xc3";
    let at = r.below(text.len() + 1);
    let to = |n: usize| (at + n).min(text.len());
    match r.below(7) {
        0 => drop(text.splice(at..to(1), [r.pick(SPECIAL)])),
        1 => text.insert(at, r.pick(SPECIAL)),
        2 => drop(text.drain(at..to(r.pick(&[1, 1, 2, 5, 30])))),
        3 => {
            let again = text[at..to(r.below(60) + 1)].to_vec();
            drop(text.splice(at..at, again));
        }
        4 => drop(text.splice(at..to(1), [r.below(128) as u8])),
        5 if r.chance(30) => text.truncate(at),
        _ => {
            let from = r.below(text.len() + 1);
            let other = text[from..(from + r.below(11) + 1).min(text.len())].to_vec();
            drop(text.splice(at..at, other));
        }
    }
}

const FRAMES: [&str; 24] = [
    "%",
    ".fill %",
    ".orig %\n.end",
    ".blkw %",
    "ADD R0, R1, %",
    "AND R0,R0,%",
    "LDR R1, R2, %",
    "STR R1,R2,%",
    "LD R0, %",
    "BR %",
    "JSR %",
    "TRAP %",
    "NOP %",
    "JMP %",
    "% HALT",
    "%: HALT",
    ".stringz %",
    ".external %",
    "NOT R0, %",
    "ADD %, R0, R0",
    "LEA R0 %",
    "ADD R0, R0, R0 %",
    "%\nHALT",
    "HALT\n%",
];

fn soup(r: &mut Random) -> String {
    if r.chance(5) {
        let text = string(r);
        let tail = [r.pick(&["", "\\", "\\\\", "\\\""]), r.pick(&["", "\n", "\r\n", "\r"])].concat();
        return format!(".orig x3000\n.stringz {}{tail}.end", &text[..text.len() - 1]);
    }
    if r.chance(50) {
        let line = r.pick(&FRAMES).replace('%', &odd(r));
        return format!(".orig x3000\n{line}{}\n.end\n", r.pick(&["", "\n", "\r\n"]));
    }
    let mut out = String::new();
    for _ in 0..r.below(24) + 1 {
        match r.below(8) {
            0..=3 => out += &odd(r),
            4 => out += r.pick(&lc3::RESERVED),
            _ => out += r.pick(&["R1", ",", "5", "\n", "\n", "L1", ":", ".fill"]),
        }
        out += r.pick(&["", " ", " ", " ", "\t", "\n", "\r\n", "\r", ","]);
    }
    out
}
