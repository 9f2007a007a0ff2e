//! Grammar-random sources: blocks of statements whose labels mostly resolve; some have one or two statements written wrong.

use crate::random::Random;
use crate::spelling::{around, case, name, number, string};

/// Labels, and the words of a statement.
type Item = (Vec<String>, Vec<String>);

#[derive(Default)]
struct Source {
    items: Vec<Item>,
    externals: Vec<String>,
    names: Vec<String>,
}

pub fn grammar(r: &mut Random) -> String {
    let mut s = Source::default();
    for _ in 0..r.pick(&[0, 0, 0, 1, 2]) {
        s.externals.push(name(r));
    }
    let mut outside: Vec<Item> = s.externals.iter().map(|e| (vec![], words(&[".external", e]))).collect();
    for (i, start) in starts(r).into_iter().enumerate() {
        let mut block = s.block(r, start);
        match r.below(10) {
            0..=7 if i == 0 => s.items.append(&mut outside),
            8 => drop(block.splice(1..1, outside.drain(..))),
            _ => {}
        }
        s.items.append(&mut block);
    }
    s.items.append(&mut outside);
    for _ in 0..r.pick(&[0, 0, 0, 0, 0, 0, 1, 1, 1, 2]) {
        s.slip(r);
    }
    s.text(r)
}

fn words(all: &[&str]) -> Vec<String> {
    all.iter().map(|w| w.to_string()).collect()
}

fn starts(r: &mut Random) -> Vec<i64> {
    let mut at: i64 = r.pick(&[0, 0x200, 0x3000, 0x3000, 0x3000, 0x8000, 0xFDF0]);
    let mut out = vec![];
    for _ in 0..r.pick(&[0, 1, 1, 1, 2, 3, 5]) {
        out.insert(if r.chance(20) { r.below(out.len() + 1) } else { out.len() }, at.min(0xFFFF));
        at += if r.chance(90) { 0x400 } else { r.pick(&[0x40, 2, 0]) };
    }
    out
}

impl Source {
    fn block(&mut self, r: &mut Random, start: i64) -> Vec<Item> {
        let mut size = r.pick(&[0, 1, 2, 5, 10, 20, 30]);
        if start >= 0xFDC0 {
            size = size.min(0xFE00 - start + r.pick(&[-1, 0, 0, 1])).max(0);
        }
        let mut labels = vec![vec![]; size as usize + 1];
        let mut known = vec![];
        for _ in 0..r.below(size as usize + 1) {
            let n = name(r);
            let taken = self.names.iter().chain(&self.externals).any(|m| m.eq_ignore_ascii_case(&n));
            if !taken || r.chance(2) {
                self.names.push(n.clone());
                known.push(n.clone());
                let at = r.below(labels.len());
                labels[at].push(n);
            }
        }
        let last = labels.pop().unwrap();
        let mut rows = vec![(vec![], words(&[".orig", &number(r, start)]))];
        rows.extend(labels.into_iter().map(|l| (l, self.statement(r, &known))));
        rows.push((last, words(&[".end"])));
        rows
    }

    /// A label operand, mostly one of the block's.
    fn target(&self, r: &mut Random, known: &[String]) -> String {
        let all = if r.chance(97) {
            known
        } else if r.chance(50) {
            &self.names
        } else {
            &self.externals
        };
        match all.len() {
            0 if r.chance(10) => name(r),
            0 => number(r, 0),
            n => {
                let i = r.below(n);
                case(r, &all[i])
            }
        }
    }

    fn offset(&self, r: &mut Random, known: &[String], bits: u32) -> String {
        let half = 1 << (bits - 1);
        let v = around(r, -half, half - 1);
        if r.chance(70) {
            self.target(r, known)
        } else {
            number(r, v)
        }
    }

    fn statement(&self, r: &mut Random, known: &[String]) -> Vec<String> {
        const BARE: [&str; 9] = ["RET", "RTI", "GETC", "OUT", "PUTC", "PUTS", "IN", "PUTSP", "HALT"];
        const BRANCH: [&str; 8] = ["BR", "BRn", "BRz", "BRp", "BRnz", "BRnp", "BRzp", "BRnzp"];
        let reg = |r: &mut Random| format!("{}{}{}", r.pick(&["R", "r"]), r.pick(&["", "", "", "0", "00"]), r.below(8));
        let (a, b, c) = (reg(r), reg(r), reg(r));
        let num = |r: &mut Random, low, high| {
            let v = around(r, low, high);
            number(r, v)
        };
        match r.below(12) {
            0 => words(&[r.pick(&["ADD", "AND"]), &a, ",", &b, ",", &c]),
            1 => words(&[r.pick(&["ADD", "AND"]), &a, ",", &b, ",", &num(r, -16, 15)]),
            2 => words(&["NOT", &a, ",", &b]),
            3 => words(&[r.pick(&BRANCH), &self.offset(r, known, 9)]),
            4 if r.chance(50) => words(&["JSR", &self.offset(r, known, 11)]),
            4 => words(&[r.pick(&["JMP", "JSRR"]), &a]),
            5 => words(&[r.pick(&["LD", "LDI", "LEA", "ST", "STI"]), &a, ",", &self.offset(r, known, 9)]),
            6 => words(&[r.pick(&["LDR", "STR"]), &a, ",", &b, ",", &num(r, -32, 31)]),
            7 => words(&["TRAP", &num(r, 0, 255)]),
            8 => words(&[r.pick(&BARE)]),
            9 if r.chance(50) => words(&["NOP"]),
            9 => words(&["NOP", &self.offset(r, known, 9)]),
            10 if !self.externals.is_empty() && r.chance(50) => words(&[".fill", &case(r, &self.externals[0])]),
            10 if r.chance(30) => words(&[".fill", &self.target(r, known)]),
            10 => words(&[".fill", &num(r, -32768, 65535)]),
            _ if r.chance(50) => words(&[".stringz", &string(r)]),
            _ => words(&[".blkw", &num(r, 0, 12)]),
        }
    }

    /// Spoils one statement.
    fn slip(&mut self, r: &mut Random) {
        const JUNK: [&str; 20] = [
            "R0", "5", "x10", "#-1", ",", ":", "\"s\"", ".fill", "ADD", "FOO", ".end", "x", "\n", "-32768", "65535", "70000", "R9", "$",
            ".nope", ".",
        ];
        const NEAR: [i64; 21] =
            [15, 16, -16, -17, 31, 32, -32, -33, 255, 256, -256, -257, 1023, 1024, -1024, -1025, -1, 32767, 32768, 65535, -32768];
        if self.items.is_empty() {
            self.items.push((vec![], words(&["ADD"])));
        }
        let at = r.below(self.items.len());
        let some = if self.names.is_empty() { "DUP".to_string() } else { self.names[r.below(self.names.len())].clone() };
        let (labels, toks) = &mut self.items[at];
        if toks.is_empty() {
            toks.push("NOP".to_string());
        }
        let i = r.below(toks.len());
        match r.below(14) {
            0 => drop(toks.remove(i)),
            1 => toks.insert(i, r.pick(&JUNK).to_string()),
            2 => toks.push(r.pick(&JUNK).to_string()),
            3 => toks[i] = r.pick(&JUNK).to_string(),
            4 => {
                let v = r.pick(&NEAR);
                *toks.last_mut().unwrap() = number(r, v);
            }
            5 => labels.push(some),
            6 => labels.push("N".repeat(r.pick(&[64, 65, 66, 200]))),
            7 => drop(toks.splice(1.min(toks.len()).., ["N".repeat(r.pick(&[64, 65]))])),
            8 => self.items.insert(at, (vec![], words(&[".orig", "x3000"]))),
            9 => self.items.insert(at, (vec![], words(&[".end"]))),
            10 => drop(self.items.remove(at)),
            11 => *toks = words(&[".blkw", r.pick(&["0", "xFE00", "65535", "-1", "xCE00", "xCE01", "N", "300", "260", "1030"])]),
            12 => *toks = if r.chance(50) { words(&[".external", &some]) } else { words(&["LD", "R0", ",", &some]) },
            _ => *toks = words(&[".fill", r.pick(&["UNKNOWN", "R0", "\"x\"", ",", "65535", "-32768", ".fill"])]),
        }
    }

    fn text(&self, r: &mut Random) -> String {
        let (mut out, style) = (String::new(), r.below(10));
        for (labels, toks) in &self.items {
            while r.chance(10) {
                out += r.pick(&["", " ", "\t"]);
                end_line(r, style, &mut out);
            }
            out += r.pick(&["", "", "  "]);
            for label in labels {
                out += &case(r, label);
                out += r.pick(&["", "", "", ":", " :"]);
                if r.chance(20) {
                    end_line(r, style, &mut out);
                }
                out += r.pick(&[" ", "  ", "\t"]);
            }
            write_statement(r, toks, &mut out);
            end_line(r, style, &mut out);
        }
        match r.chance(10) {
            true => out.trim_end_matches(['\r', '\n']).to_string(),
            false => out,
        }
    }
}

fn write_statement(r: &mut Random, toks: &[String], out: &mut String) {
    for (i, t) in toks.iter().enumerate() {
        match i > 0 && (t == "," || toks[i - 1] == ",") {
            true => *out += r.pick(&["", "", " "]),
            false if i > 0 => *out += r.pick(&[" ", " ", "  ", "\t", " \t "]),
            false => {}
        }
        *out += &if i == 0 { case(r, t) } else { t.clone() };
    }
    *out += r.pick(&["", "", " "]);
}

/// A comment at times, and the end of the line in the source's style: CR LF, both, or LF.
fn end_line(r: &mut Random, style: usize, out: &mut String) {
    if r.chance(20) {
        *out += r.pick(&[";", "; comment", ";;x \"quoted", " ;\r", "\t; , : .orig"]);
    }
    let crlf = style < 2 || (style == 2 && r.chance(50));
    *out += if crlf { "\r\n" } else { "\n" };
}
