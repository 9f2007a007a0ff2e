//! Disassembly of one word.

use crate::raw;
use std::fmt::{Display, Formatter, Result};

/// A register, from 0 to 7.
#[derive(Debug, Clone, Copy, PartialEq, Eq)]
pub struct Reg(pub u8);

/// The last operand of ADD and AND.
#[derive(Debug, Clone, Copy, PartialEq, Eq)]
#[allow(missing_docs)]
pub enum ImmOrReg {
    Imm(i16),
    Reg(Reg),
}

/// An instruction with its operands; offsets and immediates are numbers.
#[derive(Debug, Clone, Copy, PartialEq, Eq)]
#[allow(missing_docs)]
pub enum AsmInstr {
    ADD(Reg, Reg, ImmOrReg),
    AND(Reg, Reg, ImmOrReg),
    /// n, z and p as three bits, then the offset.
    BR(u8, i16),
    JMP(Reg),
    JSR(i16),
    JSRR(Reg),
    LD(Reg, i16),
    LDI(Reg, i16),
    LDR(Reg, Reg, i16),
    LEA(Reg, i16),
    NOT(Reg, Reg),
    RET,
    RTI,
    ST(Reg, i16),
    STI(Reg, i16),
    STR(Reg, Reg, i16),
    TRAP(u8),
    NOP(i16),
    GETC,
    OUT,
    PUTC,
    PUTS,
    IN,
    PUTSP,
    HALT,
}

/// A line of disassembly.
#[derive(Debug, Clone, Copy, PartialEq, Eq)]
pub enum Line {
    /// The instruction that encodes to exactly the word.
    Instr(AsmInstr),
    /// A `.fill` of the word.
    Fill(u16),
}

/// The instruction of a word, or a `.fill` of it.
pub fn disassemble_line(word: u16) -> Line {
    use AsmInstr::*;
    let a = raw::disassemble(word);
    let reg = |i: usize| Reg(a[i] as u8);
    let num = |i: usize| a[i] as u16 as i16;
    let last = || if a[8] < 65536 { ImmOrReg::Reg(reg(8)) } else { ImmOrReg::Imm(num(8)) };
    Line::Instr(match a[5] {
        0 => ADD(reg(6), reg(7), last()),
        1 => AND(reg(6), reg(7), last()),
        2 => BR(a[6] as u8, num(7)),
        3 => JMP(reg(6)),
        4 => JSR(num(6)),
        5 => JSRR(reg(6)),
        6 => LD(reg(6), num(7)),
        7 => LDI(reg(6), num(7)),
        8 => LDR(reg(6), reg(7), num(8)),
        9 => LEA(reg(6), num(7)),
        10 => NOT(reg(6), reg(7)),
        11 => RET,
        12 => RTI,
        13 => ST(reg(6), num(7)),
        14 => STI(reg(6), num(7)),
        15 => STR(reg(6), reg(7), num(8)),
        16 => TRAP(a[6] as u8),
        17 => NOP(num(6)),
        18 => GETC,
        19 => OUT,
        20 => PUTC,
        21 => PUTS,
        22 => IN,
        23 => PUTSP,
        24 => HALT,
        _ => return Line::Fill(word),
    })
}

impl Display for Reg {
    fn fmt(&self, f: &mut Formatter<'_>) -> Result {
        write!(f, "R{}", self.0)
    }
}

impl Display for ImmOrReg {
    fn fmt(&self, f: &mut Formatter<'_>) -> Result {
        match self {
            ImmOrReg::Imm(n) => write!(f, "#{n}"),
            ImmOrReg::Reg(r) => r.fmt(f),
        }
    }
}

impl Display for AsmInstr {
    fn fmt(&self, f: &mut Formatter<'_>) -> Result {
        use AsmInstr::*;
        match self {
            ADD(dr, sr, last) => write!(f, "ADD {dr}, {sr}, {last}"),
            AND(dr, sr, last) => write!(f, "AND {dr}, {sr}, {last}"),
            BR(cc, off) => {
                let flag = |bit, letter| if cc & bit == 0 { "" } else { letter };
                write!(f, "BR{}{}{} #{off}", flag(4, "n"), flag(2, "z"), flag(1, "p"))
            }
            JMP(br) => write!(f, "JMP {br}"),
            JSR(off) => write!(f, "JSR #{off}"),
            JSRR(br) => write!(f, "JSRR {br}"),
            LD(dr, off) => write!(f, "LD {dr}, #{off}"),
            LDI(dr, off) => write!(f, "LDI {dr}, #{off}"),
            LDR(dr, br, off) => write!(f, "LDR {dr}, {br}, #{off}"),
            LEA(dr, off) => write!(f, "LEA {dr}, #{off}"),
            NOT(dr, sr) => write!(f, "NOT {dr}, {sr}"),
            ST(sr, off) => write!(f, "ST {sr}, #{off}"),
            STI(sr, off) => write!(f, "STI {sr}, #{off}"),
            STR(sr, br, off) => write!(f, "STR {sr}, {br}, #{off}"),
            TRAP(vect) => write!(f, "TRAP x{vect:02X}"),
            NOP(off) => write!(f, "NOP #{off}"),
            bare => write!(f, "{bare:?}"),
        }
    }
}

impl Display for Line {
    fn fmt(&self, f: &mut Formatter<'_>) -> Result {
        match self {
            Line::Instr(i) => i.fmt(f),
            Line::Fill(word) => write!(f, ".fill #{word}"),
        }
    }
}
