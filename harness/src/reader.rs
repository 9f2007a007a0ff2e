//! Tokens by the crate's lexer, and document 01's statement reader, written from the paper.

use crate::refusal::{guarded, lexical, one};
use lc3::Refusal;
use lc3_ensemble::ast::asm::{AsmInstr, Directive, Stmt, StmtKind};
use lc3_ensemble::ast::{ImmOrReg, Label, Offset, PCOffset, Reg};
use lc3_ensemble::parse::lex::{Ident, Token};
use logos::{Logos, Span};

/// The tokens up to the first lexical refusal, comments included.
pub fn tokens(src: &str) -> (Vec<(Token, Span)>, Option<Refusal>) {
    let mut lx = Token::lexer(src);
    let mut out = vec![];
    let ended = guarded(|| loop {
        match lx.next() {
            None => break None,
            Some(Ok(t)) => out.push((t, lx.span())),
            Some(Err(e)) => break Some(lexical(e, lx.span())),
        }
    });
    let refusal = ended.unwrap_or_else(|| {
        // The crate stops here; 01 says 7, from the quote to the end of the line.
        let start = lx.span().start;
        let line = src[start..].lines().next().unwrap();
        assert!(line.starts_with('"') && line.ends_with('\\'), "the lexer stopped for an unknown reason");
        Some(one(7, start..start + line.len()))
    });
    (out, refusal)
}

/// Reads all statements. `toks` has no comments; `end` is the length of the source.
pub fn statements(toks: &[(Token, Span)], end: usize) -> Result<Vec<Stmt>, Refusal> {
    let mut r = Reader { toks, at: 0, end };
    std::iter::from_fn(|| r.statement().transpose()).collect()
}

struct Reader<'a> {
    toks: &'a [(Token, Span)],
    at: usize,
    end: usize,
}
type Read<T> = Result<T, Refusal>;

impl Reader<'_> {
    fn peek(&self) -> Option<&Token> {
        self.toks.get(self.at).map(|(t, _)| t)
    }
    fn span(&self) -> Span {
        self.toks.get(self.at).map_or(self.end..self.end, |(_, s)| s.clone())
    }
    fn refuse<T>(&self, no: u16) -> Read<T> {
        Err(one(no, self.span()))
    }

    fn statement(&mut self) -> Read<Option<Stmt>> {
        let mut labels = vec![];
        loop {
            match self.peek() {
                Some(Token::NewLine) => self.at += 1,
                Some(Token::Ident(Ident::Label(_))) => {
                    labels.push(self.label()?);
                    if self.peek() == Some(&Token::Colon) {
                        self.at += 1;
                    }
                }
                None if labels.is_empty() => return Ok(None),
                _ => break,
            }
        }
        let start = self.span().start;
        let nucleus = match self.peek() {
            Some(Token::Ident(id)) => StmtKind::Instr(self.instruction(id.clone())?),
            Some(Token::Directive(d)) => StmtKind::Directive(self.directive(d.to_ascii_lowercase())?),
            _ => return self.refuse(13),
        };
        let span = start..self.toks[self.at - 1].1.end;
        match self.peek() {
            None => {}
            Some(Token::NewLine) => self.at += 1,
            _ => return self.refuse(13),
        }
        Ok(Some(Stmt { labels, nucleus, span }))
    }

    fn instruction(&mut self, id: Ident) -> Read<AsmInstr> {
        use AsmInstr as A;
        self.at += 1;
        Ok(match id {
            Ident::ADD => A::ADD(self.reg()?, self.next_reg()?, self.next_reg_or_imm()?),
            Ident::AND => A::AND(self.reg()?, self.next_reg()?, self.next_reg_or_imm()?),
            Ident::NOT => A::NOT(self.reg()?, self.next_reg()?),
            Ident::BR | Ident::BRNZP => A::BR(7, self.pc_offset()?),
            Ident::BRN => A::BR(4, self.pc_offset()?),
            Ident::BRZ => A::BR(2, self.pc_offset()?),
            Ident::BRP => A::BR(1, self.pc_offset()?),
            Ident::BRNZ => A::BR(6, self.pc_offset()?),
            Ident::BRNP => A::BR(5, self.pc_offset()?),
            Ident::BRZP => A::BR(3, self.pc_offset()?),
            Ident::JMP => A::JMP(self.reg()?),
            Ident::JSR => A::JSR(self.pc_offset()?),
            Ident::JSRR => A::JSRR(self.reg()?),
            Ident::LD => A::LD(self.reg()?, self.next_pc_offset()?),
            Ident::LDI => A::LDI(self.reg()?, self.next_pc_offset()?),
            Ident::LEA => A::LEA(self.reg()?, self.next_pc_offset()?),
            Ident::ST => A::ST(self.reg()?, self.next_pc_offset()?),
            Ident::STI => A::STI(self.reg()?, self.next_pc_offset()?),
            Ident::LDR => A::LDR(self.reg()?, self.next_reg()?, self.next_offset()?),
            Ident::STR => A::STR(self.reg()?, self.next_reg()?, self.next_offset()?),
            Ident::TRAP => A::TRAP(Offset::new(self.number(0, 255)? as u16).unwrap()),
            Ident::NOP => A::NOP(self.nop_offset()?),
            Ident::RET => A::RET,
            Ident::RTI => A::RTI,
            Ident::GETC => A::GETC,
            Ident::OUT => A::OUT,
            Ident::PUTC => A::PUTC,
            Ident::PUTS => A::PUTS,
            Ident::IN => A::IN,
            Ident::PUTSP => A::PUTSP,
            Ident::HALT => A::HALT,
            Ident::Label(_) => unreachable!("taken as a label"),
        })
    }

    /// NOP's operand may be left out; a wrong token there is 13 at the statement's end.
    fn nop_offset(&mut self) -> Read<PCOffset<i16, 9>> {
        match self.peek() {
            Some(Token::Unsigned(_) | Token::Signed(_) | Token::Ident(Ident::Label(_))) => self.pc_offset(),
            _ => Ok(PCOffset::Offset(Offset::new(0).unwrap())),
        }
    }

    fn directive(&mut self, name: String) -> Read<Directive> {
        use Directive as D;
        if !["orig", "fill", "blkw", "stringz", "end", "external"].contains(&&*name) {
            return self.refuse(13);
        }
        self.at += 1;
        Ok(match &*name {
            "orig" => D::Orig(Offset::new(self.number(0, 65535)? as u16).unwrap()),
            "blkw" => D::Blkw(Offset::new(self.number(0, 65535)? as u16).unwrap()),
            "fill" => D::Fill(match self.peek() {
                Some(Token::Ident(Ident::Label(_))) => PCOffset::Label(self.label()?),
                _ => PCOffset::Offset(Offset::new(self.number(-32768, 65535)? as u16).unwrap()),
            }),
            "stringz" => match self.peek() {
                Some(Token::String(s)) => {
                    let s = s.clone();
                    self.at += 1;
                    D::Stringz(s)
                }
                _ => return self.refuse(14),
            },
            "end" => D::End,
            _ => D::External(self.label()?),
        })
    }

    fn label(&mut self) -> Read<Label> {
        match self.peek() {
            Some(Token::Ident(Ident::Label(s))) if s.len() > 64 => self.refuse(16),
            Some(Token::Ident(Ident::Label(s))) => {
                let label = Label::new(s.clone(), self.span());
                self.at += 1;
                Ok(label)
            }
            _ => self.refuse(14),
        }
    }
    fn number(&mut self, low: i32, high: i32) -> Read<i32> {
        let n = match self.peek() {
            Some(&Token::Unsigned(n)) => i32::from(n),
            Some(&Token::Signed(n)) => i32::from(n),
            _ => return self.refuse(14),
        };
        if n < low || high < n {
            return self.refuse(15);
        }
        self.at += 1;
        Ok(n)
    }
    fn reg(&mut self) -> Read<Reg> {
        match self.peek() {
            Some(&Token::Reg(n)) => {
                self.at += 1;
                Ok(Reg::try_from(n).unwrap())
            }
            _ => self.refuse(14),
        }
    }
    fn offset<const N: u32>(&mut self) -> Read<Offset<i16, N>> {
        let half = 1 << (N - 1);
        Ok(Offset::new(self.number(-half, half - 1)? as i16).unwrap())
    }
    fn pc_offset<const N: u32>(&mut self) -> Read<PCOffset<i16, N>> {
        match self.peek() {
            Some(Token::Ident(Ident::Label(_))) => Ok(PCOffset::Label(self.label()?)),
            _ => Ok(PCOffset::Offset(self.offset()?)),
        }
    }
    fn comma(&mut self) -> Read<()> {
        match self.peek() {
            Some(Token::Comma) => {
                self.at += 1;
                Ok(())
            }
            _ => self.refuse(13),
        }
    }
    fn next_reg(&mut self) -> Read<Reg> {
        self.comma()?;
        self.reg()
    }
    fn next_reg_or_imm(&mut self) -> Read<ImmOrReg<5>> {
        self.comma()?;
        match self.peek() {
            Some(Token::Reg(_)) => Ok(ImmOrReg::Reg(self.reg()?)),
            _ => Ok(ImmOrReg::Imm(self.offset()?)),
        }
    }
    fn next_offset<const N: u32>(&mut self) -> Read<Offset<i16, N>> {
        self.comma()?;
        self.offset()
    }
    fn next_pc_offset<const N: u32>(&mut self) -> Read<PCOffset<i16, N>> {
        self.comma()?;
        self.pc_offset()
    }
}
