//! The crate's errors by document 01's numbers.

use lc3::{Kind, Refusal, Span};
use lc3_ensemble::asm::{AsmErr, AsmErrKind as K};
use lc3_ensemble::parse::lex::LexErr;
use std::cell::Cell;

/// The refusal of a number of document 01.
pub fn kind(number: u16) -> Kind {
    Kind::from_number(number).expect("a number of document 01")
}

pub fn one(number: u16, first: Span) -> Refusal {
    Refusal { kind: kind(number), spans: [first, 0..0] }
}

pub fn lexical(err: LexErr, span: Span) -> Refusal {
    let number = match err {
        LexErr::DoesNotFitU16 => 1,
        LexErr::DoesNotFitI16 => 2,
        LexErr::InvalidHex => 3,
        LexErr::InvalidNumeric => 4,
        LexErr::InvalidHexEmpty => 5,
        LexErr::InvalidDecEmpty => 6,
        LexErr::UnclosedStrLit => 7,
        LexErr::StrLitTooBig => 8,
        LexErr::InvalidReg => 9,
        LexErr::InvalidSymbol => 10,
        LexErr::UnknownIntErr => panic!("no number for UnknownIntErr"),
    };
    one(number, span)
}

/// The number of an error of the passes and all its spans.
pub fn numbered(e: &AsmErr) -> (u16, Vec<Span>) {
    let number = match e.kind {
        K::UndetAddrLabel => 20,
        K::UndetAddrStmt => 21,
        K::UnclosedOrig => 22,
        K::UnopenedOrig => 23,
        K::OverlappingOrig => 24,
        K::OverlappingLabels => 25,
        K::WrappingBlock => 26,
        K::BlockInIO => 27,
        K::OverlappingBlocks => 28,
        K::OffsetNewErr(_) => 29,
        K::OffsetExternal => 30,
        K::CouldNotFindLabel => 31,
    };
    (number, e.span.iter().cloned().collect())
}

/// The error as a refusal: its first two spans, and of 20 the first.
pub fn asm(e: AsmErr) -> Refusal {
    let (number, spans) = numbered(&e);
    let span = |i: usize| spans.get(i).cloned().unwrap_or(0..0);
    Refusal { kind: kind(number), spans: [span(0), if number == 20 { 0..0 } else { span(1) }] }
}

thread_local! { static SILENT: Cell<bool> = const { Cell::new(false) } }

/// Panics inside `guarded` print nothing.
pub fn quiet() {
    let hook = std::panic::take_hook();
    std::panic::set_hook(Box::new(move |info| {
        if !SILENT.get() {
            hook(info)
        }
    }));
}

/// Runs what may panic; `None` if it did.
pub fn guarded<R>(f: impl FnOnce() -> R) -> Option<R> {
    SILENT.set(true);
    let r = std::panic::catch_unwind(std::panic::AssertUnwindSafe(f)).ok();
    SILENT.set(false);
    r
}
