//! The LC-3 assembler, linker and lexer of Pleatspruce, for Rust.
//!
//! Each answer comes from the proved library `liblc3.a`; this crate lends it buffers of full size and gives its numbers names.
//! A user of lc3-ensemble finds the way over, name by name, in `docs/RUST.md` of the repository.
//! Names follow the crate lc3-ensemble where it has the same thing.
//!
//! ```
//! let source = b".orig x3000\nSTART LEA R0, MSG\nPUTS\nHALT\nMSG .stringz \"Hi\"\n.end\n";
//! let object = lc3::assemble(source).unwrap();
//! assert_eq!(object.lookup_label("msg"), Some(lc3::Symbol::Defined(0x3003)));
//! assert_eq!(object.rev_lookup_label(0x3000), Some("START"));
//! assert!(object.list().starts_with("BLOCK 3000 0006\n3000 E002\n"));
//! assert_eq!(lc3::disassemble_line(0xE002).to_string(), "LEA R0, #2");
//!
//! let refusal = lc3::assemble(b"ADD R0, R0, 16").unwrap_err();
//! assert_eq!((refusal.kind, refusal.number(), refusal.spans[0].clone()), (lc3::Kind::OperandRange, 15, 12..14));
//! ```
#![deny(unsafe_code)]
#![warn(missing_docs)]

mod instr;
mod object;
pub mod raw;
mod refusal;
mod stored;
mod tables;
mod token;

pub use instr::{disassemble_line, AsmInstr, ImmOrReg, Line, Reg};
pub use object::{assemble, Block, Object, Symbol};
pub use refusal::{line_column, Kind, Refusal};
pub use stored::BadField;
pub use token::{first_refusal, next_token, string_text, tokens, Token, RESERVED};

/// A part of a source: the bytes from its start to before its end.
pub type Span = std::ops::Range<usize>;
