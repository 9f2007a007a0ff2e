//! The crate and the library on the same inputs, from one driver, in one run.

use crate::generate::routines;
use crate::lent::{Kept, Six, Sizes};
use crate::random::Random;
use lc3::{raw, Object};
use lc3_ensemble::asm::{assemble_debug, encoding, ObjectFile};
use lc3_ensemble::parse::lex::Token;
use lc3_ensemble::parse::parse_ast;
use logos::Logos;
use std::hint::black_box;
use std::time::{Duration, Instant};

/// Runs of which the best counts.
const RUNS: usize = 15;

/// About 200 KB of coursework in one block, with fewer than 1,000 labels.
fn coursework() -> String {
    let mut r = Random::new(1);
    let mut text = String::new();
    while text.len() < 200_000 {
        let (line, n) = (text.lines().count(), r.below(8));
        text += &match line % 9 {
            0 => format!("LABEL{line}  ADD R{n}, R{n}, R1    ; a comment\n"),
            1 => format!("        AND R{n}, R1, #{n}\n"),
            2 => format!("        LDR R{n}, R2, #-{n}\n"),
            3 => format!("        LD R{n}, LABEL{}\n", line - 3),
            4 => format!("        BRnz LABEL{}\n", line - 4),
            5 => "        .stringz \"some text\"\n".to_string(),
            6 => format!("        .fill x{n}F0{n}     ; another\n"),
            7 => "        HALT\n".to_string(),
            _ => format!("        STR R{n}, R6, x{n}\n"),
        };
    }
    format!(".orig x3000\n{text}.end\n")
}

/// 1,000 labels in no order, each used by the line before.
fn labels() -> String {
    let lines = (0..1000).map(|i| format!("NAME_{:04} LEA R0, NAME_{:04}\n", i * 7 % 1000, (i + 1).min(999) * 7 % 1000));
    format!(".orig x3000\n{}.end\n", lines.collect::<String>())
}

/// A word of so many letters, digits and underscores that is no number, register or reserved word, by its number.
fn word(r: &mut Random, number: usize) -> String {
    let letters = (0..r.between(1, 7)).map(|_| char::from(b'A' + r.below(26) as u8)).collect::<String>();
    format!("_{letters}{number}")
}

/// A statement without labels, of one word.
fn statement(r: &mut Random) -> String {
    let (a, b, c) = (r.below(8), r.below(8), r.below(8));
    match r.below(9) {
        0 => format!("ADD R{a}, R{b}, R{c}"),
        1 => format!("and r{a}, r{b}, #{}", r.between(-16, 15)),
        2 => format!("NOT R{a}, R{b}"),
        3 => format!("LDR R{a}, R{b}, #{}", r.between(-32, 31)),
        4 => format!("str R{a}, R{b}, x{:X}", r.below(32)),
        5 => format!(".fill {}", r.between(-32768, 65535)),
        6 => format!(".FILL x{:04x}", r.below(65536)),
        7 => format!("TRAP x{:02X}", r.below(256)),
        _ => r.pick(&["RET", "PUTS", "halt", "GETC", "JSRR R3", "jmp R2"]).to_string(),
    }
}

/// About 200 KB that does not repeat itself, so that nothing can learn it: statements, spaces and comments as they come, a label at every eighth
/// line or so, which the lines behind it name.
fn varied() -> String {
    let mut r = Random::new(3);
    let (mut text, mut last, mut labels) = (".orig x200\n".to_string(), None, 0);
    while text.len() < 200_000 {
        if labels < 1000 && r.below(8) == 0 {
            labels += 1;
            let name = word(&mut r, labels);
            text += &format!("{name}{}", r.pick(&["", ":", "\n"]));
            last = Some((name, 0));
        }
        text += &" ".repeat(1 + r.below(12));
        text += &match (&mut last, r.below(4)) {
            (Some((name, far)), 0) if *far < 200 => format!("{} {name}", r.pick(&["LD R0,", "BRnz", "LEA R5,", "st r2,", "BR", "JSR"])),
            _ => statement(&mut r),
        };
        if let Some((_, far)) = &mut last {
            *far += 1;
        }
        if r.below(3) == 0 {
            text += &format!("  ; {}", (0..r.below(30)).map(|_| char::from(b' ' + r.below(95) as u8)).collect::<String>());
        }
        text.push('\n');
    }
    text + ".end\n"
}

fn inputs() -> Vec<(String, Vec<Vec<u8>>)> {
    let mut r = Random::new(2);
    let own = [
        ("200 KB of coursework", vec![coursework().into_bytes()]),
        ("200 KB, no repeats", vec![varied().into_bytes()]),
        ("1,000 labels", vec![labels().into_bytes()]),
        ("500 small files", (0..500).map(|_| routines(&mut r, 3)).collect()),
        ("a 64 KB string", vec![format!(".orig 0\n.stringz \"{}\"\n.end\n", "a".repeat(64_000)).into_bytes()]),
        ("30,000 words", vec![format!(".orig 0\n{}.end\n", ".fill 7\n".repeat(30_000)).into_bytes()]),
    ];
    own.into_iter().map(|(name, files)| (name.to_string(), files)).collect()
}

/// A source that the caller names, if it can be read and both take it: what is timed is assembling.
fn named(path: &str) -> Result<(String, Vec<Vec<u8>>), String> {
    let bytes = std::fs::read(path).map_err(|e| format!("{path}: {e}"))?;
    let text = std::str::from_utf8(&bytes).map_err(|e| format!("{path}: {e}"))?;
    lc3::assemble(&bytes).map_err(|refusal| format!("{path}: {refusal}"))?;
    let ast = parse_ast(text).map_err(|e| format!("{path}: the crate does not take it: {e}"))?;
    assemble_debug(ast, text).map_err(|e| format!("{path}: the crate does not take it: {e}"))?;
    Ok((path.rsplit('/').next().unwrap_or(path).to_string(), vec![bytes]))
}

fn timed(f: &mut dyn FnMut()) -> Duration {
    let start = Instant::now();
    f();
    start.elapsed()
}

/// The best times of two, run in turns.
fn best(mut there: impl FnMut(), mut here: impl FnMut()) -> (Duration, Duration) {
    let runs: Vec<_> = (0..RUNS).map(|_| (timed(&mut there), timed(&mut here))).collect();
    (runs.iter().map(|r| r.0).min().unwrap(), runs.iter().map(|r| r.1).min().unwrap())
}

/// Lexer, parser and both passes, without debug symbols; the object keeps its symbols.
fn crates(src: &str) {
    let ast = parse_ast(src).unwrap_or_else(|e| panic!("{e}"));
    let symbols = encoding::pass_one(&ast, None).unwrap_or_else(|e| panic!("{e}"));
    sink(encoding::pass_two(ast, symbols).unwrap_or_else(|e| panic!("{e}")));
}

/// The same with debug symbols.
fn crates_debug(src: &str) {
    let ast = parse_ast(src).unwrap_or_else(|e| panic!("{e}"));
    sink(assemble_debug(ast, src).unwrap_or_else(|e| panic!("{e}")));
}

/// The source behind an unknown directive: the reader of statements stops at once, and the lexer alone goes through the source.
fn lexer_only(src: &[u8]) -> Vec<u8> {
    [b".bad\n", src].concat()
}

/// Keeps a result from being left out.
fn sink<T>(result: T) {
    black_box(result);
}

/// A module of so many names, half of them its own and half the other module's, as many words that wait for these, and so many words in all.
fn module(other: &str, own: &str, at: usize, names: usize, words: usize) -> String {
    let half = names / 2;
    let externals = (0..half).map(|i| format!(".external {other}_{i:03}\n")).collect::<String>();
    let fills = (0..half).map(|i| format!("{own}_{:03} .fill {other}_{i:03}\n.fill {other}_{i:03}\n", i * 7 % half)).collect::<String>();
    format!("{externals}.orig {at}\n{fills}{}.end\n", ".fill 7\n".repeat(words - names))
}

/// Lists of modules to link: two of 500 names, 500 relocations and 15,000 words each, and ten small ones.
fn lists() -> Vec<(&'static str, Vec<String>)> {
    let two = vec![module("B", "A", 0, 500, 15_000), module("A", "B", 20_000, 500, 15_000)];
    let name = |i: usize| ["MA", "MB", "MC", "MD", "ME", "MF", "MG", "MH", "MI", "MJ"][i % 10];
    let ten = (0..10).map(|i| module(name(i + 1), name(i), 0x3000 + 100 * i, 10, 40)).collect();
    vec![("two large modules", two), ("ten small modules", ten)]
}

/// What one list of modules is in both: the crate's objects with debug symbols and without, the library's in buffers and as values.
struct Assembled {
    debug: Vec<ObjectFile>,
    plain: Vec<ObjectFile>,
    kept: Vec<Kept>,
    owned: Vec<Object>,
}

fn assembled(sources: &[String]) -> Assembled {
    let mut six = Six::new();
    let mut kept = |src: &String| {
        let answer = six.assemble(src.as_bytes(), Sizes::FULL);
        six.kept([5, 6, 7, 8].map(|i| answer[i] as usize))
    };
    let plain = |src: &String| {
        let ast = parse_ast(src).unwrap();
        let symbols = encoding::pass_one(&ast, None).unwrap_or_else(|e| panic!("{e}"));
        encoding::pass_two(ast, symbols).unwrap_or_else(|e| panic!("{e}"))
    };
    Assembled {
        debug: sources.iter().map(|src| assemble_debug(parse_ast(src).unwrap(), src).unwrap_or_else(|e| panic!("{e}"))).collect(),
        plain: sources.iter().map(plain).collect(),
        kept: sources.iter().map(&mut kept).collect(),
        owned: sources.iter().map(|src| lc3::assemble(src.as_bytes()).unwrap()).collect(),
    }
}

/// The crate's link of a list, one after another. It takes its objects, so each run has copies of its own, made before.
fn crates_link(copies: &mut Vec<Vec<ObjectFile>>) {
    let list = copies.pop().expect("a copy for each run");
    sink(list.into_iter().reduce(|a, b| ObjectFile::link(a, b).unwrap_or_else(|e| panic!("{e}"))));
}

/// The same in buffers that are lent again and again, as many words as the list has together.
fn lent_link(list: &[Kept], buffers: &mut [Six; 2]) {
    let words: usize = list.iter().map(|o| o.counts[1]).sum();
    let sizes = Sizes { words, marks: words, ..Sizes::FULL };
    let [from, to] = buffers;
    let answer = from.link_clean(list[0].lent(), list[1].lent(), sizes);
    let mut counts = [5, 6, 7, 8].map(|i| answer[i] as usize);
    for next in &list[2..] {
        let answer = to.link_clean(from.lent(counts, sizes), next.lent(), sizes);
        counts = [5, 6, 7, 8].map(|i| answer[i] as usize);
        std::mem::swap(from, to);
    }
    sink(counts);
}

fn bench_links() {
    let mut buffers = [Six::new(), Six::new()];
    for (name, sources) in lists() {
        let all = assembled(&sources);
        let bytes: usize = sources.iter().map(String::len).sum();
        let show = |what: &str, times| show(name, bytes, what, times);
        let mut copies = vec![all.debug.clone(); RUNS];
        show("link, debug symbols there", best(|| crates_link(&mut copies), || lent_link(&all.kept, &mut buffers)));
        let mut copies = vec![all.plain.clone(); RUNS];
        show("link, buffers lent once", best(|| crates_link(&mut copies), || lent_link(&all.kept, &mut buffers)));
        let mut copies = vec![all.plain.clone(); RUNS];
        let owned = || sink(Object::link_all(&all.owned).unwrap());
        show("link, buffers made each time", best(|| crates_link(&mut copies), owned));
    }
}

/// 30,000 words with 1,000 labels, of which 100 are external, each with a word that waits for it.
fn large() -> String {
    let externals = (0..100).map(|i| format!(".external OUT_{i:03}\n")).collect::<String>();
    let fills = (0..900).map(|i| format!("NAME_{i:03} .fill {}\n", if i < 100 { format!("OUT_{i:03}") } else { i.to_string() })).collect::<String>();
    format!("{externals}.orig x1000\n{fills}{}.end\n", ".fill 7\n".repeat(29_100))
}

/// 20,000 words that are set and unset by turns: a stored field for each.
fn alternating() -> String {
    format!(".orig x1000\n{}.end\n", ".fill 7\n.blkw 1\n".repeat(10_000))
}

/// Storing, checking and loading beside copying the same bytes: megabytes a second, and how many times as long it takes.
fn bench_stored() {
    println!("{:<22} {:>8} {:<34} {:>10} {:>10} {:>6}", "input", "bytes", "what", "copy MB/s", "here MB/s", "times");
    let mut six = Six::new();
    for (name, source) in [("30,000 words", large()), ("short runs", alternating())] {
        let answer = six.assemble(source.as_bytes(), Sizes::FULL);
        let kept = six.kept([5, 6, 7, 8].map(|i| answer[i] as usize));
        let object = lc3::assemble(source.as_bytes()).unwrap();
        let bytes = object.to_bytes();
        let (mut stored, mut copied) = (vec![0; bytes.len()], vec![0; bytes.len()]);
        let words = kept.counts[1];
        let sizes = Sizes { words, marks: words, ..Sizes::FULL };
        let copy = |to: &mut Vec<u8>| black_box(to).copy_from_slice(black_box(&bytes));
        show_speed(name, bytes.len(), "store", best(|| copy(&mut copied), || sink(lc3::raw::store(kept.lent(), &mut stored))));
        show_speed(name, bytes.len(), "check", best(|| copy(&mut copied), || sink(lc3::raw::check(&bytes))));
        show_speed(name, bytes.len(), "load", best(|| copy(&mut copied), || sink(six.load_clean(&bytes, sizes))));
        assert_eq!(stored, bytes);
        let listing = object.list().into_bytes();
        let (mut text, mut copied) = (vec![0; listing.len()], vec![0; listing.len()]);
        let copy = |to: &mut Vec<u8>| black_box(to).copy_from_slice(black_box(&listing));
        show_speed(name, listing.len(), "list", best(|| copy(&mut copied), || sink(lc3::raw::list(kept.lent(), &mut text))));
        assert_eq!(text, listing);
    }
}

/// What no assembler could do without: the source copied once, and buffers of full size cleared for each file.
fn show_floor(name: &str, files: &[Vec<u8>]) {
    let bytes: usize = files.iter().map(Vec::len).sum();
    let mut copied = vec![0; files.iter().map(Vec::len).max().unwrap_or(0)];
    let copy = || files.iter().for_each(|f| black_box(&mut copied)[..f.len()].copy_from_slice(black_box(f)));
    let mut cleared = vec![0u8; 2 * raw::BLOCKS + 3 * raw::WORDS + 4 * raw::LABELS + 4 * raw::RELOCATIONS + raw::NAMES];
    let clear = || files.iter().for_each(|_| black_box(&mut cleared).fill(0));
    let (copying, clearing) = best(copy, clear);
    let (a, b) = (copying.as_secs_f64() * 1e3, clearing.as_secs_f64() * 1e3);
    println!("{name:<22} {bytes:>8} {:<34} {:>10} {:>10.3}", "floor: the source copied", "", a);
    println!("{name:<22} {bytes:>8} {:<34} {:>10} {:>10.3}", "floor: the buffers cleared", "", b);
}

fn show_speed(name: &str, bytes: usize, what: &str, (copy, here): (Duration, Duration)) {
    let speed = |time: Duration| bytes as f64 / time.as_secs_f64() / 1e6;
    let times = here.as_secs_f64() / copy.as_secs_f64();
    println!("{name:<22} {bytes:>8} {what:<34} {:>10.0} {:>10.0} {times:>6.2}", speed(copy), speed(here));
}

fn show(name: &str, bytes: usize, what: &str, (there, here): (Duration, Duration)) {
    let (a, b) = (there.as_secs_f64() * 1e3, here.as_secs_f64() * 1e3);
    println!("{name:<22} {bytes:>8} {what:<34} {a:>10.3} {b:>10.3} {:>6.2}", a / b);
}

/// The library's own inputs and links, or the sources named, if they can be timed.
pub fn bench(paths: &[String]) -> Result<(), String> {
    let inputs = if paths.is_empty() { inputs() } else { paths.iter().map(|path| named(path)).collect::<Result<_, _>>()? };
    println!("best of {RUNS}; a ratio above 1: the library is faster. The crate's lexer stands on a stand-in for logos.");
    println!("{:<22} {:>8} {:<34} {:>10} {:>10} {:>6}", "input", "bytes", "what", "crate ms", "here ms", "ratio");
    let mut six = Six::new();
    for (name, files) in inputs {
        let bytes: usize = files.iter().map(Vec::len).sum();
        let texts: Vec<&str> = files.iter().map(|f| std::str::from_utf8(f).unwrap()).collect();
        let show = |what: &str, times| show(&name, bytes, what, times);
        let lexed = || texts.iter().for_each(|t| sink(Token::lexer(t).spanned().count()));
        let alone: Vec<Vec<u8>> = files.iter().map(|f| lexer_only(f)).collect();
        show("lexer alone", best(lexed, || alone.iter().for_each(|f| sink(lc3::first_refusal(f)))));
        show("tokens, a call for each", best(lexed, || files.iter().for_each(|f| sink(lc3::tokens(f).count()))));
        let parsed = || texts.iter().for_each(|t| sink(parse_ast(t)));
        show("statements; first_refusal", best(parsed, || files.iter().for_each(|f| sink(lc3::first_refusal(f)))));
        let whole = || texts.iter().for_each(|t| crates(t));
        let lent = || files.iter().for_each(|f| sink(six.assemble_clean(f, Sizes::FULL)));
        let debug = || texts.iter().for_each(|t| crates_debug(t));
        show("assemble; assemble_debug there", best(debug, lent));
        let lent = || files.iter().for_each(|f| sink(six.assemble_clean(f, Sizes::FULL)));
        show("assemble, buffers lent once", best(whole, lent));
        let owned = || files.iter().for_each(|f| sink(lc3::assemble(f).unwrap()));
        show("assemble, buffers made each time", best(whole, owned));
        show_floor(&name, &files);
    }
    if paths.is_empty() {
        bench_links();
        bench_stored();
    }
    Ok(())
}
