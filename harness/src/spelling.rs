//! Ways to write numbers, names and strings.

use crate::random::Random;

/// Some way to write a number.
pub fn number(r: &mut Random, v: i64) -> String {
    let zeros = "0".repeat(r.pick(&[0, 0, 0, 1, 4]));
    let minus = if v < 0 || (v == 0 && r.chance(10)) { "-" } else { "" };
    let size = v.abs();
    match r.below(5) {
        0 | 1 => format!("{minus}{zeros}{size}"),
        2 => format!("#{minus}{zeros}{size}"),
        3 => format!("x{minus}{zeros}{size:x}"),
        _ => format!("X{minus}{zeros}{size:X}"),
    }
}

/// A number of a range, often one of its ends.
pub fn around(r: &mut Random, low: i64, high: i64) -> i64 {
    let inside = r.between(low, high);
    r.pick(&[low, high, 0.clamp(low, high), inside, inside])
}

/// The word in some case of letters.
pub fn case(r: &mut Random, s: &str) -> String {
    match r.below(5) {
        0 | 1 => s.to_string(),
        2 => s.to_ascii_lowercase(),
        3 => s.to_ascii_uppercase(),
        _ => s.chars().map(|c| if r.chance(50) { c.to_ascii_lowercase() } else { c.to_ascii_uppercase() }).collect(),
    }
}

fn is_name(w: &str) -> bool {
    let b = w.as_bytes();
    let hex = b"xX".contains(&b[0]) && b.len() > 1 && b[1].is_ascii_hexdigit();
    let reg = b"rR".contains(&b[0]) && b.len() > 1 && b[1..].iter().all(u8::is_ascii_digit);
    !hex && !reg && !lc3::RESERVED.contains(&&*w.to_ascii_uppercase())
}

/// A name that is one label token and no reserved word.
pub fn name(r: &mut Random) -> String {
    loop {
        let mut w = r.pick(&["L", "_", "r", "R", "x", "Xy", "ADD", "BRx", "R8", "x_", "X", "LOOP", "z"]).to_string();
        for _ in 0..r.pick(&[0, 1, 2, 3, 5, 8, 20, 62]) {
            w.push(r.pick(b"ABCabcxyzXR_0189") as char);
        }
        w.truncate(64);
        if is_name(&w) {
            return w;
        }
    }
}

pub fn string(r: &mut Random) -> String {
    const PARTS: [&str; 20] =
        ["a", "Z", " ", ";", ",", ":", ".end", "\\n", "\\r", "\\t", "\\\\", "\\0", "\\\"", "\\q", "\\;", "\t", "'", "#", "~", "\r"];
    let n = r.pick(&[0, 1, 2, 5, 12, 40]);
    format!("\"{}\"", (0..n).map(|_| r.pick(&PARTS)).collect::<String>())
}

/// Tokens that are odd in some way.
const ODD: &str = "x X x- X- x-g xg x1g x1G xyz x_ x1_ xFFFF x10000 xFFFFg xFFFg x0000000FFFF x-8000 x-8001 x-7FFF x-0 x--1 x#1 \
    # #- #-- ## ##5 ##-5 #-#5 -#5 -## -#-5 - -- -5 -05 -x5 #x5 #_ #a #5a #-5a -5a -_ -g 9999g 99999g 9999999g 65535g 65536g 6553g \
    -32768 -32769 -32768g -3276g -32769g -9999g -99999g 0 00 007 5_ 5a 0x10 0b1 1x1 \
    R0 R7 R8 R007 R0000000000007 R256 R264 R99999999999 R R_ R8x R8_ r3 r07 r1a Rx R-1 R#1 R7. \
    . .. .orig .ORIG .Orig .orig1 .end .fill .stringz .blkw .external .extern .5 ._ .x3000 \
    ADD add aDd ADDR AD ADD1 BRnzp brnpz BRNZP BR BRx NOP nop HALT HALTS PUTSP IN INN OUT x3000 X3000 xFACE face \
    \"\" \"a\" \"\\n\" \"\\q\" \"\\\\\" \"\\\"\" \"a\\\" \"a \"\\ \"\\\\\\\" : :: , ,, ; ;x ;\" $ @ ! ' ( + / = ? [ \\ ] ^ ` { | } ~ % & * < >";

/// Sizes at the edges of what fits.
#[rustfmt::skip]
const EDGES: [u128; 33] = [
    0, 1, 7, 8, 9, 15, 16, 17, 31, 32, 33, 255, 256, 257, 999, 1000, 1023, 1024, 1025, 4095, 9999, 10000, 32767, 32768, 32769,
    65534, 65535, 65536, 65537, 99999, 100_000, 1 << 31, 100_000_000_000_000_000_000,
];

/// A token that is odd in some way, or a number at an edge.
pub fn odd(r: &mut Random) -> String {
    if r.chance(55) {
        let all: Vec<&str> = ODD.split(' ').filter(|w| !w.is_empty()).collect();
        return r.pick(&all).to_string();
    }
    let v = r.pick(&EDGES).saturating_add(r.pick(&[0, 0, 1])).saturating_sub(r.pick(&[0, 0, 1]));
    let prefix = r.pick(&["", "#", "-", "#-", "x", "X", "x-", "X-"]);
    let zeros = "0".repeat(r.pick(&[0, 0, 0, 1, 3, 7]));
    let tail = r.pick(&["", "", "", "", "g", "_", "F", "9"]);
    let digits = if prefix.to_ascii_lowercase().starts_with('x') { format!("{v:x}") } else { v.to_string() };
    format!("{prefix}{zeros}{digits}{tail}")
}
