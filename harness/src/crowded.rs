//! Sources near the capacities: names, relocations, blocks and words about as many as an object may have.

use crate::random::Random;
use crate::spelling::case;

pub fn crowded(r: &mut Random) -> String {
    match r.below(4) {
        0 => names(r),
        1 => relocations(r),
        2 => blocks(r),
        _ => words(r),
    }
}

fn some(r: &mut Random) -> usize {
    1024 + r.below(9) - 4
}

/// About 1,024 names, some of them external, some twice.
fn names(r: &mut Random) -> String {
    let (mut out, mut open) = (String::new(), false);
    let prefix = case(r, "Name_");
    for i in 0..some(r) {
        let name = format!("{prefix}{}", i * 389 % 1031);
        match r.below(40) {
            0 => out += &format!("{}.external {name}\n", if open && r.chance(50) { "HALT\n" } else { "" }),
            1 if open => {
                out += &format!("{name} .end\n");
                open = false;
            }
            _ => {
                if !open {
                    out += &format!(".orig x{:X}\n", 0x3000 + 2 * i);
                    open = true;
                }
                out += &format!("{name}{}", r.pick(&[" ", ": ", "\n", " HALT\n", " .blkw 0\n", " .fill 7\n"]));
            }
        }
    }
    out + if open { "HALT\n.end\n" } else { "" } + r.pick(&["", ".external LAST\n", ".orig 5\nLAST HALT\n.end\n"])
}

/// About 1,024 words that wait for an external, in blocks that may overlap.
fn relocations(r: &mut Random) -> String {
    let (n, mut at) = (some(r), 0x3000);
    let mut out = ".external F\n.external G\n".to_string();
    let mut left = n;
    while left > 0 {
        let here = left.min(r.below(900) + 1);
        out += &format!(".orig x{at:X}\n");
        (0..here).for_each(|_| out += r.pick(&[".fill F\n", ".fill g\n"]));
        out += ".end\n";
        left -= here;
        at += if r.chance(90) { here } else { here - 1 };
    }
    out
}

/// About 64 blocks, in some order, some of them empty or overlapping.
fn blocks(r: &mut Random) -> String {
    let n = 64 + r.below(5) - 2;
    let mut starts: Vec<usize> = (0..n).map(|i| 0x3000 + 4 * i).collect();
    match r.below(3) {
        0 => starts.reverse(),
        1 => (0..n).for_each(|i| starts.swap(i, r.below(n))),
        _ => {}
    }
    let body = |r: &mut Random| match r.below(60) {
        0 => "",
        1 => ".blkw 0\n",
        2 => ".blkw 5\n",
        _ => r.pick(&["HALT\n", ".blkw 4\n", "RET\nRET\n", ".stringz \"abc\"\n"]),
    };
    starts.into_iter().map(|at| format!(".orig x{at:X}\n{}.end\n", body(r))).collect()
}

/// Blocks of about 65,024 words together, which may overlap.
fn words(r: &mut Random) -> String {
    let (mut out, mut left) = (String::new(), 65_024 + r.below(5) - 2);
    let mut at = 0;
    while left > 0 {
        let here = left.min(r.below(40_000) + 1);
        out += &format!(".orig {at}\n{}.blkw {}\n.end\n", r.pick(&["", "HALT\n", ".fill NOWHERE\n"]), here);
        left -= here;
        at = if r.chance(60) { (at + here) % 65_000 } else { 0 };
    }
    out
}
