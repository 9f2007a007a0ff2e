//! Sets of modules to link, the same for the same seed: they call each other, leave names open, define one twice, and touch or share addresses.

use crate::random::Random;
use crate::spelling::case;
use std::collections::BTreeMap;

/// The first address that no block has.
const END: u16 = 0xFE00;
/// How often in a hundred a set goes wrong somewhere, so that it may be refused.
const WRONG: usize = 30;

/// What the modules of a set agree on.
struct Plan {
    names: Vec<String>,
    /// The module that defines each name, if any does.
    homes: Vec<Option<usize>>,
    /// Where names are defined so far.
    defined: BTreeMap<usize, u16>,
    /// The first address behind all blocks so far.
    free: u16,
    /// Whether a block may share an address with another, and a name may be defined at two.
    wrong: bool,
}

/// Sets that are always tried: document 01's marked examples, what is easy to get wrong, and the capacities, met and missed by one.
pub fn fixed() -> Vec<Vec<String>> {
    const P2: &str = ".external F\n.orig x3000\nLD R1, P\nJSRR R1\nHALT\nP .fill F\n.end\n";
    const P3: &str = ".orig x4000\nF ADD R0, R0, #1\nRET\n.end\n";
    const OPEN: &str = ".external F\n.orig 9\n.fill F\n.end\n";
    let lines = |n: usize, line: fn(usize) -> String| (0..n).map(line).collect::<String>();
    let blocks = |n: usize| lines(n, |i| format!(".orig {}\nRET\n.end\n", 2 * i));
    let names = |n: usize| format!(".orig 999\n{}.end\n", lines(n, |i| format!("N{i}\n")));
    let waiting = |n: usize| format!(".external F\n.orig x5000\n{}.end\n", ".fill F\n".repeat(n));
    let words = |at: usize, n: usize| format!(".orig {at}\n.blkw {n}\n.end\n");
    let sets: [&[&str]; 26] = [
        &[&words(0, 32_512), &words(32_512, 32_512)],
        &[&words(0, 32_513), &words(32_512, 32_512)],
        &[&blocks(63), P3],
        &[&blocks(64), P3],
        &[&blocks(64), ""],
        &[&names(1022), P2],
        &[&names(1023), P2],
        &[&waiting(1023), OPEN],
        &[&waiting(1024), OPEN, P3],
        &[P2, P3],
        &[P3, P3],
        &[P2, P3, OPEN],
        &["", ""],
        &["", P2],
        &[P2, OPEN],
        &[P2, ".orig 0\nF .end\n"],
        &[P2, ".orig 0\nF .end\n", ".orig 0\nf .end\n"],
        &[P3, ".orig x4000\nF .end\n"],
        &[P3, ".orig x4001\nF .end\n"],
        &[".orig 0\nA .end\n", ".orig 1\nA .end\n"],
        &[".orig 0\nA HALT\n.end\n", ".orig 1\nA HALT\n.end\n"],
        &[".orig 7\nC A B .end\n", ".orig 8\nB C .end\n"],
        &[".external A\n.orig 7\nC B .end\n", ".orig 8\nA B C .end\n"],
        &[".orig 5\n.blkw 2\n.end\n", ".orig 7\n.blkw 2\n.end\n", ".orig 3\n.blkw 2\n.end\n"],
        &[".orig 5\n.blkw 2\n.end\n", ".orig 6\n.blkw 1\n.end\n", ".orig 4\n.blkw 2\n.end\n"],
        &[".orig 5\n.blkw 9\n.end\n", ".orig 7\nHALT\n.end\n"],
    ];
    sets.map(|set| set.iter().map(|src| src.to_string()).collect()).into()
}

/// A set of two modules, and sometimes of up to five.
pub fn any(r: &mut Random) -> Vec<String> {
    let n = match r.below(100) {
        0 => 5,
        1..=4 => 4,
        5..=19 => 3,
        _ => 2,
    };
    if r.below(150) == 0 {
        return crowded(r, n);
    }
    let mut plan = Plan::new(r, n);
    let mut all: Vec<_> = (0..n).map(|i| module(r, &mut plan, i)).collect();
    (0..n).for_each(|i| all.swap(i, r.below(n)));
    all
}

impl Plan {
    fn new(r: &mut Random, n: usize) -> Plan {
        let names = names(r);
        let homes = names.iter().map(|_| Some(r.below(n + 1)).filter(|home| *home < n)).collect();
        let free = r.pick(&[0, 1, 0x3000, 0x3000, 0x3000, 0x4FFE, END - 40]);
        Plan { names, homes, defined: BTreeMap::new(), free, wrong: r.chance(WRONG) }
    }
}

/// Some names; many have a beginning in common.
fn names(r: &mut Random) -> Vec<String> {
    let mut all: Vec<String> = ["A", "B", "F", "F0", "F1", "F_", "FF", "MUL", "MUL_1", "STACK", "Z", "_"].map(String::from).to_vec();
    all.push("N".repeat(64));
    all.push("N".repeat(63) + "_");
    let n = r.below(7) + 1;
    (0..n).for_each(|i| all.swap(i, i + r.below(14 - i)));
    all.truncate(n);
    all
}

fn module(r: &mut Random, plan: &mut Plan, i: usize) -> String {
    if r.chance(4) {
        return r.pick(&["", "; nothing\n", ".orig x3000\n.end\n"]).to_string();
    }
    let own: Vec<usize> = (0..plan.names.len()).filter(|k| plan.homes[*k] == Some(i)).collect();
    let open: Vec<usize> = (0..plan.names.len()).filter(|k| plan.homes[*k] != Some(i) && r.chance(65)).collect();
    let mut text: String = open.iter().map(|k| format!(".external {}\n", case(r, &plan.names[*k]))).collect();
    let again = again(r, plan, &open);
    if !open.is_empty() && r.chance(5) {
        // An external at 0 stays external.
        text += &format!(".orig 0\n{} .end\n", plan.names[open[0]]);
    }
    let (mut left, mut behind) = (own.clone(), 0);
    for _ in 0..r.pick(&[0, 1, 1, 1, 1, 2, 2, 3]) {
        text += &block(r, plan, &open, &own, &mut left, &mut behind);
    }
    left.into_iter().for_each(|k| text += &label_only(r, plan, k));
    text + &again
}

/// A name that another module has defined, defined again at the same address; or at another, where the set may go wrong.
fn again(r: &mut Random, plan: &Plan, open: &[usize]) -> String {
    let known: Vec<_> = plan.defined.iter().filter(|(k, _)| !open.contains(k)).collect();
    let mut text = String::new();
    for (k, at) in known {
        let at = match r.below(10) {
            0..=2 => *at,
            3..=5 if plan.wrong => r.pick(&[0, at ^ 1, at.wrapping_add(1)]),
            _ => continue,
        };
        text += &format!(".orig {at}\n{} .end\n", case(r, &plan.names[*k]));
    }
    text
}

/// A name at an address without a word; at 0 it may be declared external behind that and stays defined.
fn label_only(r: &mut Random, plan: &mut Plan, k: usize) -> String {
    let at = r.pick(&[0, 0, 1, 0x3000, plan.free, 0xFE00, 0xFFFF]);
    plan.defined.insert(k, at);
    let defined = format!(".orig x{at:X}\n{}{} .end\n", case(r, &plan.names[k]), r.pick(&["", ":", "\n"]));
    match at {
        0 if r.chance(20) => defined + &format!(".external {}\n", case(r, &plan.names[k])),
        _ => defined,
    }
}

/// A block behind those before, adjacent to them or not; or over some of another module, where the set may go wrong. `behind` is the first
/// address behind the module's own.
fn block(r: &mut Random, plan: &mut Plan, open: &[usize], own: &[usize], left: &mut Vec<usize>, behind: &mut u16) -> String {
    let start = match r.below(12) {
        0 if plan.wrong => plan.free.saturating_sub(r.pick(&[1, 2, 5])),
        1 if plan.wrong => plan.free.saturating_sub(r.below(40) as u16),
        2..=6 => plan.free,
        _ => plan.free + r.pick(&[1, 2, 7]),
    };
    let mut at = start.clamp(*behind, END);
    let mut text = format!(".orig x{at:X}\n");
    for _ in 0..r.pick(&[0, 1, 1, 2, 3, 5, 8]) {
        let (line, size) = line(r, plan, open, own);
        if at + size > END {
            break;
        }
        if !left.is_empty() && r.chance(60) {
            let k = left.swap_remove(r.below(left.len()));
            plan.defined.insert(k, at);
            text += &format!("{} ", case(r, &plan.names[k]));
        }
        text += &line;
        at += size;
    }
    *behind = at;
    plan.free = plan.free.max(at);
    text + ".end\n"
}

/// A statement and how many words it has. What waits for an external is most of it.
fn line(r: &mut Random, plan: &Plan, open: &[usize], own: &[usize]) -> (String, u16) {
    let known: Vec<usize> = own.iter().copied().filter(|k| plan.defined.contains_key(k)).collect();
    let fill = |r: &mut Random, some: &[usize]| {
        let k = r.pick(some);
        (format!(".fill {}\n", case(r, &plan.names[k])), 1)
    };
    match r.below(12) {
        0..=4 if !open.is_empty() => fill(r, open),
        5..=6 if !known.is_empty() => fill(r, &known),
        7 => {
            let size = r.below(4) as u16;
            (format!(".blkw {size}\n"), size)
        }
        8 => (r.pick(&[".stringz \"a\"\n", ".stringz \"\\n\"\n"]).to_string(), 2),
        9 => (format!(".fill {}\n", r.pick(&[0, 1, 0x3000, 0xFFFF])), 1),
        _ => (r.pick(&["HALT\n", "RET\n", "ADD R0, R0, #1\n", "JSRR R1\n"]).to_string(), 1),
    }
}

/// Modules that fill a table of their link, all but or one too many.
fn crowded(r: &mut Random, n: usize) -> Vec<String> {
    let kind = r.below(4);
    (0..n)
        .map(|i| match kind {
            0 => many_blocks(r, i, n),
            1 => many_names(r, i, n),
            2 => many_relocations(r, i, n),
            _ => many_words(r, i, n),
        })
        .collect()
}

/// A share of a capacity, or a few more or less.
fn share(r: &mut Random, all: usize, n: usize) -> usize {
    all / n + usize::from(r.chance(30)) - usize::from(r.chance(10))
}

fn many_blocks(r: &mut Random, i: usize, n: usize) -> String {
    let size = share(r, 64, n);
    (0..size).map(|k| format!(".orig {}\nHALT\n.end\n", 4 * (k * n + i))).collect()
}

/// Some of the names are the other modules', too.
fn many_names(r: &mut Random, i: usize, n: usize) -> String {
    let size = share(r, 1024, n);
    let common: String = (0..r.below(3)).map(|k| format!(".external COMMON_{k}\n")).collect();
    let own: String = (0..size).map(|k| format!("M{i}_{} ", (k * 389) % 1031)).collect();
    format!("{common}.orig {}\n{own}HALT\n.end\n", 4 * i)
}

/// Words that wait for F or for G; the last module may define F.
fn many_relocations(r: &mut Random, i: usize, n: usize) -> String {
    let size = share(r, 1024, n).min(1024);
    let lines: String = (0..size).map(|_| r.pick(&[".fill F\n", ".fill F\n", ".fill G\n"])).collect();
    if i + 1 == n && r.chance(50) {
        return format!(".external G\n.orig {}\nF .blkw {}\n{}.end\n", 2000 * i, r.below(9), lines.replace('F', "G"));
    }
    format!(".external F\n.external G\n.orig {}\n{lines}.end\n", 2000 * i)
}

/// Blocks that have every address up to xFE00 together, all but or one too many.
fn many_words(r: &mut Random, i: usize, n: usize) -> String {
    let (start, end) = (65_024 * i / n, 65_024 * (i + 1) / n);
    let more = if r.chance(20) && end < 65_024 { 1 } else { 0 };
    format!(".orig {start}\nM{i} .blkw {}\n.end\n", end - start + more - usize::from(r.chance(20)))
}
