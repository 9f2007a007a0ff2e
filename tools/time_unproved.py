#!/usr/bin/env python3
"""Times the crates as they stand, proved or not: what a change would gain, before it is proved.

usage: time_unproved.py SOURCE..., at the repository's root, on x86-64

`rt try`, which proves nothing, compiles a program over the crates to an LLVM module with checks. That module without the checks is compiled as a proved
program is, and run on each source: milliseconds of processor time for the lexer's walk, the statements' walk, pass one and assembling, the best of
nine. Copies and binaries stand in a temporary folder.
"""
import pathlib
import platform
import re
import resource
import shutil
import subprocess
import sys
import tempfile

RUNS, ROUNDS = 9, 100
WALKS = {"L": "lexer", "P": "statements", "O": "pass one", "A": "assembling"}
PROGRAM = """// Walks standard input, but for its first two bytes: which walk, and ten times how often.
#![tactic(auto)]

use std::io;
use std::io::Read;

fn walk(which: u8, src: &[u8], blocks: &mut [u16], words: &mut [u16], marks: &mut [u8], labels: &mut [u32], relocations: &mut [u32], names: &mut [u8]) -> u64 {
    if which == 76 {
        match lex_source::first_refusal(src) {
            Ok(()) => { return 0; }
            Err(fault) => { return fault.number as u64; }
        }
    }
    if which == 80 {
        match parse::first_refusal(src) {
            Ok(()) => { return 0; }
            Err(fault) => { return fault.number as u64; }
        }
    }
    if which == 79 {
        match pass1::pass_one(src, labels, relocations) {
            Ok(o) => { return o.words as u64; }
            Err(_) => { return 0; }
        }
    }
    let answer = asm::assemble(src, blocks, words, marks, labels, relocations, names);
    answer.number as u64 + answer.words as u64
}

fn main(rt: HostRuntime) -> io::Result<()> {
    let mut source = Vec::new(rt.alloc());
    rt.reader().read_to_end(&mut source)?;
    let mut blocks = [0u16; 128];
    let mut words = [0u16; 65536];
    let mut marks = [0u8; 65536];
    let mut labels = [0u32; pass1_symbols::SYMBOL_CELLS];
    let mut relocations = [0u32; 4096];
    let mut names = [0u8; 65536];
    if source.len() < 2 {
        return Ok(());
    }
    let which = source[0];
    let times = source[1] as u64;
    let mut k: u64 = 0;
    let mut sum: u64 = 0;
    while k < times * 10 {
        let n = walk(which, &source[2..], &mut blocks, &mut words, &mut marks, &mut labels, &mut relocations, &mut names);
        sum = (sum * 31 + n) % 1000000007;
        k += 1;
    }
    println!(rt; "{sum}")?;
    Ok(())
}
"""


TARGET = "x86_64-unknown-linux-gnu"
CHECK = re.compile(r'call void @"rattle-llvm-checks::|@llvm\.memset\.p0\.i64\([^)]*i8 -86')


def kit_that_keeps(here, kit):
    """A kit of links, whose compiler keeps each module beside it."""
    copy = here / "kit"
    for folder in ("bin", "toolchain/bin"):
        (copy / folder).mkdir(parents=True)
    for part in [*kit.iterdir(), *(kit / "bin").iterdir(), *(kit / "toolchain").iterdir(), *(kit / "toolchain/bin").iterdir()]:
        to = copy / part.relative_to(kit)
        if part.name in ("rt", "rtlib.py"):
            # (what is beside it is found from where it is itself)
            shutil.copy(part, to)
        elif not to.exists() and part.name != "clang":
            to.symlink_to(part)
    compiler = copy / "toolchain/bin/clang"
    compiler.write_text(f'#!/bin/sh\ncp module.bc "{here}/module.$(ls "{here}" | grep -c "^module").bc"\nexec "{kit}/toolchain/bin/clang" "$@"\n')
    compiler.chmod(0o755)
    return copy


def built(here):
    """Compiles the program without its checks, and returns its file."""
    kit = pathlib.Path(shutil.which("rt")).resolve().parent.parent
    crate = here / "repository/crates/timing"
    shutil.copytree("crates", crate.parent, ignore=shutil.ignore_patterns("out"))
    (crate / "src").mkdir(parents=True)
    (crate / "src/main.rt").write_text(PROGRAM)
    rows = pathlib.Path("crates.txt").read_text()
    (here / "repository/crates.txt").write_text(rows + "\ntiming: lex_source parse pass1 pass1_state pass1_symbols asm\n")
    done = subprocess.run([kit_that_keeps(here, kit) / "bin/rt", "try"], cwd=crate, stdin=subprocess.DEVNULL, capture_output=True, text=True, check=False)
    modules = sorted(here.glob("module.*.bc"), key=lambda it: it.stat().st_size)
    if not modules:
        sys.exit(done.stdout + done.stderr)
    clang = [kit / "toolchain/bin/clang", f"--target={TARGET}", "-Wno-override-module", "-x", "ir"]
    text, thing, program = here / "timing.ll", here / "timing.o", here / "timing"
    subprocess.run([*clang, "-S", "-emit-llvm", "-Xclang", "-disable-llvm-passes", modules[-1], "-o", text], check=True)
    lines = [line for line in text.read_text().split("\n") if not CHECK.search(line)]
    text.write_text("\n".join(lines).replace(" sanitize_address ", " ").replace('"target-cpu"="x86-64"', '"target-cpu"="x86-64-v2"'))
    subprocess.run([*clang, "-O3", "-fPIE", "-ffunction-sections", "-fdata-sections", "-c", text, "-o", thing], check=True)
    files = [kit / "c" / name for name in ("libos_c.a", "liblibc_c.a")]
    subprocess.run([kit / "bin/rattle-link", "--target", TARGET, "--toolchain", kit / "toolchain", "-o", program, thing, *files], check=True, capture_output=True)
    return program


def seconds(program, data):
    before = resource.getrusage(resource.RUSAGE_CHILDREN).ru_utime
    subprocess.run([program], input=data, stdout=subprocess.DEVNULL, check=True)
    return resource.getrusage(resource.RUSAGE_CHILDREN).ru_utime - before


def main():
    if not sys.argv[1:] or platform.machine() != "x86_64":
        sys.exit(__doc__)
    with tempfile.TemporaryDirectory(prefix="timing-") as here:
        program = built(pathlib.Path(here))
        for path in sys.argv[1:]:
            src = pathlib.Path(path).read_bytes()
            cells = []
            for walk, name in WALKS.items():
                none, all_ = (min(seconds(program, walk.encode() + bytes([n]) + src) for _ in range(RUNS)) for n in (0, ROUNDS // 10))
                cells.append(f"{name} {(all_ - none) / ROUNDS * 1000:.3f}")
            print(f"{pathlib.Path(path).name:<16}", "   ".join(cells), "ms", flush=True)


if __name__ == "__main__":
    main()
