#!/usr/bin/env python3
"""Holds the definitions of `rules` beside answers made elsewhere: each answer becomes an equation that the checker closes by computing.

usage: rule_equations.py FOLDER [--limit BYTES] [--count N], at the repository's root

FOLDER has sources NAME.asm, each with its answer NAME.exp: the listing, or REFUSED, the number and the four offsets of its two places.
Sources above the limit (default 500 bytes) are left out, since the checker bounds the steps of a computation; --count takes that many at
most. The equations stand in a repository of its own in a temporary folder, which is kept where one does not hold; a false one is an error there that
names its source.
"""
import argparse
import pathlib
import shutil
import subprocess
import sys
import tempfile

PER_FILE = 25
HEAD = """-- Answers beside the rules. Assumes nothing.
use Rattle.std.specs.Prelude.{ℕ, ◌≡◌, List, [], ◌∷◌}
use mathlib.Core.Path.{refl}
use Rattle.rules.specs.Base.{Outcome, ok, refused}
use Rattle.rules.specs.Tokens.{lexing}
use Rattle.rules.specs.Statements.{parsing}
use Rattle.rules.specs.Tables.{sorting}
use Rattle.rules.specs.Objects.{Object}
use Rattle.rules.specs.Passes.{assemble, assembling}
use Rattle.rules.specs.Listing.{listing, printing}

data Answer : Type 0 where
  lists : List ℕ → Answer
  refuses : (number start stop start2 stop2 : ℕ) → Answer

unfoldable told : Outcome Object → Answer
told (ok o) = lists (listing o)
told (refused r) = refuses r.number r.first.start r.first.stop r.second.start r.second.stop
"""


def numbers(data):
    return "(" + "".join(f"{b} ∷ " for b in data) + "[])"


def equation(name, source, answer):
    words = answer.split()
    if words[:1] == [b"REFUSED"]:
        right = "refuses " + " ".join(str(int(w)) for w in words[1:6])
    else:
        right = f"lists {numbers(answer)}"
    return f"\n{name} : told (assemble 65024 {numbers(source)}) ≡ {right}\nunfolding told lexing parsing sorting assembling printing\n{name} = refl\n"


def chosen(folder, limit, count):
    for path in sorted(folder.glob("*.asm")):
        source, answer = path.read_bytes(), path.with_suffix(".exp")
        if len(source) <= limit and answer.exists() and count > 0:
            count -= 1
            yield path.stem, source, answer.read_bytes()


def main():
    args = argparse.ArgumentParser(description=__doc__, formatter_class=argparse.RawDescriptionHelpFormatter)
    args.add_argument("folder", type=pathlib.Path)
    args.add_argument("--limit", type=int, default=500)
    args.add_argument("--count", type=int, default=1000)
    o = args.parse_args()
    rows = [equation("row-" + n.lower().replace("_", "-"), s, a) for n, s, a in chosen(o.folder, o.limit, o.count)]
    if not rows:
        sys.exit("rule_equations: no source with an answer within the limit")
    here = pathlib.Path(tempfile.mkdtemp(prefix="equations-"))
    shutil.copytree("crates/rules", here / "crates/rules", ignore=shutil.ignore_patterns("out"))
    crate = here / "crates/equations"
    for part in ["src", "proofs"]:
        (crate / part).mkdir(parents=True)
    (here / "crates.txt").write_text("rules:\nequations: rules\n")
    (crate / "src/lib.rt").write_text("// Equations alone.\n#![tactic(auto)]\n")
    parts = [rows[i:i + PER_FILE] for i in range(0, len(rows), PER_FILE)]
    for i, part in enumerate(parts):
        (crate / f"proofs/Part{i}.antt").write_text(HEAD + "".join(part))
    (crate / "proofs/Lib.antt").write_text("-- Equations. Assumes nothing.\n" + "".join(f"pub mod Part{i}\n" for i in range(len(parts))))
    print(f"{len(rows)} equations", flush=True)
    status = subprocess.run(["rt", "check"], cwd=crate, check=False).returncode
    if status:
        print(f"rule_equations: they stand in {here}")
    else:
        shutil.rmtree(here)
    sys.exit(status)


if __name__ == "__main__":
    main()
