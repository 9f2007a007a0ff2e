#!/usr/bin/env python3
"""Makes the vectors of the statement reader.

usage: statement_vectors.py ORACLE > vectors

ORACLE is a program that answers each NAME.asm of a folder with the crate lc3-ensemble's lexer, passes and link and with a statement
reader written from document 01, reports on standard error where the crate's parser does otherwise (run it by hand to see that), and writes NAME.exp (`ORACLE batch DIR --lib --spans`): a listing, or `REFUSED number start end start end`.
Each line of the output: the source in hexadecimal (`-` if it is empty), then the number, start and end of the refusal among
1 to 16, or 0 0 0 where the answer is another.
"""
import itertools
import os
import random
import subprocess
import sys
import tempfile

REG, IMM, OFF6, OFF9, OFF11, TRAP, WORD, FILL, NAME, TEXT = range(10)
OPERANDS = {
    "ADD": (REG, REG, IMM), "AND": (REG, REG, IMM), "NOT": (REG, REG), "JMP": (REG,), "JSR": (OFF11,), "JSRR": (REG,),
    "LD": (REG, OFF9), "LDI": (REG, OFF9), "LDR": (REG, REG, OFF6), "LEA": (REG, OFF9), "ST": (REG, OFF9),
    "STI": (REG, OFF9), "STR": (REG, REG, OFF6), "TRAP": (TRAP,), "NOP": (OFF9,), ".orig": (WORD,), ".fill": (FILL,),
    ".blkw": (WORD,), ".stringz": (TEXT,), ".external": (NAME,), ".end": (), ".what": (),
}
for flags in ("", "P", "Z", "ZP", "N", "NP", "NZ", "NZP"):
    OPERANDS["BR" + flags] = (OFF9,)
for bare in "RET RTI GETC OUT PUTC PUTS IN PUTSP HALT".split():
    OPERANDS[bare] = ()

GOOD = {REG: "R1", IMM: "#-3", OFF6: "5", OFF9: "L", OFF11: "x-5", TRAP: "x25", WORD: "7", FILL: "F", NAME: "E", TEXT: '"s"'}
RANGES = {IMM: (-16, 15), OFF6: (-32, 31), OFF9: (-256, 255), OFF11: (-1024, 1023), TRAP: (0, 255), WORD: (0, 65535), FILL: (-32768, 65535)}
KINDS = ["R7", "12", "-12", "L", "HALT", ".fill", '"t"', ":", ",", "\n", "", "R8", "$", "x1G"]


def kinds():
    """Every statement with every kind of token at every operand, and one operand too few or too many."""
    for word, fields in OPERANDS.items():
        good = [GOOD[f] for f in fields]
        yield word + " " + ", ".join(good)
        yield word + " " + ", ".join(good + ["R1"])
        yield word + " " + " ".join(good)
        for i in range(len(good)):
            yield word + " " + ", ".join(good[:i])
            yield word + " " + ", ".join(good[:i]) + ","
            for kind in KINDS:
                yield word + " " + ", ".join(good[:i] + [kind] + good[i + 1:])
        for kind in KINDS:
            yield word + " " + ", ".join(good) + " " + kind


def spelled(n):
    sign, size = ("-", -n) if n < 0 else ("", n)
    return ["%s%d" % (sign, size), "#%s%d" % (sign, size), "x%s%X" % (sign, size), "X%s%05x" % (sign, size)]


def boundaries():
    for word, fields in OPERANDS.items():
        for i, field in enumerate(fields):
            if field not in RANGES:
                continue
            low, high = RANGES[field]
            for n in (low - 1, low, -1, 0, high, high + 1):
                for text in spelled(n):
                    good = [GOOD[f] for f in fields]
                    good[i] = text
                    yield word + " " + ", ".join(good)


def orders():
    for size in range(5):
        for parts in itertools.product(["A", ":", "\n", "HALT"], repeat=size):
            yield " ".join(parts)
    for parts in itertools.product(["B", ":", "\r\n", ";c\n", ".end", ".blkw 0"], repeat=3):
        yield " ".join(parts)


def ends():
    for text in ('A: B\n\nC ADD R0 , R1, #5 ; c\r\nHALT\n', '.stringz "a\\n" ;x\n L .fill L\r\n', 'NOP\nNOP L;\n NOP 5', "LDR R1,R2,\t#-32\r\n;\n"):
        for i in range(len(text) + 1):
            yield text[:i]
            yield text[i:]


def names():
    for n in (1, 63, 64, 65, 200):
        name = "n" * n
        for text in ("%s HALT", "LD R0, %s", "A %s: HALT", ".external %s", "%s", "JSR %s ,", "ADD R0, R0, %s", ".%s", "%s %s HALT"):
            yield text % ((name,) * text.count("%s"))


def soups(count, seed):
    rng = random.Random(seed)
    tokens = KINDS + list(OPERANDS) + ["A", "B:", "#5", "x7", "-1", "\n", "\n", ",", ","]
    for _ in range(count):
        yield " ".join(rng.choice(tokens) for _ in range(rng.randrange(1, 9)))


def main():
    oracle = sys.argv[1]
    texts = list(dict.fromkeys(itertools.chain(kinds(), boundaries(), orders(), ends(), names(), soups(400, 1))))
    with tempfile.TemporaryDirectory() as folder:
        for i, text in enumerate(texts):
            with open(os.path.join(folder, "%06d.asm" % i), "wb") as f:
                f.write(text.encode("ascii"))
        subprocess.run([oracle, "batch", folder, "--lib", "--spans"], check=True, stdout=subprocess.DEVNULL, stderr=subprocess.DEVNULL)
        for i, text in enumerate(texts):
            with open(os.path.join(folder, "%06d.exp" % i)) as f:
                words = f.read().split()
            answer = words[1:4] if words[:1] == ["REFUSED"] and int(words[1]) <= 16 else ["0", "0", "0"]
            print(text.encode("ascii").hex() or "-", *answer)


main()
