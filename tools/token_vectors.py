#!/usr/bin/env python3
"""Writes data/vectors.bin: sources, and what lc3-ensemble 0.10.0's lexer says of each.

usage: token_vectors.py ORACLE OUT, where `ORACLE tokens --lib FILE` prints the crate's tokens of a file, a line each, in the
numbers of document 01. README.md beside the data says what the bytes are.
"""
import os
import struct
import subprocess
import sys
import tempfile

WORDS = """ADD AND NOT BR BRP BRZ BRZP BRN BRNP BRNZ BRNZP JMP JSR JSRR LD LDI LDR LEA ST STI STR TRAP NOP
RET RTI GETC OUT PUTC PUTS IN PUTSP HALT""".split()
SORTS = dict(UNSIGNED=1, SIGNED=2, REG=3, WORD=4, LABEL=5, DIRECTIVE=6, STRING=7, COLON=8, COMMA=9, NEWLINE=10)
END, REFUSED, CLEAN = 0, 11, 12


def sources():
    """Each source as (head, repeated byte, count, tail)."""
    plain = lambda s: (s if isinstance(s, bytes) else s.encode(), 0, 0, b"")
    # the token examples of document 01
    for s in ["", " ", "\t", "x", "xyz", "x1G", "R8", "R8x", "R007", "#", "-", "x-", "##5", "-#5", "9999g", "99999g", "-32768", "-32769",
              "; a\rb", "; a\rb\nA", "A\rB", "A\r\nB", "\r", "\r\n", "\n\r", '"a\rb"', "\"a\r\nb\"", '"\\n\\r\\t\\\\\\0\\""', '"\\q"', '"a\\"', '"a\\',
              '"a\\\n"', '"a\\\r\n"', '"a\\\r', '"', '""', '"\n', '"abc', "###", "##-", "##-5", "#-5", "#-", "--", "-#", "-##5", "#x5", "x5", "X5", "xg",
              "x_", "_x", "r0", "r7", "r8", "R00000000000000000007", "R256", "R99999999999999999999", "R_", "Rx", "R7 ", "R7,", "R7_", "R7-", ".", ".orig",
              ".ORIG x3000", "..", ".1", "LABEL:", "A:B", "a,b", "add ADD aDd", "brnzp BRNZPX", "A;B", ";", ";\n", "\t \tA \t", "0", "00", "5x", "5_", "5-5",
              "5#5", "x5-5", "A-5", "A#5", "#5#5", "a.b", "\x00", "A\x00", "\x7f", "@", "A@", '"a"b"', '"a""b"', "\"\\\"", '"\\\\"', '"\\\\\\"']:
        yield plain(s)
    # boundary numbers in every spelling
    for n in [0, 1, 7, 8, 9, 10, 15, 16, 255, 256, 32766, 32767, 32768, 32769, 65534, 65535, 65536, 65537, 99999, 100000, 2**31, 2**32, 2**64]:
        for pad in ["", "0", "0000000"]:
            for spell in ["%d", "#%d", "-%d", "#-%d", "##%d", "-#%d"]:
                yield plain(spell.replace("%d", pad + str(n)))
            for spell in ["x%s", "X%s", "x-%s", "X-%s", "#x%s"]:
                yield plain(spell % (pad + "%X" % n))
                yield plain(spell % (pad + "%x" % n))
            for spell in ["R%s", "r%s"]:
                yield plain(spell % (pad + str(n)))
        for wrong in ["g", "G", "_", "a5"]:
            for spell in ["%d%s", "#%d%s", "-%d%s", "x%d%s", "x-%d%s", "R%d%s"]:
                yield plain(spell % (n, wrong))
    # each byte alone and after others
    for before in [b"", b"A", b"x", b"5", b"R", b"#", b"-", b'"']:
        for b in range(256):
            yield plain(before + bytes([b]))
    # every escape
    for b in range(128):
        yield plain(b'"\\' + bytes([b]) + b'"')
        yield plain(b'"a\\' + bytes([b]))
    # strings at their limits
    for count in [65533, 65534, 65535]:
        yield (b'"', 97, count, b'"')
        yield (b'"', 97, count, b"")
        yield (b'"\\n', 97, count - 1, b'"')
        yield (b'"\\q', 97, count - 2, b'" A')
        yield (b'"', 97, count - 1, b'\\"" 5')
    # sources at their limit
    for count in [262143, 262144, 262145]:
        yield (b"", 32, count, b"")
        yield (b"R8", 10, count - 2, b"")
        yield (b"", 59, count - 1, b"\xff")
    # words
    for w in WORDS:
        for s in [w, w.lower(), w.capitalize(), w + "X", w[:-1], w + "1", "." + w, w + ":", w + " R1"]:
            yield plain(s)
    # a byte above x7F goes before every other refusal but 11
    for s in [b"R8 \xff", b'"\xc3\xa9"', b"; \xe2\x80\x94\nR9", b"ADD R0, R0, \xa0", b"\xff", b'"abc\n\x80', b"x1G\n\n\n\x80"]:
        yield plain(s)
    # a small program
    for cut in range(0, len(PROGRAM) + 1, 7):
        yield plain(PROGRAM[:cut])


PROGRAM = """.orig x3000
START LEA R0, MSG ; the text
        PUTS\t; out
LOOP:   ADD R1, R1, #-1\r
        BRnzp LOOP
        LDR R2, R3, x-1F
        HALT
MSG .stringz "Hi\\n\\"there\\"\\q"
ARR .blkw 10, 11
.fill xFFFF
.end
"""


def checksum(text):
    one = two = 0
    for b in text:
        one = (one + b) & 0xFFFF
        two = (two + one) & 0xFFFF
    return two


def row(sort, value, start, end, text=b""):
    return struct.pack("<BHIIIH", sort, value, start, end, len(text), checksum(text))


def answer(line):
    kind, start, end, *more = line.split(" ")
    start, end = int(start), int(end)
    if kind == "WORD":
        return row(SORTS[kind], WORDS.index(more[0]), start, end, more[0].encode())
    if kind == "LABEL" or kind == "DIRECTIVE":
        return row(SORTS[kind], 0, start, end, more[0].encode() if more else b"")
    if kind == "STRING":
        return row(SORTS[kind], 0, start, end, bytes.fromhex(more[0]) if more else b"")
    return row(SORTS[kind], abs(int(more[0])) if more else 0, start, end)


def record(oracle, folder, source):
    head, byte, count, tail = source
    path = os.path.join(folder, "source")
    whole = head + bytes([byte]) * count + tail
    with open(path, "wb") as f:
        f.write(whole)
    lines = subprocess.run([oracle, "tokens", "--lib", path], capture_output=True, text=True, check=True).stdout.split("\n")
    lines = [l for l in lines if l and not l.startswith("COMMENT")]
    rows, verdict = [], row(CLEAN, 0, 0, 0)
    for l in lines:
        if l.startswith("REFUSED"):
            number, start, end = map(int, l.split()[1:4])
            verdict = row(REFUSED, number, start, end)
            if number < 11:
                rows.append(verdict)
        else:
            rows.append(answer(l))
    if verdict[0] == CLEAN:
        rows.append(row(END, 0, len(whole), len(whole)))
    out = struct.pack("<HBIHH", len(head), byte, count, len(tail), len(rows))
    return out + head + tail + b"".join(rows) + verdict


def main():
    oracle, out = sys.argv[1:3]
    seen, done = set(), []
    with tempfile.TemporaryDirectory() as folder:
        for s in sources():
            if s not in seen:
                seen.add(s)
                done.append(record(oracle, folder, s))
    with open(out, "wb") as f:
        f.write(b"".join(done))
    print(len(done), "vectors,", sum(map(len, done)), "bytes")


main()
