#!/usr/bin/env python3
"""Holds the person's view (the program lc3_files) beside the listing, the kept answers of assembling and document 01's names.

usage: view_check.py DOCUMENT-01, at the repository's root, after `./lc3 test` or `rt run` in crates/lc3_list and crates/lc3_files

Each source of crates/test_asm/data/vectors_1.txt and vectors_2.txt that was assembled into full buffers is explained: number, name, line, column,
the line and the carets of each place; of an object every word, label, external and relocation. The program has room for 32,768 words, so
41 may come where the vectors have another number. Then all 65,536 words are explained, and the text of each is assembled again.
"""
import collections, fileinput
import re
import subprocess
import sys

WIDTH = 100


def run(program, src):
    words = ["explain", "-"] if program == "lc3_files" else []
    done = subprocess.run(["tools/run_program", f"crates/{program}/out/{program}", *words], input=src, capture_output=True, check=True)
    return done.stdout.decode().split("\n")


def names(path):
    out = {}
    for numbers, texts in re.findall(r"^\| ([\d, ]+) \| (\w[^|]*) \|", open(path).read(), re.M):
        texts = re.sub(r" *\([^)]*\)", "", texts).split(", ")
        out.update(zip(map(int, numbers.split(", ")), texts))
    return out


def shown(text):
    return "".join(chr(b) if b == 9 or 32 <= b < 127 else "?" for b in text)


def place_fault(src, start, end, said, lines):
    """What is wrong with the lines of a place, of which this is said, if anything."""
    first = src.rfind(b"\n", 0, start) + 1
    feed = src.find(b"\n", first)
    last = len(src) if feed < 0 else feed - src[first:feed].endswith(b"\r")
    if lines[0] != "-:%d:%d: %s" % (src.count(b"\n", 0, start) + 1, start - first + 1, said):
        return "place"
    if last - first > WIDTH:
        caret = len(lines[2]) - len(lines[2].lstrip())
        right = "\t" in lines[2] or start == last or lines[1][caret] == shown(src[start:start + 1])
        return None if right and len(lines[1]) <= 4 + 3 + WIDTH + 3 else "long line"
    marks = ["\t" if src[i:i + 1] == b"\t" else " ^"[i >= start] for i in range(first, max(min(end, last), start + 1))]
    right = lines[1:] == ["    " + shown(src[first:last]), "    " + "".join(marks)]
    return None if right else "underline"


def at_end(src, start):
    if start == len(src):
        return " (the end of the source)"
    return " (the end of the line)" if src[start:start + 1] == b"\n" or src[start:start + 2] == b"\r\n" else ""


def is_far(name, note):
    """The note names the label, and says that it is further away than the operand reaches."""
    found = re.match(r"note: (\w+) is (\d+) words (before|after) the next instruction; this operand reaches from (\d+) before it to (\d+) after it$", note)
    if not found:
        return False
    reach = int(found.group(4 if found.group(3) == "before" else 5))
    return found.group(1) == name and int(found.group(2)) > reach and reach in (255, 256, 1023, 1024)


def refusal_fault(src, number, name, places, view):
    found = re.match(r"-:(?:\d+:\d+:)? (REFUSED %d %s: (\w[^()]*\w))( \(.*\))?$" % (number, name), view[0])
    if not found:
        return "heading"
    if number in (11, 41):
        return None if view[0] == "-: " + found.group(1) and view[1:] == [""] else "no place"
    start, end, start2, end2 = places
    if number in (13, 14, 15) and not view.pop(3).startswith("note: "):
        return "note"
    if number == 29 and not is_far(src[start:end].decode(), view.pop(3)):
        return "note"
    if len(view) != (7 if end2 else 4):
        return "lines"
    fault = place_fault(src, start, end, found.group(1) + at_end(src, start), view[:3])
    return fault or (end2 and place_fault(src, start2, end2, "and here", view[3:6])) or None


def object_fault(listing, view):
    cells = [m.groups() for m in (re.match(r"x(\w{4})  (?:x(\w{4})|-)(?: |$)", l) for l in view) if m]
    if [(a, w or "0000") for a, w in cells] != [tuple(l.split()) for l in listing if re.match(r"[0-9A-F]{4} ", l)]:
        return "words"
    for kind, *rest in map(str.split, filter(None, listing)):
        if kind == "LABEL" and "LABEL x%s %s, where no word is" % tuple(rest) not in view:
            if not any(l.startswith("x" + rest[0]) and l[14:].split(" ")[0] == rest[1] for l in view):
                return "label"
        if kind == "EXTERN" and "EXTERNAL " + rest[0] not in view:
            return "external"
        if kind == "REL" and not any(l.startswith("x%s  x0000" % rest[0]) and ".fill %s " % rest[1] in l for l in view):
            return "relocation"
    return None


def sources(table):
    tried, faults = collections.Counter(), 0
    for line in fileinput.input(["crates/test_asm/data/vectors_1.txt", "crates/test_asm/data/vectors_2.txt"]):
        fields = line.split()
        if any(map(int, fields[4:10])):
            continue
        head, part, tail = (bytes.fromhex(fields[i].strip("-")) for i in (0, 1, 3))
        src, places = head + part * int(fields[2]) + tail, list(map(int, fields[11:15]))
        listing, view = run("lc3_list", src), run("lc3_files", src)
        number = int(listing[0].split()[1]) if listing[0].startswith("REFUSED") else 0
        if number not in (11, 41) and number != int(fields[10]):
            fault = "number"
        else:
            fault = refusal_fault(src, number, table[number], places, view) if number else object_fault(listing, view)
        tried[number] += 1
        if fault:
            faults += 1
            print(number, fault, src[:200])
    print("%d sources, %d numbers, %d faults" % (sum(tried.values()), len(tried), faults))


def words(step=2048):
    faults = 0
    for first in range(0, 65536, step):
        block = ".orig x3000\n%s\n.end\n"
        view = run("lc3_files", (block % "\n".join(".fill x%04X" % w for w in range(first, first + step))).encode())
        texts = [l[32:].split(";")[0] for l in view if re.match(r"x\w{4}  x", l)]
        back = run("lc3_list", (block % "\n".join(texts)).encode())
        got = [int(l.split()[1], 16) for l in back if re.match(r"[0-9A-F]{4} ", l)]
        faults += got != list(range(first, first + step))
    print("65,536 words, %d faults" % faults)


sources(names(sys.argv[1]))
words()
