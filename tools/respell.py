#!/usr/bin/env python3
"""Spells the repository's own words of specs/ and proofs/ as the library does: snake case, in .antt files, clauses and edits.

usage: tools/respell.py [FOLDER]

Humps become underscores (`nextToken`, `next_token`), and so does the dash of a field or a constructor of specs/. A word of Rust, a
type, a module and a string stay, and so does the dash of a law's name, which joins two names. A law that would have its function's name gets `_lem`.
The choice `if b then x else y` of the rules becomes `when b then x else y`, since the library has an operator of the former name.
Run once, after the kit's own script; a second run changes nothing.
"""

import os
import re
import sys

# Laws that would meet a definition of their name.
MEETING = (
    "all_blocks all_sound all_upper block_room by_row first_next has_word in_order labels_at line_step name_in own_line plain_at "
    "row_out row_told run_room"
).split()
# Theorems of specs/, whose dash joins two names.
THEOREMS = "nat-tri none-matches outcome-one some-unset".split()
# Words of the library, and names that an import or a binder gives.
LIBRARY = {"getD": "get_or"}
BOUND = {"meantAnswer", "firstApart"}

WORD = r"[^\s(){}.;,@\"«»\[\]\\`]+"
SKIPPED = r'"(?:\\.|[^"\\\n])*"'
TOKEN = re.compile(SKIPPED + "|" + WORD)
DECLARED = re.compile(r"^(\s*)((?:abbrev |unfoldable |pub )*)(\S+)((?: \{[^{}]*\}| \([^()]*\))*) :(?!:)", re.M)


def files(root, endings):
    for folder, folders, names in os.walk(os.path.join(root, "crates")):
        folders[:] = sorted(f for f in folders if f not in ("out", "data"))
        for name in sorted(names):
            if name.endswith(endings):
                yield os.path.join(folder, name)


def read(path):
    with open(path, encoding="utf-8") as f:
        return f.read()


def humped(root):
    """The pieces between dashes of the names that .antt files declare in humps; one that begins with a capital is a type's name."""
    found = set(BOUND)
    for path in files(root, ".antt"):
        for m in DECLARED.finditer(read(path)):
            found |= {p for p in m[3].split("-") if re.match(r"[a-z]", p) and "_" not in p and re.search(r"[a-z0-9][A-Z]", p)}
    return found


def snake(piece, humps):
    """A piece of a name between dashes, in snake case."""
    if piece in LIBRARY:
        return LIBRARY[piece]
    if piece in humps:
        return re.sub(r"(?<=[a-z0-9])[A-Z]", lambda m: "_" + m[0].lower(), piece)
    return piece


def dashed(root):
    """The fields, constructors and definitions of specs/ whose name has a dash."""
    found = set()
    for path in files(root, ".antt"):
        if "/specs/" in path:
            for m in DECLARED.finditer(read(path)):
                name = m[3]
                if "-" in name and name not in THEOREMS and not name.endswith("-once") and name[0].islower():
                    found.add(name)
    return found


def meeting_in(text):
    """The laws of MEETING that a file declares or imports."""
    found = set()
    for name in MEETING:
        if re.search(rf"^ *(?:abbrev |unfoldable |pub )*{name}(?: [({{].*)? :", text, re.M) or re.search(rf"^use [^\n]*[{{ ,]{name}[,}}]", text, re.M):
            found.add(name)
    return found


def respelled(text, words, humps, meeting):
    def one(m):
        word = m[0]
        if word.startswith('"'):
            return word
        if word in meeting:
            return word + "_lem"
        if word in words:
            return word.replace("-", "_")
        return "-".join(snake(p, humps) for p in word.split("-"))

    return TOKEN.sub(one, text)


def write(path, new, text):
    if new != text:
        with open(path, "w", encoding="utf-8") as f:
            f.write(new)


def respell_words(root):
    words, humps = dashed(root), humped(root)
    if humps == BOUND:
        return
    for path in files(root, (".antt", ".rt", ".edit")):
        text = read(path)
        write(path, respelled(text, words, humps, meeting_in(text) if path.endswith(".antt") else ()), text)


def choice(text):
    """The choice of the rules, which the library has under the same name with another definition, is `when b then x else y`."""
    parts = re.split(r"(--[^\n]*|\"(?:\\.|[^\"\\\n])*\")", text)
    for i in range(0, len(parts), 2):
        parts[i] = re.sub(r"(?<![^\s(){},;\[\]])if(?=[\s◌])(?!-)", "when", parts[i])
    return "".join(parts)


def respell_choice(root):
    for path in files(root, (".antt", ".edit")):
        text = read(path)
        if path.endswith(".antt"):
            write(path, choice(text), text)
        elif re.search(r"(?m)^file: \S*\.antt$", text):
            lines = text.split("\n")
            write(path, "\n".join(choice(l) if l.startswith(("old:", "new:")) else l for l in lines), text)


def main(root):
    respell_words(root)
    respell_choice(root)
    return 0


if __name__ == "__main__":
    sys.exit(main(sys.argv[1] if len(sys.argv) > 1 else "."))
