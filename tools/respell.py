#!/usr/bin/env python3
"""Brings the repository's own definitions and lemmas to snake case: numberOn becomes number_on, and number-numeralOn number-numeral_on.

usage: python3 tools/respell.py [FOLDER]      once, in the repository, after the kit's port.py

It goes by words: each word of an .antt file, a clause, an edit or a page that begins with a small letter and has a capital in it. Words within
quotation marks, words that other libraries declare and types stay. A fact of Protocol that read as a word becomes a type.
"""
import os
import re
import sys

ROOT = sys.argv[1] if len(sys.argv) > 1 else "."
WORD = re.compile(r"[^\W\d][\w']*(?:-[^\W_][\w']*)*")
CAMEL = re.compile(r"[a-z][a-z0-9']*[A-Z]")
# what stands in rows and samples, and is no name
ROWS = re.compile(r"[a-z]\d?[A-Z]{2,}(\d+|[a-z]{0,2})$")
STRING = re.compile(r'"(?:[^"\\\n]|\\.)*"')
TYPES = {"crates/protocol/proofs/Protocol.antt": {"onLine": "OnLine"}}


def snake(part):
    if not CAMEL.match(part) or ROWS.match(part):
        return part
    return re.sub(r"_?([A-Z])", lambda m: "_" + m[1].lower(), part)


def respelled(word):
    return "-".join(snake(part) for part in word.split("-"))


def turned(text, own, all_words):
    """The text with its words respelled: each, or those that the antt files have."""
    kept = [m.span() for m in STRING.finditer(text)]
    out, at = [], 0
    for m in WORD.finditer(text):
        word = m[0]
        new = own.get(word) or (respelled(word) if all_words is None or word in all_words else word)
        if new != word and not any(a <= m.start() < b for a, b in kept):
            out += [text[at:m.start()], new]
            at = m.end()
    return "".join(out) + text[at:]


def files(folder, endings):
    for at, folders, names in os.walk(os.path.join(ROOT, folder)):
        folders[:] = sorted(f for f in folders if f not in ("out", "target", ".git"))
        for name in sorted(names):
            if name.endswith(endings):
                yield os.path.join(at, name)


def main():
    words, changed = set(), 0
    for path in files("crates", (".antt",)):
        with open(path, encoding="utf-8") as f:
            words |= {w for w in WORD.findall(STRING.sub("", f.read())) if respelled(w) != w}
    pages = [os.path.join(ROOT, p) for p in ("README.md", "CONTRIBUTING.md")] + list(files("docs", (".md",)))
    for path in list(files("crates", (".antt", ".rt", ".edit"))) + [p for p in pages if os.path.exists(p)]:
        with open(path, encoding="utf-8") as f:
            text = f.read()
        own = TYPES.get(os.path.relpath(path, ROOT), {})
        new = turned(text, own, None if path.endswith(".antt") else words)
        if new != text:
            changed += 1
            with open(path, "w", encoding="utf-8") as f:
                f.write(new)
    print(f"respell: {len(words)} words, {changed} files")


main()
