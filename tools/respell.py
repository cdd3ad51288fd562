#!/usr/bin/env python3
"""Brings the repository's own definitions and lemmas to today's spelling (words in snake case), by the table respell.tsv beside this script.

usage: python3 tools/respell.py [FOLDER]     the top of the repository; without it the current folder

It runs once, after port.py of the kit. It goes by whole words: specs/, proofs/, the clauses and ghost items of src/, must-fail edits, and the
names in README.md and docs/. A name that a file imports from the kit stays as it is there, as do strings, and names with a dash in comments.
Functions of src/ keep their names: the table has none of them. It is not for a tree whose proofs are turned already: there a name that Rattle makes
can be spelled as a law was.
"""

import os
import re
import subprocess
import sys

HERE = os.path.dirname(os.path.realpath(__file__))
TOKEN = re.compile(r'[^\s(){}.;,@"«»\x60]+')
USE = re.compile(r"^[ \t]*(?:pub )?(?:ghost )?(?:unfoldable )?(?:pub )?use\s+([^\s{};]+?)(?:\.\{([^}]*)\})?(?:\s+as\s+[^\s;]+)?\s*;?[ \t]*$", re.M)
QUOTED = re.compile(r'"(?:[^"\\\n]|\\.)*"')
# Lemmas that would get the name of a definition which stands in the same file.
BESIDE = {
    "bytes_bits": ("bytes_bits_lem", re.compile(r"\.antt$")),
    "end_line": ("end_line_lem", re.compile(r"listening_lines/specs/Example\.antt$")),
    "in_order": ("in_order_lem", re.compile(r"frequency/proofs/Grown\.antt$")),
    "index_ok": ("index_ok_lem", re.compile(r"frequency/proofs/Grown\.antt$")),
}


def table():
    with open(os.path.join(HERE, "respell.tsv"), encoding="utf-8") as f:
        return dict(line.rstrip("\n").split("\t") for line in f if line.strip())


def foreign(text, crates):
    """The names that the file imports from elsewhere than this repository."""
    found = set()
    for m in USE.finditer(text):
        head = m[1].split(".")
        if head[0] == "Rattle" and len(head) > 1 and head[1] in crates:
            continue
        for item in (m[2] or "").split(","):
            found |= set(item.split(" as ")[0].split()) | set(item.split(" as ")[-1].split())
    return found


def turned(text, path, words, crates):
    kept = foreign(text, crates)
    beside = {w: n for w, (n, where) in BESIDE.items() if where.search(path)}
    in_function = re.search(r"/proofs/.+/", path)
    comment = "--" if path.endswith(".antt") else "//"

    def turn(part, in_comment):
        def one(m):
            w = m[0]
            dotted = m.start() > 0 and part[m.start() - 1] == "."
            if w in kept and not dotted:
                return w
            if w in beside and not dotted and not in_comment:
                return beside[w]
            if w not in words or (in_comment and "-" in w):
                return w
            # behind a dot in a function's proof it is a step, which has the name of a function of src/
            if words[w].endswith("_lem") and dotted and in_function:
                return w.replace("-", "_")
            return words[w]

        return TOKEN.sub(one, part)

    lines = []
    for line in text.split("\n"):
        if path.endswith((".md", ".edit")):
            lines.append(turn(line, path.endswith(".md")))
            continue
        cut = re.search(r"(?<![^\s(){};,])" + re.escape(comment), line)
        code, note = (line[: cut.start()], line[cut.start() :]) if cut else (line, "")
        if path.endswith(".rt"):
            out, at = [], 0
            for m in QUOTED.finditer(code):
                out += [turn(code[at : m.start()], False), m[0]]
                at = m.end()
            code = "".join(out) + turn(code[at:], False)
        else:
            code = turn(code, False)
        lines.append(code + turn(note, True))
    return "\n".join(lines)


def files(top):
    for folder in ("crates", "docs"):
        for where, inner, names in os.walk(os.path.join(top, folder)):
            inner[:] = sorted(n for n in inner if n not in ("out", ".git"))
            for n in sorted(names):
                if n.endswith((".antt", ".rt", ".edit") if folder == "crates" else ".md") and n != "PORT.md":
                    yield os.path.join(where, n)
    yield os.path.join(top, "README.md")


def main(argv):
    top = argv[0] if argv else "."
    words, crates = table(), set(os.listdir(os.path.join(top, "crates")))
    # A tree that is turned already has the definitions under these names.
    with open(os.path.join(top, "crates/coding/specs/Bits.antt"), encoding="utf-8") as f:
        if "bytesBits" not in f.read():
            BESIDE.clear()
    count = 0
    for path in files(top):
        with open(path, encoding="utf-8", newline="") as f:
            old = f.read()
        new = turned(old, path, words, crates)
        if new != old:
            count += 1
            with open(path, "w", encoding="utf-8", newline="") as f:
                f.write(new)
    if count:
        for name in sorted(crates):
            where = os.path.join(top, "crates", name)
            if os.path.isdir(os.path.join(where, "src")):
                subprocess.run(["rt", "fmt"], cwd=where, stdout=subprocess.DEVNULL, stderr=subprocess.DEVNULL)
    print(f"respelled: {count} files")
    return 0


if __name__ == "__main__":
    raise SystemExit(main(sys.argv[1:]))
