#!/usr/bin/env python3
"""Brings the repository's own names to today's spelling: words in snake case, as the kit's own.

usage: python3 tools/respell.py [FOLDER]

It was run once, after the kit's port script. tools/respell.txt has a line for each name: the old one, the new one, and, where a field of a
record has the name, the field's new one; - stands for none. Functions of src/, exported C names and texts in quotes keep their names. A law that would have its
definition's name ends in _lem. Files are rewritten in place.
"""

import os
import re
import sys

HERE = os.path.dirname(os.path.realpath(__file__))
TOKEN = re.compile(r"(?<![\w'\-])[A-Za-z_][\w']*(?:-[\w']+)*(?![\w'\-])")
TICKED = re.compile(r"`[^`]*`")


def names():
    with open(os.path.join(HERE, "respell.txt"), encoding="utf-8") as f:
        rows = [line.split() for line in f]
    return {r[0]: r[1] for r in rows if r[1] != "-"}, {r[0]: r[2] for r in rows if r[2] != "-"}


PLAIN, FIELD = names()
# A law that had the new name of its definition already, in the files that speak of the law.
FALLEN = {
    "rows/proofs/Laws.antt": {"by_tags": "by_tags_lem"},
    "rows/proofs/by_tags/Proof.antt": {"by_tags": "by_tags_lem"},
    "theorems/proofs/TagColumn.antt": {"by_tags": "by_tags_lem"},
}


def respelled(code, in_record):
    def turn(m):
        word, before, after = m[0], code[: m.start()], code[m.end() :]
        dotted = before.endswith(".") and not before.endswith("..")
        if word in FIELD:
            is_field = dotted or re.search(r"[{;(,]\s*$|^\s*$", before) and re.match(r"\s*= ", after)
            is_field = is_field or in_record and re.match(r"\s*:", after) and re.match(r"\s*(pub )?$", before)
            if is_field or word not in PLAIN:
                return FIELD[word]
        if dotted and word in PLAIN:
            return PLAIN[word] if PLAIN[word].replace("-", "_") == word.replace("-", "_") else old_step(word)
        return PLAIN.get(word, word)

    return TOKEN.sub(turn, code)


def old_step(word):
    """The name of a step of the code behind a dot, which is a function's, or a definition's behind its module."""
    if "-" in word:
        return word.replace("-", "_")
    return PLAIN[word]


def comment(text):
    text = TICKED.sub(lambda m: TOKEN.sub(lambda w: PLAIN.get(w[0], FIELD.get(w[0], w[0])), m[0]), text)
    return TOKEN.sub(lambda w: PLAIN.get(w[0], w[0]) if re.match(r"[a-z]+[A-Z]", w[0]) else w[0], text)


def parts(line, mark):
    """The line's code, and its comment with the mark."""
    quoted = False
    for i, ch in enumerate(line):
        if ch == '"':
            quoted = not quoted
        elif not quoted and line.startswith(mark, i):
            return line[:i], line[i:]
    return line, ""


def by_quotes(code, turn):
    pieces = re.split(r'("(?:[^"\\]|\\.)*")', code)
    return "".join(p if p.startswith('"') and len(p) > 1 else turn(p) for p in pieces)


def law_turned(text, fallen):
    for old, new in fallen.items():
        text = re.sub(r"(?<![\w'\-.`])" + old + r"(?![\w'\-])(?! computes)", new, text)
    return text


def file_turned(text, mark):
    out, record = [], None
    for line in text.split("\n"):
        code, rest = parts(line, mark)
        indent = len(code) - len(code.lstrip())
        if record is not None and code.strip() and indent <= record:
            record = None
        out.append(by_quotes(code, lambda p: respelled(p, record is not None)) + comment(rest))
        if re.match(r"\s*(pub )?record\s", code):
            record = indent
    return "\n".join(out)


def edit_turned(text, file):
    out = []
    for line in text.split("\n"):
        m = re.match(r"(old: |new: )(.*)", line)
        if m:
            out.append(m[1] + by_quotes(m[2], lambda p: respelled(p, False)))
        else:
            out.append(comment(line) if line.startswith("#") else line)
    return "\n".join(out)


def page_turned(text):
    return TICKED.sub(lambda m: TOKEN.sub(lambda w: PLAIN.get(w[0], FIELD.get(w[0], w[0])), m[0]), text)


def main():
    top = sys.argv[1] if len(sys.argv) > 1 else os.path.join(HERE, "..")
    for folder, dirs, files in os.walk(top):
        dirs[:] = [d for d in dirs if d not in ("out", "target", ".git", "tools")]
        for name in files:
            path = os.path.join(folder, name)
            if name.endswith(".antt"):
                fallen = next((FALLEN[f] for f in FALLEN if path.endswith("/crates/" + f)), {})
                turn = lambda t: file_turned(law_turned(t, fallen), "--")  # noqa: E731, B023
            elif name.endswith(".rt"):
                turn = lambda t: file_turned(t, "//")  # noqa: E731
            elif name.endswith(".edit"):
                turn = lambda t: edit_turned(t, path)  # noqa: E731
            elif name.endswith(".md"):
                turn = page_turned
            else:
                continue
            with open(path, encoding="utf-8", newline="") as f:
                old = f.read()
            new = turn(old)
            if new != old:
                with open(path, "w", encoding="utf-8", newline="") as f:
                    f.write(new)


if __name__ == "__main__":
    main()
