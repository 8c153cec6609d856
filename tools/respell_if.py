#!/usr/bin/env python3
"""respell_if.py: writes the repository's own conditional, of base/specs/If.antt, `provided b then x else y`.

usage: tools/respell_if.py      at the top of the repository, once, after respell.py

`if b then x else y` is a word of the library now, and rt ci refuses another thing under its name. In src/ only clauses and
ghost items are turned, and of an edit only lines that stand in specs/, in proofs/ or in a clause.
"""
import os, re

PIECE = re.compile(r'("(?:[^"\\\n]|\\.)*"|--.*|//.*)')
WORD = re.compile(r"(?<![\w◌'-])if(?=◌then◌else◌|[ \n])(?![\w'-])")


def files(ending):
    for folder, dirs, names in os.walk("crates"):
        dirs[:] = sorted(d for d in dirs if d != "out")
        for name in sorted(names):
            if name.endswith(ending):
                yield os.path.join(folder, name)


def turn(text):
    pieces = PIECE.split(text)
    for i, piece in enumerate(pieces):
        if i % 2 == 0:
            pieces[i] = WORD.sub("provided", piece)
        elif piece.startswith("--") or piece.startswith("//"):
            pieces[i] = re.sub(r"(?<=`)if(?=◌then◌else◌`)", "provided", piece)
    return "".join(pieces)


def clauses(text):
    """The text of a file of src/, with its clauses and ghost items turned."""
    out, last = [], 0
    for m in re.finditer(r"(?m)^\s*(?:ghost use [^;]*;|(?:requires|ensures)(?: \w+)? \{|ghost \w+: \{)", text):
        if m.start() < last:
            continue
        end = m.end()
        if m.group(0).endswith("{"):
            depth = 1
            while depth:
                depth += {"{": 1, "}": -1}.get(text[end], 0)
                end += 1
        out += [text[last : m.start()], turn(text[m.start() : end])]
        last = end
    return "".join(out) + text[last:]


def write(path, old, new):
    if new != old:
        with open(path, "w", encoding="utf-8") as f:
            f.write(new)
    return new != old


def read(path):
    with open(path, encoding="utf-8") as f:
        return f.read()


changed = 0
for path in files(".antt"):
    text = read(path)
    changed += write(path, text, turn(text))
for path in files(".rt"):
    text = read(path)
    changed += write(path, text, clauses(text))
for path in files(".edit"):
    text = read(path)
    lines, logic = [], False
    for line in text.split("\n"):
        if line.startswith("file: "):
            logic = not line.startswith("file: src/")
        clause = re.match(r"(old|new):\s+(requires|ensures)\b", line)
        lines.append(line[:5] + turn(line[5:]) if line.startswith(("old: ", "new: ")) and (logic or clause) else line)
    changed += write(path, text, "\n".join(lines))
print(f"respell_if: {changed} files")
