#!/usr/bin/env python3
"""respell.py: brings the names that this repository's own definitions and lemmas have to snake case.

usage: tools/respell.py [--look]      at the top of the repository; --look prints the table and writes nothing

A name in lower camel case, as isBlank, becomes is_blank; a dash becomes an underscore, as run-on to run_on. Names from the
library and from src/ keep their spelling. Where a lemma would come to have the name of a definition, or of another name of the
repository, it gets _lem. Two bound names of one function are told apart by the same ending.
"""
import collections, os, re, sys

LOOK = "--look" in sys.argv
SPLIT = re.compile(r'([\s(){}\[\];,."◌⌜⌝`@|]+)')
COMMENT = re.compile(r"--.*|//.*")
STRING = re.compile(r'"(?:[^"\\\n]|\\.)*"')
FOREIGN = ("native", "lib", "mathlib", "Prim", "mir", "borrow", "denote", "seplogic", "logic")


def files(ending):
    for folder, dirs, names in os.walk("crates"):
        dirs[:] = sorted(d for d in dirs if d != "out")
        for name in sorted(names):
            if name.endswith(ending):
                yield os.path.join(folder, name)


def read(path):
    with open(path, encoding="utf-8") as f:
        return f.read()


def code(text):
    """The text without comments and strings."""
    return COMMENT.sub(" ", STRING.sub('""', text))


def is_camel(word):
    return bool(re.match(r"[a-z][A-Za-z0-9_]*$", word)) and any(c.isupper() for c in word)


def is_dashed(word):
    return "-" in word and bool(re.match(r"[a-zA-Z][\w'-]*[\w']$", word)) and not word[0].isdigit()


def snake(word):
    out = []
    for part in word.split("-"):
        if part[:1].islower():
            part = re.sub(r"(?<=[a-z0-9_])([A-Z])", lambda m: "_" + m.group(1).lower(), part).replace("__", "_")
        out.append(part)
    return "_".join(out)


own = [p for p in files(".antt")]
laws = [p for p in own if not p.endswith("/Proof.antt")]
foreign, declared, top, words = set(), set(), set(), collections.Counter()
for p in own:
    t = code(read(p))
    for m in re.finditer(r"^\s*use ([^\s{]+?)\.\{([^}]*)\}", t, re.M):
        path = m.group(1)
        if path.startswith("Rattle.std") or not path.startswith("Rattle."):
            foreign.update(w for w in re.split(r"[\s,]+", m.group(2)) if w)
    for m in re.finditer(r"(?<![\w.])(?:native|lib|mathlib|Prim|mir|borrow|Rattle\.std)(?:\.[\w◌]+)*\.([^\s(){};,.]+)", t):
        foreign.add(m.group(1))
    words.update(w for w in SPLIT.split(t) if w)
for p in laws:
    t = code(read(p))
    for m in re.finditer(r"^[ \t]*(?:abbrev |unfoldable |opaque |pub |private |instance |ruleset |record |data )*(\S+)[ \t]*:(?!:)", t, re.M):
        declared.update(w for w in m.group(1).split("◌") if w)
    for m in re.finditer(r"^(?:abbrev |unfoldable |opaque |pub |private |instance |ruleset |record |data )+(\S+)[ \t]*:(?!:)|^(\S+)[ \t]*:(?!:)", t, re.M):
        top.update(w for w in (m.group(1) or m.group(2)).split("◌") if w)

both = sorted((declared & foreign) - {w for w in declared if not (is_camel(w) or is_dashed(w))})
for w in both:
    print(f"look: {w} is also a name of the library, and keeps its spelling")
old = [w for w in words if w not in foreign and (is_camel(w) or is_dashed(w))]
table = {}
taken = collections.defaultdict(list)
for w in sorted(old, key=lambda w: (not is_camel(w), w)):
    taken[snake(w)].append(w)
for new, ws in sorted(taken.items()):
    first = True
    for w in ws:
        to = new
        if not first or (is_dashed(w) and (new in words or new in foreign)):
            to = new + "_lem"
            while to in words or to in table.values():
                to += "_2"
        if first and is_camel(w) and new in words and (new in top or new in foreign):
            # an older lemma or definition has this spelling already: it makes room
            if new in top and new not in foreign:
                other = new + "_lem"
                print(f"look: {new} -> {other}, for {w}")
                table[new] = other
            else:
                to = new + "_of_text"
                print(f"look: {w} -> {to}: {new} is a name of the library")
        elif first and is_camel(w) and new in words:
            print(f"look: {w} -> {new}, which is a word of proof files already")
        table[w] = to
        first = False
print(f"respell: {len(table)} names; {sum(1 for w, n in table.items() if n.endswith('_lem'))} with _lem")
back = collections.Counter(table.values())
for n, k in back.items():
    if k > 1:
        print(f"look: {k} names fall together as {n}")


def turn(text, chosen):
    """The text with the names of the table, outside strings; in comments only where the name can be no English word."""
    out = []
    for piece in re.split(r'("(?:[^"\\\n]|\\.)*"|--.*|//.*)', text):
        if piece.startswith('"'):
            out.append(piece)
            continue
        comment = piece.startswith(("--", "//"))
        parts = SPLIT.split(piece)
        for i, w in enumerate(parts):
            if w not in chosen:
                continue
            before = parts[i - 1] if i else ""
            if comment and not is_camel(w) and not (before.endswith("`") and i + 1 < len(parts) and parts[i + 1].startswith("`")):
                continue
            if before == "." and i >= 2:
                k = i - 2
                while k >= 2 and parts[k - 1] == ".":
                    k -= 2
                if parts[k] in FOREIGN or (parts[k] == "Rattle" and parts[k + 2 : k + 3] == ["std"]):
                    continue
                if parts[k] == "tie":
                    continue
            parts[i] = chosen[w]
        out.append("".join(parts))
    return "".join(out)


if LOOK:
    for w in sorted(table):
        print(f"{w}\t{table[w]}")
    raise SystemExit(0)
changed = 0
for p in own:
    t = read(p)
    n = turn(t, table)
    if n != t:
        changed += 1
        with open(p, "w", encoding="utf-8") as f:
            f.write(n)
# In src/ only clauses, ghost items and comments name definitions. Source names are in snake case, so a name in camel case
# is a definition; one with another spelling is turned in a line of a clause alone.
camel = {w: n for w, n in table.items() if is_camel(w)}
for p in files(".rt"):
    t = read(p)
    lines = []
    for line in t.split("\n"):
        if re.match(r"\s*(ghost use|requires|ensures|ghost)\b", line):
            lines.append(turn(line, table))
        else:
            lines.append(turn(line, camel))
    n = "\n".join(lines)
    if n != t:
        changed += 1
        with open(p, "w", encoding="utf-8") as f:
            f.write(n)
for p in files(".edit"):
    t = read(p)
    spec = re.search(r"^file: (specs|proofs)/", t, re.M)
    n = turn(t, table if spec else camel)
    if n != t:
        changed += 1
        with open(p, "w", encoding="utf-8") as f:
            f.write(n)
print(f"respell: {changed} files")
