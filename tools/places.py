#!/usr/bin/env python3
"""Counts the places in crates/*/src/*.rt that docs/DESIGN-PASS.md speaks of, point by point, and lists them.

    tools/places.py            the counts
    tools/places.py 3          the places of point 3, a line for each
    tools/places.py --at COMMIT [3]      the same in the tree of a commit
"""
import re
import subprocess
import sys
from collections import defaultdict


def sources(commit):
    """Path and text of each source file."""
    listed = ['git', 'ls-tree', '-r', '--name-only', commit or 'HEAD', 'crates']
    if commit:
        paths = subprocess.run(listed, capture_output=True, text=True, check=True).stdout.split()
    else:
        paths = subprocess.run(['git', 'ls-files', '-co', '--exclude-standard', 'crates'],
                               capture_output=True, text=True, check=True).stdout.split()
    for path in sorted(set(paths)):
        if not re.fullmatch(r'crates/\w+/src/\w+\.rt', path):
            continue
        if commit:
            yield path, subprocess.run(['git', 'show', f'{commit}:{path}'], capture_output=True, text=True, check=True).stdout
        else:
            try:
                yield path, open(path).read()
            except FileNotFoundError:
                pass


def block(lines, i):
    """The lines from i to the end of the block that opens at or after line i."""
    depth, out, opened = 0, [], False
    for j in range(i, len(lines)):
        code = re.sub(r"b?'(\\.|[^'\\])'|//.*", '', lines[j])
        depth += code.count('{') - code.count('}')
        opened = opened or '{' in code
        out.append(lines[j])
        if opened and depth <= 0:
            break
    return out


def functions(text):
    """Line number, name and lines of the body of each function."""
    lines = text.split('\n')
    for i, line in enumerate(lines):
        found = re.match(r'\s*(?:pub(?:\(\w+\))? )?(?:const )?(?:extern "C" )?fn (\w+)', line)
        if not found:
            continue
        for j in range(i, len(lines)):
            if re.match(r'\s*\{\s*$', lines[j]) or lines[j].rstrip().endswith(' {'):
                yield i + 1, found.group(1), block(lines, j), lines[i:j]
                break


def shape(body):
    """A body with its names and numbers taken out."""
    text = ' '.join(re.sub(r'//.*', '', line).strip() for line in body)
    text = re.sub(r"b'(\\.|[^'\\])'", '0', text)
    text = re.sub(r'\b(if|while|for|in|let|mut|return|match|else|as|loop|true|false)\b', lambda m: m.group(1).upper(), text)
    text = re.sub(r'\b[a-z_]\w*(::\w+)*|\b[A-Z][a-zA-Z]*::\w+|\b[A-Z]\w*[a-z]\w*\b|\b[A-Z][A-Z_0-9]+\b(?<!IF)(?<!WHILE)(?<!LET)', 'n', text)
    return re.sub(r'\b[0-9][0-9a-fx_]*\b', '0', text)


def place(path, number, said):
    return f'{path}:{number}: {said.strip()[:110]}'


def point1(files):
    for path, text in files:
        lines = text.split('\n')
        for i, line in enumerate(lines):
            if re.match(r'(pub )?enum \w+', line):
                cases = [c.strip() for c in block(lines, i)[1:-1] if c.strip() and not c.strip().startswith('//')]
                empty = [c for c in cases if re.match(r'\w+,', c)]
                if len(cases) <= 3 and any('(' in c for c in cases) and (len(empty) <= 1 or any('Malformed' in c for c in cases)):
                    yield place(path, i + 1, 'shape of Option or Result: ' + line)
            found = re.match(r'\s+(?:pub )?(\w+): bool,', line)
            if found and re.fullmatch(r'fits|there|told|taken|staged|known|formed|fine', found.group(1)):
                yield place(path, i + 1, 'flag: ' + line)
            if re.match(r'\s+(?:pub )?rule: u64,', line) or re.search(r'Refused\(u64', line):
                yield place(path, i + 1, 'number of refusal: ' + line)
            if re.match(r'\s+(?:pub )?(kind|place|stage|form|order|method|says|key): u64,', line):
                yield place(path, i + 1, 'number of a kind: ' + line)
            if re.match(r'(pub )?const [A-Z_0-9]+: (u64|u8|usize) = \d+;', line) and re.search(r'refusal|code\.rt|lex_keyword/src/lib|line_place|line_path|line_head|line_map|line_matrix|doc/src/lib', path):
                yield place(path, i + 1, 'number of a kind: ' + line)


def point2(files):
    groups = defaultdict(list)
    for path, text in files:
        for number, name, body, _ in functions(text):
            if len(body) >= 4 or 'while' in ' '.join(body):
                groups[shape(body[1:-1])].append((path, number, name))
    for _, same in sorted(groups.items(), key=lambda item: item[1][0]):
        if len(same) > 1:
            for path, number, name in same:
                yield place(path, number, f'{name}, like ' + ', '.join(n for p, m, n in same if (p, m) != (path, number)))


def point3(files):
    for path, text in files:
        lines = text.split('\n')
        for i, line in enumerate(lines):
            if not re.match(r'\s*(while|loop)\b', line):
                continue
            whole = ' '.join(block(lines, i))
            counted = re.search(r'\b(\w+) (\+|-)= (1|BLOCK|EIGHT|[\w:]*WIDTH|width)\b', whole)
            if counted and re.search(r'\[[^\]]*\b' + counted.group(1) + r'\b|\b' + counted.group(1) + r'\b', line + whole):
                yield place(path, i + 1, line)


def point4(files):
    for path, text in files:
        for number, name, body, _ in functions(text):
            joined = ' '.join(b.strip() for b in body)
            if re.fullmatch(r'wide|from_byte|from_short|lesser|greater|minus|and|same_bytes|is_before|is_behind|no_\w+', name) or re.fullmatch(r'\{ \w+ as \w+ \}', joined):
                yield place(path, number, 'fn ' + name)
        for i, line in enumerate(text.split('\n')):
            if re.search(r'\bas (u64|usize|u32|u16)\b', line):
                yield place(path, i + 1, line)


def point5(files):
    facts, together = defaultdict(list), defaultdict(list)
    for path, text in files:
        for number, name, _, head in functions(text):
            said = ' '.join(h.strip() for h in head)
            for clause in re.findall(r'requires (?:\w+ )?\{ (.*?) \}(?= requires| ensures|$)', said):
                for fact in clause.split(' × '):
                    if re.match(r'\(?[A-Z]\w+ ', fact):
                        facts[fact.strip('()')].append((path, number, name))
            names = re.findall(r'(\w+): (&mut \[u64\]|&\[u64\]|&\[u8\]|View|Cursor|State)', said)
            if len(names) >= 3:
                together[', '.join(n for n, _ in names)].append((path, number, name))
    for found, word in ((facts, 'fact'), (together, 'parameters')):
        for said, where in sorted(found.items()):
            if len(where) >= 3:
                path, number, name = where[0]
                yield place(path, number, f'{word} {said} in {len(where)} functions')


def point6(files):
    for path, text in files:
        for i, line in enumerate(text.split('\n')):
            if re.search(r'(?<!&)\[u(8|64); (20|128|[A-Z]+)\]', line) and not line.startswith('const'):
                yield place(path, i + 1, line)
            elif re.match(r'const (STARTS|FIRSTS|LETTERS|BOUNDS|WIDTHS)', line):
                yield place(path, i + 1, line)
            elif re.match(r'\s+(pub )?(bases|counts): \[', line):
                yield place(path, i + 1, line)


def point7(files):
    for path, text in files:
        for i, line in enumerate(text.split('\n')):
            if re.search(r'match (class|step|key|kind|part)\b|if part == ', line):
                yield place(path, i + 1, line)


POINTS = {1: point1, 2: point2, 3: point3, 4: point4, 5: point5, 6: point6, 7: point7}


def main(arguments):
    commit = None
    if '--at' in arguments:
        commit = arguments[arguments.index('--at') + 1]
        arguments = [a for a in arguments if a not in ('--at', commit)]
    files = list(sources(commit))
    if arguments:
        for line in POINTS[int(arguments[0])](files):
            print(line)
        return
    for number, point in POINTS.items():
        print(number, sum(1 for _ in point(files)))


main(sys.argv[1:])
