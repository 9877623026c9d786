#!/usr/bin/env python3
"""Counts the places in src/ that docs/DESIGN-PASS.md speaks of.

    python3 tools/places.py [COMMIT] [POINT]

Without a commit it reads the files as they lie; with a point from 1 to 7 it prints that point's places alone. It goes
by text: what it finds is a place to look at, and what it can't see is found by reading.
"""
import collections
import re
import subprocess
import sys

MATCHED = {
    "1 own enums and flags": [
        r"^\s*(pub(\(crate\))? )?enum \w+",
        r"\b\w+: bool\b",
        r"-> (Result|Option)<bool",
        r"\b(file|kind|layer|cause): u\d+",
        r"fn number\(self\)",
    ],
    "1 an Option or Result taken apart to be handed on": [
        r"None => (return )?(None|best|false|assert|Err\()",
        r"Err\(_\) => (return )?(None|false|Ok|Err)",
        r"Err\((\w+)\) => (return )?(Err\(|\{)",
        r"Ok\((\w+)\) => (return )?(Ok\(|\1,|match|at = )",
        r"if let Err\(",
        r"let Some\(.*\) = .* else \{",
    ],
    "3 loops": [r"^\s*('\w+: )?(while|loop|for)\b.*\{$"],
    "4 equality, order, copying, conversion, printing": [
        r"fn (compare|wide|number|new|fixed|pair|expected|explain)\(",
        r"impl .*\b(PartialEq|Eq|PartialOrd|Ord|Clone|Copy|Display|From<|TryFrom<)\b.* for ",
        r"\bas u\d+\b|\bas usize\b",
        r"\.layer == |\.file == ",
        r"(eprint|println|write_all)",
    ],
    "6 buffers with a place or a length beside, parallel lists, hand-made searches": [
        r"(buffer|out): &mut \[u8\], (at|n)\b",
        r"^\s*at: usize,$",
        r"\(file: &\[u8\], (at|end)\b",
        r"^    (pub(\(crate\))? )?\w+: Vec<",
        r"let mut (end|at|from|len|text|value)\b",
        r"fn find_\w+",
    ],
    "7 steps chosen by a switch, tables of functions": [
        r"match (self\.source|source|kind|entry|fault\.file|fault\.cause|self|cause|file)\b",
        r"\bdyn\b|\bfn\(",
    ],
}


def files(commit):
    if commit is None:
        listed = subprocess.run(["git", "ls-files"], capture_output=True, text=True, check=True).stdout
    else:
        listed = subprocess.run(["git", "ls-tree", "-r", "--name-only", commit], capture_output=True, text=True, check=True).stdout
    for path in sorted(listed.split("\n")):
        if re.match(r"crates/\w+/src/.*\.rt$", path):
            if commit is None:
                with open(path) as f:
                    yield path, f.read()
            else:
                yield path, subprocess.run(["git", "show", f"{commit}:{path}"], capture_output=True, text=True, check=True).stdout


def functions(text):
    """Each function: its name, its head and its body."""
    for m in re.finditer(r"^( *)(?:pub(?:\(crate\))? )?fn (\w+)", text, re.M):
        end = re.search(r"^" + m[1] + r"(\{\}|\}|.*;)$", text[m.start():], re.M)
        whole = text[m.start(): m.start() + end.end()] if end else text[m.start():]
        head, _, body = whole.partition("\n" + m[1] + "{\n")
        if not body:
            head, _, body = whole.partition(" {\n")
        yield m[2], head, body


def shape(body):
    """A body with names, numbers and layout left out, as words."""
    body = re.sub(r"//.*", "", body)
    body = re.sub(r"'\w+: ", "", body)
    words = re.findall(r"\w+|[^\w\s]", body)
    keep = {"for", "in", "while", "loop", "if", "else", "match", "return", "let", "mut", "Some", "None", "Ok", "Err", "break", "continue"}
    return [w if w in keep or not re.match(r"\w", w) else "x" for w in words]


def likeness(a, b):
    """How much of the longer body the two shapes share, in pieces of four words."""
    one = collections.Counter(zip(a, a[1:], a[2:], a[3:]))
    two = collections.Counter(zip(b, b[1:], b[2:], b[3:]))
    shared = sum((one & two).values())
    return shared / max(1, max(sum(one.values()), sum(two.values())))


def main():
    args = sys.argv[1:]
    point = next((a for a in args if re.fullmatch(r"[1-7]", a)), None)
    commit = next((a for a in args if a != point), None)
    texts = [(p, t) for p, t in files(commit)]
    code = [(p, t) for p, t in texts if not p.endswith("tests.rt")]
    for title, patterns in MATCHED.items():
        if point and not title.startswith(point):
            continue
        found = []
        for path, text in code:
            for number, line in enumerate(text.split("\n"), 1):
                if line.lstrip().startswith(("//", "ghost", "ensures", "requires", "use ")):
                    continue
                if any(re.search(p, line) for p in patterns):
                    found.append(f"    {path}:{number}: {line.strip()}")
        print(f"{title}: {len(found)}")
        print("\n".join(found))
    bodies = [(p, n, h, shape(b)) for p, t in code for n, h, b in functions(t)]
    if point in (None, "2"):
        pairs = []
        for i, (p, n, _, s) in enumerate(bodies):
            for q, m, _, r in bodies[i + 1:]:
                if min(len(s), len(r)) >= 24 and likeness(s, r) >= 0.6:
                    pairs.append(f"    {p} {n} ~ {q} {m}: {likeness(s, r):.0%}")
        types = collections.defaultdict(set)
        for p, t in code:
            for m in re.finditer(r"^pub struct (\w+)[^{;]*\{\n(.*?)^\}", t, re.M | re.S):
                for f in re.findall(r"^    (?:pub(?:\(crate\))? )?(\w+): ", m[2], re.M):
                    types[f"{p} {m[1]}"].add(f)
        names = sorted(types)
        for i, a in enumerate(names):
            for b in names[i + 1:]:
                if len(types[a] & types[b]) >= max(1, (len(types[a] | types[b]) + 1) // 2):
                    pairs.append(f"    {a} ~ {b}: fields {', '.join(sorted(types[a] & types[b]))}")
        print(f"2 functions of one shape, types of like fields: {len(pairs)}")
        print("\n".join(pairs))
    if point in (None, "5"):
        groups = collections.defaultdict(list)
        facts = collections.defaultdict(set)
        for p, t in code:
            for n, h, _ in functions(t):
                inside = h[h.find("(") + 1:]
                params = re.findall(r"\b(\w+): ", inside.split(")")[0])
                for k in range(len(params)):
                    for l in range(k + 1, len(params)):
                        groups[tuple(sorted((params[k], params[l])))].append(f"{p} {n}")
                for fact in re.findall(r"(?:requires|ensures)\s*\w*\s*\{ (.*?) \}$", h, re.M):
                    for part in re.split(r" → | × ", fact):
                        if len(part) > 12 and not part.startswith("result ≡"):
                            facts[part].add(f"{p} {n}")
        often = {g: v for g, v in groups.items() if len(v) >= 4}
        print(f"5 parameters side by side in four or more functions: {len(often)}")
        for g, v in sorted(often.items(), key=lambda x: -len(x[1])):
            print(f"    {', '.join(g)}: {len(v)}")
        shared = {f: v for f, v in facts.items() if len(v) >= 3}
        print(f"5 facts in the contracts of three or more functions: {len(shared)}")
        for f, v in sorted(shared.items(), key=lambda x: -len(x[1])):
            print(f"    {f}: {len(v)}")


main()
