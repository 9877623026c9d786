#!/usr/bin/env python3
"""Spells this repository's own names of specs/ and proofs/ as today's library does.

Run once, at the top of the repository, right after the port's own script. Words are in snake case, types in camel case;
names of the library, names that the checker makes and names of src/ stay. The crate `csv` is called `rfc4180`, since a
library of the kit has its name. Prints what falls together, and renames nothing then.
"""
import glob
import os
import re
import subprocess
import sys

OWN = ("csv", "demand", "input", "plan", "processor", "report", "sizing", "supply", "edf", "fp")
TOKEN = re.compile(r"[^\s(){}\[\],;.:=λ→×⊎≡≢≤<>+*/%^∙«»|\"⟨⟩∷\\@&!?#`]+")
DASHED = re.compile(r"\w-\w")


def lemma_files():
    return sorted(glob.glob("crates/*/specs/*.antt") + glob.glob("crates/*/proofs/*.antt"))


def answer_files():
    return sorted(set(glob.glob("crates/*/proofs/**/*.antt", recursive=True)) - set(lemma_files()))


def read(path):
    with open(path, encoding="utf-8") as f:
        return f.read()


def code(line):
    return "" if line.lstrip().startswith("--") else line.split(" -- ")[0]


def imported(paths):
    names = set()
    for path in paths:
        for where, items in re.findall(r"use ([A-Za-z0-9_.+\-]+)\.\{([^}]*)\}", read(path)):
            parts = where.split(".")
            if not (parts[0] == "Rattle" and parts[1] in OWN):
                names |= {n.strip().split(" as ")[0].strip() for n in items.split(",")}
    return names


# where the plain turn falls together with another name
ASIDE = {"No-drive": "NoCandidate", "getD-nth": "get_or_nth", "getD-none": "get_or_none", "samples-stand": "samples_stand_lem"}


def spelled(name):
    if name in ASIDE:
        return ASIDE[name]
    if name[0].isupper():
        return "".join(p[:1].upper() + p[1:] for p in name.split("-"))
    return name.replace("-", "_")


def names():
    sources = glob.glob("crates/*/src/*.rt")
    library = imported(lemma_files() + answer_files() + sources)
    found, plain = set(), {}
    for path in lemma_files():
        for line in read(path).splitlines():
            for t in TOKEN.findall(code(line)):
                if DASHED.search(t) and t not in library:
                    found.add(t)
                else:
                    plain.setdefault(t, set()).add(path)
    for path in sources:
        for t in TOKEN.findall(read(path)):
            plain.setdefault(t, set()).add(path)
    table = {n: spelled(n) for n in found}
    together = {n: (new, sorted(plain[new])) for n, new in table.items() if new in plain}
    return table, together


def respell(text, table):
    out, at = [], 0
    for m in TOKEN.finditer(text):
        new = table.get(m.group())
        if new:
            out += [text[at : m.start()], new]
            at = m.end()
    return "".join(out) + text[at:]


def ghost_only(text, table):
    """Only the ghost lines and the contracts of a source have such names: no token of Rust has a dash inside."""
    lines = []
    for line in text.splitlines(keepends=True):
        lines.append(line if line.lstrip().startswith("//") else respell(line, table))
    return "".join(lines)


def recrate(text):
    text = re.sub(r"\bRattle\.csv\b", "Rattle.rfc4180", text)
    return re.sub(r"\b(use |crate:: )?csv::", lambda m: (m.group(1) or "") + "rfc4180::", text)


def main():
    table, together = names()
    for n, (new, where) in sorted(together.items()):
        print("together:", n, new, " ".join(where))
    if "--list" in sys.argv:
        return
    for path in lemma_files() + answer_files():
        text = read(path)
        new = recrate(respell(text, table))
        if new != text:
            with open(path, "w", encoding="utf-8") as f:
                f.write(new)
    for path in glob.glob("crates/*/src/*.rt") + glob.glob("crates/*/must-fail/*.edit"):
        text = read(path)
        new = recrate(ghost_only(text, table))
        if new != text:
            with open(path, "w", encoding="utf-8") as f:
                f.write(new)
    if os.path.isdir("crates/csv"):
        subprocess.run(["git", "mv", "crates/csv", "crates/rfc4180"], check=True)
        text = re.sub(r"\bcsv\b", "rfc4180", read("crates.txt"))
        with open("crates.txt", "w", encoding="utf-8") as f:
            f.write(text)


main()
