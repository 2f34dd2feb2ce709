#!/usr/bin/env python3
"""Respells the definitions and lemmas of this repository: words in snake case, a dash only between two names.

usage: tools/respell.py [--list]     at the top of the repository, right after the kit's port.py, once

It renames what the .antt files of crates/ declare, wherever a whole word of that spelling stands in .antt files, in clauses and `ghost use` lines of
.rt files, in must-fail edits and, in backticks or in camel case, in comments and pages. Goals' names, functions of src/, types and modules stay.

The rules are below; tools/respell-chosen.txt has the names for which they give one that is taken, and tools/respell-table.txt, where it is there, the whole
table: the one that was made where the port began, so that another commit is spelled alike.
"""

import os
import re
import sys

TOKEN = re.compile(r"[^\s()\[\]{};,.=λ→|↦`\"@]+")
SIGNATURE = re.compile(r"^(\s*)(?:pub |unfoldable |abbrev )*([^\s(){}:;,.=→λ|↦]+)(?:\s*\{[^}]*\})*\s*:\s+(.*)$")
# names that a dash may join to another, beside the repository's own definitions
WORDS = set(
    "length take drop append set get_or zero suc none some true false cond map sum all any first last nil cons ok err "
    "min max div mod mul add sub pow le lt eq".split()
)
# where the plain spelling is taken already: a parameter, a field, a source function's word or another definition
CHOSEN = {}
# what the rules and the choices made of the repository where the port began; with it, another commit gets the same spelling
TABLE_FILE = os.path.join(os.path.dirname(os.path.realpath(__file__)), "respell-table.txt")
CHOSEN_FILE = os.path.join(os.path.dirname(os.path.realpath(__file__)), "respell-chosen.txt")


def files(root):
    for folder, dirs, names in os.walk(os.path.join(root, "crates")):
        dirs[:] = sorted(d for d in dirs if d not in ("out", ".git"))
        for n in sorted(names):
            yield os.path.join(folder, n)


def read(p):
    with open(p, encoding="utf-8") as f:
        return f.read()


def snake(word):
    if not word or not (word[0].islower()):
        return word
    word = re.sub(r"([a-z0-9])([A-Z])", r"\1_\2", word)
    word = re.sub(r"([A-Z])([A-Z][a-z])", r"\1_\2", word)
    return word.lower()


def declared(root):
    """Every name that an .antt file declares: definitions (opened by cases or abbreviations), fields, and the rest."""
    definitions, fields, others, types = set(), set(), set(), set()
    for p in files(root):
        if not p.endswith(".antt"):
            continue
        record = None
        for line in read(p).split("\n"):
            if line.strip().startswith("--"):
                continue
            head = re.match(r"^(\s*)(?:pub )?(record|data)\s+(\S+)", line)
            if head:
                record = (len(head.group(1)), head.group(2))
                types.add(head.group(3))
                continue
            if record and line.strip() and len(line) - len(line.lstrip()) <= record[0]:
                record = None
            m = SIGNATURE.match(line)
            if not m:
                continue
            indent, name, rest = m.groups()
            if re.match(r"(tie|goal)\.", rest) or name in ("where", "let", "in", "use"):
                continue
            if record and record[1] == "record":
                fields.add(name)
            elif re.match(r"^\s*(?:pub )?(?:unfoldable|abbrev)\b", line) or record:
                definitions.add(name)
            else:
                others.add(name)
    return definitions, fields, others, types


def outside(root):
    """Names that come from elsewhere: what use lines bring from outside the repository's crates."""
    crates = set(os.listdir(os.path.join(root, "crates")))
    found = set()
    for p in files(root):
        if not p.endswith((".antt", ".rt")):
            continue
        for m in re.finditer(r"use ([\w.'\-+]+)\.\{([^}]*)\}", read(p)):
            parts = m.group(1).split(".")
            if parts[0] == "Rattle" and parts[1] in crates and "declared" not in parts and "contracts" not in parts:
                continue
            if parts[0] in ("Rattle", "Prim", "borrow", "lib", "denote", "mathlib", "seplogic", "sem"):
                for n in m.group(2).split(","):
                    found.add(n.strip().split(" as ")[0])
    return found


def mapping(root):
    definitions, fields, others, types = declared(root)
    names = definitions | fields | others
    known = {snake(n) for n in definitions} | definitions | WORDS | types

    def spell(name):
        if name in CHOSEN:
            return CHOSEN[name]
        if not name[0].isalpha() or not re.match(r"^[A-Za-z0-9_'\-]+$", name):
            return name
        parts = [snake(s) for s in name.split("-")]
        if name in fields:
            return "_".join(parts)
        text = parts[0]
        for i in range(1, len(parts)):
            left = text in known or parts[i - 1] in known
            right = "-".join(parts[i:]) in known or "_".join(parts[i:]) in known or parts[i] in known
            text += ("-" if left and right else "_") + parts[i]
        return text

    brought = outside(root)
    table = {}
    for n in sorted(names):
        new = spell(n)
        if new != n and n not in brought:
            table[n] = new
    return table, names, brought


def main():
    root = "."
    if os.path.exists(CHOSEN_FILE):
        for line in read(CHOSEN_FILE).split("\n"):
            words = line.split()
            if len(words) == 2:
                CHOSEN[words[0]] = words[1]
    table, names, brought = mapping(root)
    if os.path.exists(TABLE_FILE):
        rows = [line.split() for line in read(TABLE_FILE).split("\n")]
        table = {words[0]: words[1] for words in rows if len(words) == 2}
    # names that fall together
    bad = 0
    back = {}
    for n in sorted(names):
        back.setdefault(table.get(n, n), []).append(n)
    for new, olds in sorted(back.items()):
        if len(olds) > 1:
            print("together:", new, "<-", ", ".join(olds))
            bad += 1
    for n, new in table.items():
        if new in brought:
            print("brought from elsewhere too:", n, "->", new)
            bad += 1
    words = set()
    for p in files(root):
        if p.endswith(".rt"):
            code = re.sub(r"//.*", "", read(p))
            code = re.sub(r"(requires|ensures)\*? ?\w* ?\{[^\n]*\}", "", code)
            code = re.sub(r"ghost use [^;]*;", "", code)
            words |= set(re.findall(r"(?:\bfn |\bconst |\bstruct |\bmod )?\b[a-z_][a-z0-9_]*(?=\s*:)", code))
    for n, new in sorted(table.items()):
        if new in words:
            print("a parameter or a field has it:", n, "->", new)
            bad += 1
    if "--list" in sys.argv:
        for n, new in sorted(table.items()):
            print(n, new)
        print(len(table), "names,", bad, "to look at")
        return
    # parts of operators, and variables
    for n in "atLeast andThen atByte memoryLength sttPort".split():
        table[n] = snake(n)
    camel = {n: new for n, new in table.items() if re.search(r"[a-z0-9][A-Z]", n)}

    def words_in(text, names):
        return TOKEN.sub(lambda m: "◌".join(names.get(w, w) for w in m.group(0).split("◌")), text)

    def comment(text):
        text = re.sub(r"`[^`]*`", lambda m: words_in(m.group(0), table), text)
        return re.sub(r"[A-Za-z0-9_'\-]+", lambda m: camel.get(m.group(0), m.group(0)), text)

    def antt(text):
        out = []
        for line in text.split("\n"):
            m = re.match(r"^(.*?)(?:^|(?<=\s))--(?=\s|$)(.*)$", line)
            out.append(words_in(m.group(1), table) + "--" + comment(m.group(2)) if m else words_in(line, table))
        return "\n".join(out)

    def source(text):
        parts = re.split(r"(//[^\n]*|ghost use [^;]*;|(?:requires|ensures)\*?(?: \w+)? \{(?:[^{}]|\{[^{}]*\})*\}|ghost \w+: \{(?:[^{}]|\{[^{}]*\})*\})", text)
        for i in range(1, len(parts), 2):
            parts[i] = comment(parts[i]) if parts[i].startswith("//") else words_in(parts[i], table)
        return "".join(parts)

    def edit(text):
        out = []
        kind = ""
        for line in text.split("\n"):
            if line.startswith("file:"):
                kind = line.rsplit(".", 1)[-1].strip()
            if line.startswith("#"):
                line = comment(line)
            elif re.match(r"(old|new):", line) and kind == "antt":
                line = line[:4] + words_in(line[4:], table)
            elif re.match(r"(old|new):", line) and re.search(r"requires|ensures|ghost", line):
                line = line[:4] + words_in(line[4:], table)
            out.append(line)
        return "\n".join(out)

    changed = 0
    for p in files(root):
        turn = antt if p.endswith(".antt") else source if p.endswith(".rt") else edit if p.endswith(".edit") else None
        if not turn:
            continue
        old = read(p)
        new = turn(old)
        if new != old:
            with open(p, "w", encoding="utf-8") as f:
                f.write(new)
            changed += 1
    for folder in (".", "docs", "docs/changes", "host", "crates"):
        for n in sorted(os.listdir(folder)):
            if n.endswith(".md"):
                p = os.path.join(folder, n)
                old = read(p)
                new = comment(old)
                if new != old:
                    with open(p, "w", encoding="utf-8") as f:
                        f.write(new)
                    changed += 1
    print(len(table), "names respelled in", changed, "files;", bad, "to look at")


main()
