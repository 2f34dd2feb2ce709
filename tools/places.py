#!/usr/bin/env python3
"""Counts in crates/*/src the places of each point of docs/DESIGN-PASS.md.

    python3 tools/places.py [COMMIT] [--list]

Without COMMIT the work tree is read. Each rule goes by the text of the source, so a count is of candidates: the page judges each."""
import re
import subprocess
import sys
from collections import defaultdict

ROOT = subprocess.run(["git", "rev-parse", "--show-toplevel"], capture_output=True, text=True, check=True).stdout.strip()


def sources(commit):
    """The files of crates/*/src, by name."""
    if commit is None:
        names = subprocess.run(["git", "-C", ROOT, "ls-files", "crates/*/src/*.rt"], capture_output=True, text=True, check=True).stdout.split()
        return {name: open(f"{ROOT}/{name}").read() for name in names}
    listed = subprocess.run(["git", "-C", ROOT, "ls-tree", "-r", "--name-only", commit, "crates"], capture_output=True, text=True, check=True).stdout.split()
    names = [name for name in listed if re.fullmatch(r"crates/[^/]+/src/[^/]+\.rt", name)]
    return {name: subprocess.run(["git", "-C", ROOT, "show", f"{commit}:{name}"], capture_output=True, text=True, check=True).stdout for name in names}


def bare(text):
    """Without comments, line by line."""
    return [re.sub(r"//.*", "", line) for line in text.split("\n")]


def lines_like(files, pattern):
    return [f"{name}:{i + 1}: {line.strip()}" for name, text in files.items() for i, line in enumerate(bare(text)) if re.search(pattern, line)]


def items(files, kind):
    """Each struct or enum with its body: (place, name, body)."""
    out = []
    for name, text in files.items():
        clean = "\n".join(bare(text))
        for m in re.finditer(rf"^(?:pub(?:\(crate\))? )?{kind} (\w+)[^{{;]*\{{(.*?)^\}}", clean, re.M | re.S):
            out.append((f"{name}:{clean[: m.start()].count(chr(10)) + 1}", m.group(1), m.group(2)))
    return out


def functions(files):
    """Each function: (place, name, parameters, clauses)."""
    out = []
    for name, text in files.items():
        clean = "\n".join(bare(text))
        for m in re.finditer(r"^\s*(?:pub(?:\(crate\))? )?(?:extern \"C\" )?fn (\w+)(?:<[^(]*>)?\((.*?)\)(.*?)\n\s*\{$|^\s*(?:pub(?:\(crate\))? )?fn (\w+)(?:<[^(]*>)?\((.*?)\)[^\n]*\{$", clean, re.M | re.S):
            fn, params, rest = (m.group(1), m.group(2), m.group(3)) if m.group(1) else (m.group(4), m.group(5), "")
            out.append((f"{name}:{clean[: m.start()].count(chr(10)) + 2}", fn, [p.strip() for p in re.split(r",(?![^<\[]*[>\]])", params) if p.strip()], rest))
    return out


REFUSING = r"^\s*(Refused|Rejected|Reject|Dropped|Nothing|Nowhere|BadImage|Broken|Done|Good)\b"


def points(files):
    enums = [f"{place}: enum {name}" for place, name, body in items(files, "enum") if any(re.search(REFUSING, line) for line in body.split("\n"))]
    flags = [f"{place}: {name}.{field}" for place, name, body in items(files, "struct") for field in re.findall(r"(?:pub )?(\w+): bool", body)]
    numbers = lines_like(files, r"const [A-Z_0-9]+: (u8|u16|u32) = [^;]+;")
    by_width = lines_like(files, r"fn [a-z_]+(8|16|24|32|64|128)\b")
    fns = functions(files)
    loops = lines_like(files, r"^\s*while |\bloop \{")
    codes = [f"{place}: fn {name}" for place, name, _, _ in fns if re.search(r"code$|^code|^same_|^flat_|^offset|_offset$|^low\d|^wide$|^least$", name)]
    printed = lines_like(files, r"\b(text|decimal)\(")
    many = [f"{place}: fn {name} ({len(params)} parameters)" for place, name, params, _ in fns if len(params) >= 6]
    facts = defaultdict(set)
    for place, name, _, rest in fns:
        for clause in re.findall(r"requires[^{]*\{(.*?)\}\n?", rest, re.S):
            for fact in re.split(r"×", clause):
                fact = re.sub(r"[()\s]+", " ", fact).strip()
                if fact:
                    facts[fact].add(place)
    repeated = [f"{len(places)} functions: {fact}" for fact, places in sorted(facts.items()) if len(places) >= 3]
    parallel = [f"{place}: struct {name}" for place, name, body in items(files, "struct") if len(re.findall(r": \[\w+; [A-Z_]+\]", body)) >= 2]
    lengths = [f"{place}: fn {name}" for place, name, params, _ in fns if any("[u8" in p or "[u" in p for p in params) and any(re.match(r"(count|n|binding_count|peer_count|end|at): ", p) for p in params)]
    switches = lines_like(files, r"match (op|phase|code|tag|kind|k)\b")
    return [
        ("1 enums with a refusing or an empty case", enums),
        ("1 flags in a struct", flags),
        ("1 numbers for kinds, answers, steps and limits", numbers),
        ("2 functions told apart by a width", by_width),
        ("3 while and loop", loops),
        ("4 conversions, codes and comparisons by hand", codes),
        ("4 lines that print by hand", printed),
        ("5 functions of six parameters and more", many),
        ("5 facts required by three functions and more", repeated),
        ("6 parallel arrays in a struct", parallel),
        ("6 a buffer and a number of it, as parameters", lengths),
        ("7 switches on a number", switches),
    ]


def main():
    args = [a for a in sys.argv[1:] if not a.startswith("--")]
    for title, places in points(sources(args[0] if args else None)):
        print(f"{len(places):4} {title}")
        if "--list" in sys.argv:
            for place in places:
                print(f"       {place}")


main()
