#!/usr/bin/env python3
"""Lays the statements of two checkouts side by side: docs/PORT.md says which.

usage: compare-statements.py OLD NEW      every declaration of OLD's specs/ that NEW has not, or has otherwise, in specs/ or proofs/Laws/
       compare-statements.py --list NEW   the statements of NEW's proofs/Laws/, whole, as docs/PORT.md ends

A declaration is found under its crate, its file and its name, whether that has `-` or `_`. Its statement is its whole signature with the modules around it;
of a definition, and of everything outside of Laws, the body counts too. A `pub` more is no difference, nor are the names of NAMES.
"""

import os
import re
import sys

SIGNATURE = re.compile(r"^(?:pub |unfoldable |abbrev )*([^\s(){}:;,.=→λ|↦]+)(?:\s*\{[^}]*\})*\s*:(?:\s|$)")
HEAD = re.compile(r"^(?:pub )?(record|data)\s+(\S+)")
NOT_ONE = ("module", "use ", "pub ", "abbrev", "unfoldable", "infix", "mutual")
# what was mended by hand behind the script: a packet's length is a number, and two names that the script took for one
NAMES = [(r"\bIsPacketLength\b", "packet_length"), (r"\bbyte_at_lem\b", "byte_at"), (r"packet\.ptr\b", "packet.ref_ptr")]


def lines_of(path):
    with open(path, encoding="utf-8") as f:
        for line in f:
            line = re.sub(r"(^|\s)--(\s.*)?$", "", line.rstrip("\n")).rstrip()
            if line.strip():
                yield len(line) - len(line.lstrip()), line.strip()


def declarations(path):
    """Its declarations in order: name, modules around, signature, body."""
    lines = list(lines_of(path))
    around, n = [], 0
    while n < len(lines):
        indent, text = lines[n]
        while around and around[-1][0] >= indent:
            around.pop()
        k = n + 1
        if text.startswith("module"):
            while not text.endswith("where") and k < len(lines):
                text, k = text + " " + lines[k][1], k + 1
            around.append((indent, text))
            n = k
            continue
        head, signature = HEAD.match(text), SIGNATURE.match(text)
        if text.startswith(("use ", "mod ", "pub mod", "pub use", "infix", "unfolding", "mutual")) or not (head or signature):
            n += 1
            continue
        while k < len(lines) and lines[k][0] > indent:
            text, k = text + " " + lines[k][1], k + 1
        name, body = (head or signature).group(2 if head else 1), ""
        while signature and not head and k < len(lines) and (lines[k][0] > indent or lines[k][0] == indent and goes_on(lines[k][1], name)):
            body, k = body + " " + lines[k][1], k + 1
        yield name, " | ".join(t for _, t in around), text, body
        n = k


def goes_on(text, name):
    if text.startswith("unfolding") or text.split(" ")[0] == name:
        return True
    return not SIGNATURE.match(text) and not HEAD.match(text) and not text.startswith(NOT_ONE)


def files(root, part):
    for crate in sorted(os.listdir(os.path.join(root, "crates"))):
        base = os.path.join(root, "crates", crate, part)
        for folder, _, names in os.walk(base):
            for n in sorted(names):
                if n.endswith(".antt"):
                    yield crate, os.path.relpath(os.path.join(folder, n), base), os.path.join(folder, n)


def plain(text):
    text = re.sub(r"\s+", " ", re.sub(r"\.(specs|proofs)\.Laws", ".Laws", text)).strip()
    text = re.sub(r"[-_]", "_", text)
    for old, new in NAMES:
        text = re.sub(old, new, text)
    return re.sub(r"^((?:unfoldable |abbrev )?)pub ", r"\1", text)


def table(root, parts):
    found = {}
    for part in parts:
        for crate, at, path in files(root, part):
            if part == "proofs" and not at.startswith("Laws/"):
                continue
            for name, around, text, body in declarations(path):
                key = (crate, at, plain(name))
                found.setdefault(key, []).append((plain(around), plain(text), plain(body), text))
    return found


def compare(old, new):
    before, after = table(old, ["specs"]), table(new, ["specs", "proofs"])
    count = differ = 0
    for key, each in before.items():
        for around, text, body, whole in each:
            count += 1
            alike = [it for it in after.get(key, []) if it[:2] == (around, text)]
            counts = not key[1].startswith("Laws/") or re.match(r"(pub )?(unfoldable|abbrev)\b", whole)
            if not alike or counts and not any(it[2] == body for it in alike):
                differ += 1
                print(*key, "\n    old", around, "::", text, body if counts else "")
                for it in after.get(key, []):
                    print("    new", it[0], "::", it[1], it[2] if counts else "")
    print(f"{count} declarations, {differ} of them gone or otherwise")
    return 1 if differ else 0


def listed(root):
    for crate, at, path in files(root, "proofs"):
        if not at.startswith("Laws/"):
            continue
        print(f"-- crates/{crate}/proofs/{at}")
        last = None
        for _, around, text, body in declarations(path):
            if around != last and around:
                print(f"  in {around}")
            last = around
            if re.match(r"(pub )?(abbrev|unfoldable)\b", text):
                text += " ;" + body
            print("  " * (2 if around else 1) + re.sub(r"\s+", " ", text))
    return 0


if __name__ == "__main__":
    if len(sys.argv) != 3:
        sys.exit(__doc__)
    sys.exit(listed(sys.argv[2]) if sys.argv[1] == "--list" else compare(*sys.argv[1:]))
