#!/usr/bin/env python3
"""Each declaration of specs/ and of the laws in proofs/ that another commit has otherwise, old and new side by side (docs/DESIGN-PASS.md).

usage: design-statements.py OLD NEW      two checkouts

Of a definition the body counts; of a theorem its statement alone. The new one is that of the same file; where the name stands in another file alone, it says in
which, for that may be another declaration."""

import importlib.util
import os
import re
import sys

HERE = os.path.dirname(os.path.abspath(__file__))
spec = importlib.util.spec_from_file_location("compare_statements", os.path.join(HERE, "compare-statements.py"))
statements = importlib.util.module_from_spec(spec)
spec.loader.exec_module(statements)


def is_definition(text):
    return re.match(r"(pub )?((unfoldable|abbrev) )(pub )?", text) is not None


def table(root):
    """By crate and name: where it stands, what it says."""
    found = {}
    for part in ["specs", "proofs"]:
        for crate, at, path in statements.files(root, part):
            if part == "proofs" and not at.startswith("Laws/"):
                continue
            for name, around, text, body in statements.declarations(path):
                said = " ".join((around + " " + text).split())
                if is_definition(text):
                    said += " ;; " + " ".join(body.split())
                found.setdefault((crate, name), []).append((f"{part}/{at}", said))
    return found


def main(old, new):
    before, after = table(old), table(new)
    same = moved = changed = gone = 0
    for (crate, name), each in sorted(before.items()):
        there = after.get((crate, name), [])
        for at, said in each:
            if any(other == said for _, other in there):
                same += 1
                if not any(place == at and other == said for place, other in there):
                    moved += 1
            elif there:
                changed += 1
                place, other = next((t for t in there if t[0] == at), there[0])
                moved_to = "" if place == at else f" (the name in {place})"
                print(f"{crate} {at} `{name}`{moved_to}\n    {said}\n    {other}")
            else:
                gone += 1
                print(f"{crate} {at} `{name}` gone\n    {said}")
    print(f"\n{same} the same ({moved} in another file), {changed} changed, {gone} gone")
    return 0


if __name__ == "__main__":
    if len(sys.argv) != 3:
        sys.exit(__doc__)
    sys.exit(main(*sys.argv[1:]))
