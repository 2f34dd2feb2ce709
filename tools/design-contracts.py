#!/usr/bin/env python3
"""The functions that another crate can call, and the exports, whose signature or clauses another commit has otherwise, old and new (docs/DESIGN-PASS.md).

usage: design-contracts.py OLD NEW      two checkouts

A function is known by its crate, module, type and name; MOVED says which one stands for one that is gone. What stands for several is listed with each."""

import os
import re
import sys

# old name -> what states its promise now
MOVED = {
    "reassembly::slot::free_peer": "reassembly::slot::Peer::free",
    "reassembly::take::rejection_code": "reassembly::take::Rejection::code",
    "reassembly::take::take": "reassembly::take::Peer::take",
    "reassembly::tick::tick_row": "reassembly::tick::Peer::tick",
    "wire::refusal::code": "wire::refusal::Refusal::code",
    "wire::refusal::offset": "wire::refusal::Refusal::offset",
    "wire::field::get8": "wire::field::get",
    "wire::field::get16": "wire::field::get",
    "wire::field::get24": "wire::field::get",
    "wire::field::get32": "wire::field::get",
    "wire::field::get64": "wire::field::get",
    "wire::field::set8": "wire::field::set",
    "wire::field::set16": "wire::field::set",
    "wire::field::set24": "wire::field::set",
    "wire::field::set32": "wire::field::set",
    "wire::field::set64": "wire::field::set",
    "endpoint::code::drop_code": "endpoint::code::Drop::code",
    "endpoint::code::drop_offset": "endpoint::code::Drop::offset",
    "endpoint::code::config_code": "endpoint::code::ConfigRefusal::code",
    "endpoint::code::wrap_code": "endpoint::code::WrapRefusal::code",
    "endpoint::config::start": "endpoint::config::Endpoint::start",
    "endpoint::config::list_peer": "endpoint::config::Endpoint::add_peer",
    "endpoint::config::add_peer": "endpoint::config::Endpoint::add_peer",
    "endpoint::config::list_binding": "endpoint::config::Endpoint::add_binding",
    "endpoint::config::add_binding": "endpoint::config::Endpoint::add_binding",
    "endpoint::tick::tick": "endpoint::tick::Endpoint::tick",
    "endpoint::receive::open": "endpoint::receive::Endpoint::open",
    "endpoint::receive::deliver": "endpoint::receive::Endpoint::deliver",
    "endpoint::receive::receive": "endpoint::receive::Endpoint::receive",
    "endpoint::wrap::wrap_on": "endpoint::wrap::Endpoint::wrap",
    "endpoint::wrap::wrap": "endpoint::wrap::Endpoint::wrap",
    "detector::detector::start": "detector::detector::Detector::start",
    "detector::observe::observe_in": "detector::detector::Detector::observe",
    "detector::observe::observe": "detector::detector::Detector::observe",
    "image::code::save_code": "image::code::SaveRefusal::code",
    "image::code::load_code": "image::code::BadImage::code",
    "image::save::save_in": "image::save::save",
    "trace::reader::read_header": "trace::reader::Reader::read_header",
    "trace::reader::read_record": "trace::reader::Reader::read_record",
    "reference::reassembler::start": "reference::reassembler::Reassembler::start",
    "reference::receive::receive": "reference::receive::Reassembler::receive",
    "reference::tick::tick": "reference::tick::Reassembler::tick",
    "image::code::load_code": "image::code::load_code",
    "endpoint::code::added_code": "endpoint::code::config_answer_code",
    "endpoint::code::start_code": "endpoint::code::config_answer_code",
    "endpoint::code::tick_code": "endpoint::tick::Endpoint::tick",
    "niulassenc::answer::flat_received": "niulassenc::answer::From<Result<Received, Drop>> for Receipt::from",
}
PROGRAMS = ("program", "replay", "roundtrip", "rack", "dissect", "rerun")


def functions(root):
    """name -> signature with its clauses, of all that is `pub` or an impl of a trait."""
    found = {}
    for crate in sorted(os.listdir(os.path.join(root, "crates"))):
        folder = os.path.join(root, "crates", crate, "src")
        if crate in PROGRAMS or not os.path.isdir(folder):
            continue
        for file in sorted(os.listdir(folder)):
            if not file.endswith(".rt"):
                continue
            module = f"{crate}::{file[:-3]}" if file != "lib.rt" else crate
            text = "\n".join(re.sub(r"//.*", "", line) for line in open(os.path.join(folder, file), encoding="utf-8").read().split("\n"))
            around = given = None
            lines = text.split("\n")
            n = 0
            while n < len(lines):
                line = lines[n]
                m = re.match(r"impl(?:<[^>]*>)? (.*?) \{$", line)
                if m:
                    around, given = m.group(1), None
                elif line == "}":
                    around = None
                if re.match(r"\s*ghost from_gives =", line):
                    given = line.strip().rstrip(";")
                m = re.match(r"(\s*)(pub )?(?:const )?(?:extern \"C\" )?fn (\w+)", line)
                trait = around is not None and " for " in around
                if m and (m.group(2) or trait):
                    k, said = n, []
                    while True:
                        said.append(lines[k].strip())
                        if lines[k].rstrip() == m.group(1) + "{" or lines[k].rstrip().endswith(" {") and not re.match(r"\s*(requires|ensures|where)", lines[k]):
                            break
                        k += 1
                    whole = " ".join(said).rstrip("{").strip()
                    if trait and given:
                        whole += f" ensures {given}"
                    name = f"{module}::{around}::{m.group(3)}" if around else f"{module}::{m.group(3)}"
                    found[name] = re.sub(r"\(\s+", "(", re.sub(r",\s*\)", ")", re.sub(r"\s+", " ", whole)))
                    n = k
                n += 1
    return found


def shown(said):
    return re.sub(r" (requires|ensures|where)\b", r"\n        \1", said)


def main(old, new):
    before, after = functions(old), functions(new)
    same, stood = 0, set()
    for name, said in before.items():
        other = name if name in after else MOVED.get(name)
        if other in after:
            stood.add(other)
        if other == name and after[name] == said:
            same += 1
            continue
        print(f"{name}" + ("" if other == name else f" -> {other}"))
        print("    " + shown(said))
        print("    " + (shown(after[other]) if other in after else "gone"))
    fresh = [name for name in after if name not in before and name not in stood]
    for name in fresh:
        print(f"new: {name}")
        print("    " + shown(after[name]))
    print(f"\n{len(before)} functions before, {same} of them the same; {len(after)} now, {len(fresh)} new")


if __name__ == "__main__":
    if len(sys.argv) != 3:
        sys.exit(__doc__)
    main(*sys.argv[1:])
