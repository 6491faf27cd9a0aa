#!/usr/bin/env python3
"""Writes p.c, unreach.prp and w.yml into FOLDER: a program with NAMES objects that are visible at its last statements, and a witness of
ITEMS items there. The names are local (shape `local`), static (`static`), or parameters and static in halves (`mixed`); the items are
assumptions of a violation sequence (`assumption`) or location invariants (`invariant`). Each item reads WORDS of the names.

Usage: names.py FOLDER NAMES ITEMS [local|static|mixed] [assumption|invariant] [WORDS]"""
import hashlib
import pathlib
import sys

HEAD = """- entry_type: {kind}
  metadata:
    format_version: "2.0"
    uuid: 01234567-89ab-4cde-8f01-23456789abcd
    creation_time: "2024-04-10T12:00:00Z"
    producer: {{name: bench, version: "1"}}
    task: {{input_files: [p.c], input_file_hashes: {{p.c: {digest}}}, specification: G ! call(reach_error()), data_model: LP64, language: C}}
  content:
"""


def declared(names):
    rows = [names[at:at + 100] for at in range(0, len(names), 100)]
    return ["int " + ", ".join(row) + ";" for row in rows]


def program(names, shape):
    outside = {"local": 0, "static": len(names), "mixed": len(names) // 2}[shape]
    lines = ["void reach_error() { }"] + declared(names[:outside]) + ["int main() {"] + declared(names[outside:])
    return "\n".join(lines + ["reach_error();", "return 0;", "}"]) + "\n"


def item(kind, line, text):
    if kind == "invariant":
        return f"  - invariant: {{type: location_invariant, location: {{line: {line}}}, value: \"{text}\", format: c_expression}}\n"
    return f"  - segment: [{{waypoint: {{type: assumption, action: follow, location: {{line: {line}}}, constraint: {{value: \"{text}\"}}}}}}]\n"


def main():
    folder, count, items = pathlib.Path(sys.argv[1]), int(sys.argv[2]), int(sys.argv[3])
    shape = sys.argv[4] if len(sys.argv) > 4 else "local"
    kind = sys.argv[5] if len(sys.argv) > 5 else "assumption"
    words = int(sys.argv[6]) if len(sys.argv) > 6 else 1
    names = [f"x{number}" for number in range(count)]
    text = program(names, shape)
    line = 1 + text.split("\n").index("reach_error();")
    folder.mkdir(parents=True, exist_ok=True)
    (folder / "p.c").write_text(text)
    (folder / "unreach.prp").write_text("CHECK( init(main()), LTL(G ! call(reach_error())) )\n")
    digest = hashlib.sha256(text.encode()).hexdigest()
    witness = HEAD.format(kind="invariant_set" if kind == "invariant" else "violation_sequence", digest=digest)
    for number in range(items):
        used = [names[(number * 7919 + 104729 * word) % count] for word in range(words)]
        witness += item(kind, line, " + ".join(used) + " == 0")
    if kind == "assumption":
        witness += f"  - segment: [{{waypoint: {{type: target, action: follow, location: {{line: {line}}}}}}}]\n"
    (folder / "w.yml").write_text(witness)


if __name__ == "__main__":
    main()
