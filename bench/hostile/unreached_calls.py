#!/usr/bin/env python3
"""Writes p.c, unreach.prp and w.yml into FOLDER: COUNT functions, each with a loop that changes an object and calls the next function.
Main doesn't reach them (shape `unreached`), or it reaches them all (`reached`); `nested`: unreached, three loops in one another each.

Usage: unreached_calls.py FOLDER COUNT [unreached|reached|nested]"""
import hashlib
import pathlib
import sys

WITNESS = """- entry_type: "invariant_set"
  metadata:
    format_version: "2.0"
    uuid: "01234567-89ab-4cde-8f01-23456789abcd"
    creation_time: "2024-04-10T12:00:00Z"
    producer:
      name: "hand"
      version: "1"
    task:
      input_files:
        - "p.c"
      input_file_hashes:
        "p.c": "{digest}"
      specification: "G ! call(reach_error())"
      data_model: "ILP32"
      language: "C"
  content:
    - invariant:
        type: "loop_invariant"
        location:
          line: {line}
          column: 3
        value: "x >= 0"
        format: "c_expression"
"""


def function(number, shape):
    step = f"g{number}++; f{number + 1}();"
    loops = 3 if shape == "nested" else 1
    body = "while (n--) " * loops + "{ " + step + " }"
    return f"int g{number}; void f{number}(void) {{ int n = 3; {body} }}"


def program(count, shape):
    lines = ["extern void abort(void);", "void reach_error(void) { abort(); }", f"void f{count}(void) {{ }}"]
    lines += [function(number, shape) for number in reversed(range(count))]
    lines += ["int main(void) {", "  int x = 3;"]
    if shape == "reached":
        lines.append("  f0();")
    lines += ["  while (x > 0)", "    x--;", "  return 0;", "}"]
    return "\n".join(lines) + "\n"


def main():
    folder, count = pathlib.Path(sys.argv[1]), int(sys.argv[2])
    shape = sys.argv[3] if len(sys.argv) > 3 else "unreached"
    text = program(count, shape)
    line = 1 + next(n for n, words in enumerate(text.split("\n")) if words.startswith("  while"))
    folder.mkdir(parents=True, exist_ok=True)
    (folder / "p.c").write_text(text)
    (folder / "unreach.prp").write_text("CHECK( init(main()), LTL(G ! call(reach_error())) )\n")
    digest = hashlib.sha256(text.encode()).hexdigest()
    (folder / "w.yml").write_text(WITNESS.format(digest=digest, line=line))


if __name__ == "__main__":
    main()
