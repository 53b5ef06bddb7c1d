#!/usr/bin/env python3
"""Spells this repository's own definitions and lemmas as its proof language does today: tools/respell.py, once, at the
top, after the toolchain's script has turned the rest. Words are joined by `_`; a dash joins two names; a fact that would
have its definition's name ends in `_lem`. The table beside this file says each name, old and new; what stands here
besides are names that an older lemma and a definition would share in one file. Only .antt and .rt files change; of
comments, names with a capital inside and those in backquotes; strings do not.
"""
import os
import re

HERE = os.path.dirname(os.path.abspath(__file__))
ROOT = os.path.dirname(HERE)
IN_FILES = {
    "available/proofs/ReaderLaws.antt": {"left_over": "left_over_lem"},
    "available/proofs/holds/is_barred/Proof.antt": {"left_over": "left_over_lem"},
    "holds/proofs/ReaderLaws.antt": {"left_over": "left_over_lem"},
    "holds/proofs/holds/is_barred/Proof.antt": {"left_over": "left_over_lem"},
    "sound/proofs/EventsProof.antt": {"look_up": "look_up_lem"},
    "available/proofs/BitLaws.antt": {"same_bool": "same_bool_lem"},
    "holds/proofs/BitLaws.antt": {"same_bool": "same_bool_lem"},
    "demands/specs/RuledOut.antt": {"says_nothing": "says_nothing_lem"},
    "demands/proofs/RuledOutProof.antt": {"says_nothing": "says_nothing_lem"},
}
WORD = re.compile(r"[A-Za-z0-9_'\-ᴰ₀-₉]+")
STRING = re.compile(r'b?"(?:[^"\\]|\\.)*"')


def read_table():
    with open(os.path.join(HERE, "respell.txt"), encoding="utf-8") as f:
        return dict(line.split() for line in f if line.strip())


def in_code(text, table):
    return WORD.sub(lambda m: table.get(m.group(0), m.group(0)), text)


def in_comment(text, table):
    capital = {a: b for a, b in table.items() if re.search("[A-Z]", a[1:])}
    text = re.sub(r"`[^`]*`", lambda m: in_code(m.group(0), table), text)
    return in_code(text, capital)


def in_source(line, table):
    at = line.find("//")
    code, comment = (line, "") if at < 0 else (line[:at], line[at:])
    out, end = "", 0
    for m in STRING.finditer(code):
        out += in_code(code[end:m.start()], table) + m.group(0)
        end = m.end()
    return out + in_code(code[end:], table) + in_comment(comment, table)


def in_proof(line, table):
    m = re.search(r"(^|\s)--(\s|$)", line)
    at = m.start() if m else len(line)
    return in_code(line[:at], table) + in_comment(line[at:], table)


def main():
    table = read_table()
    for folder, dirs, files in os.walk(os.path.join(ROOT, "crates")):
        dirs[:] = [d for d in dirs if d != "out"]
        for name in files:
            if not name.endswith((".antt", ".rt")):
                continue
            path = os.path.join(folder, name)
            with open(path, encoding="utf-8") as f:
                lines = f.read().split("\n")
            own = IN_FILES.get(os.path.relpath(path, os.path.join(ROOT, "crates")), {})
            lines = [in_code(line, own) for line in lines] if own else lines
            turn = in_source if name.endswith(".rt") else in_proof
            text = "\n".join(turn(line, table) for line in lines)
            with open(path, "w", encoding="utf-8") as f:
                f.write(text)


if __name__ == "__main__":
    main()
