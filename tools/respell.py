#!/usr/bin/env python3
"""Brings the names of definitions and lemmas to today's spelling: snake case, a dash between two names alone. Run once at the top, behind port.py.

The table is respelled.tsv beside this file: old name, new name. Functions of src/, exported names, strings, inputs and outputs keep their names.
A lemma that would fall together with its definition ends in `_lem`.
"""
import os
import re

HERE = os.path.dirname(os.path.realpath(__file__))
TABLE = dict(line.rstrip("\n").split("\t") for line in open(os.path.join(HERE, "respelled.tsv"), encoding="utf-8"))
# lemmas that had the name in snake case which a definition now has: in these files alone
LEMMAS = {
    "crates/connectivity/proofs/Build.antt": {"all_edges": "all_edges_lem"},
    "crates/record/proofs/Progress.antt": {"all_edges": "all_edges_lem"},
    "crates/text/proofs/RoundTrip.antt": {"column_fits": "column_fits_lem"},
    "crates/verify_firm/proofs/Turns.antt": {"row_number": "row_number_lem"},
}
TOKEN = re.compile(r"[^\s(){}\[\];,.:\"«»`|⌜⌝]+")


def camel(name):
    return "-" not in name


def swap(text, table):
    return TOKEN.sub(lambda m: table.get(m.group(), m.group()), text)


def quoted(text, table):
    """Only what stands between back quotes."""
    return re.sub(r"`[^`\n]+`", lambda m: swap(m.group(), table), text)


def antt(path, text):
    special = LEMMAS.get(path, {})
    out = []
    for line in text.split("\n"):
        code, dash, said = line.partition("-- ") if line.lstrip().startswith("--") or " -- " in line else (line, "", "")
        code = TOKEN.sub(lambda m: special[m.group()] if m.group() in special and code[m.start() - 1:m.start()] != "." else TABLE.get(m.group(), m.group()), code)
        out.append(code + dash + swap(quoted(said, TABLE), CAMEL))
    return "\n".join(out)


def rattle(text):
    out = []
    for line in text.split("\n"):
        if re.match(r"\s*(ghost use|requires|ensures|ghost )", line):
            out.append(swap(line, TABLE))
        else:
            out.append(swap(quoted(line, TABLE), CAMEL))
    return "\n".join(out)


def edit(text):
    """An edit of code is one of clauses too: names of definitions alone, and of specs/ all."""
    return swap(text, TABLE) if "file: specs/" in text else swap(text, CAMEL)


CAMEL = {a: b for a, b in TABLE.items() if camel(a)}


def main():
    for folder, dirs, files in os.walk("crates"):
        dirs[:] = sorted(d for d in dirs if d != "out")
        for name in sorted(files):
            path = os.path.join(folder, name)
            if not name.endswith((".antt", ".rt", ".edit")):
                continue
            text = open(path, encoding="utf-8").read()
            new = antt(path, text) if name.endswith(".antt") else rattle(text) if name.endswith(".rt") else edit(text)
            if new != text:
                open(path, "w", encoding="utf-8").write(new)
    for folder in ("docs", "docs/requests", "."):
        for name in sorted(os.listdir(folder)):
            path = os.path.join(folder, name)
            if name.endswith(".md") and name != "PORT.md" and os.path.isfile(path):
                text = open(path, encoding="utf-8").read()
                new = quoted(text, TABLE)
                if new != text:
                    open(path, "w", encoding="utf-8").write(new)


main()
