#!/usr/bin/env python3
"""The project's own part of the port to rattle-kit-13f, beside the kit's port.py.

usage: tools/port.py links   before port.py: each link below crates/ becomes a copy of the file that it names
       tools/port.py names   after port.py: the project's definitions and lemmas take the spelling of today's Rattle:
                             words in snake case; a dash stays between the names of two definitions
"""

import os
import re
import shutil
import sys

WORD = re.compile(r"[^\s(){}\[\]:=.,;`\"|⌜⌝\\/]+")
DECLARED = re.compile(r"^(\s*)((?:(?:abbrev|unfoldable|pub|record|data)\s+)*)([^\s(){}:=.,;]+)(?:\s+[({]|\s*:\s)")
# Words of std that the project's lemmas are named after, beside its own definitions.
STD = {"take", "drop", "length", "append", "sum", "map", "set", "reverse"}
# Names that would fall together with a definition's: a lemma that would have its definition's name gets _lem.
APART = {
    "of-elements": "of_elements_lem",
    "read-node": "read_node_lem",
    "eval-node": "eval_node_lem",
    "at-gate": "at_gate_lem",
    "no-rows": "no_rows_lem",
    "left-id": "left_id_lem",
    "right-id": "right_id_lem",
    "in-turn": "in_turn_lem",
    "added-all": "added_all_lem",
    "opened-at": "opened_at_lem",
    "record-in": "record_in_lem",
    "values-in": "values_in_lem",
    "eval-op": "eval_op_lem",
    "gate-value": "gate_value_lem",
    "wires-of": "wires_of_lem",
    "most-wires": "most_wires_lem",
    "most-cells": "most_cells_lem",
    "sStart": "s_start_of",
    "eval-cells": "eval_cells_lem",
    "evals-at": "evals_at_lem",
    "wires-at": "wires_at_lem",
    "wires-taken": "wires_taken_lem",
    "total-answer": "total_answer_lem",
    "read-list-at": "read_list_at_lem",
    "read-list_at": "read_list_at_lem",
}
# The same for names that port.py had turned already, in the files where both stand.
APART_IN = {
    "crates/trace/proofs/": {"read_made": "read_made_lem"},
    "crates/program/proofs/": {"cells_at": "cells_at_lem"},
    "crates/rows/proofs/AcceptedRecord.antt": {"in_field": "in_field_lem"},
    "crates/record/proofs/Fields.antt": {"reads_at": "reads_place"},
    "crates/record/proofs/BytesRead.antt": {"reads_in": "reads_in_lem"},
}


def links():
    for folder, _, files in os.walk("crates"):
        for file in files:
            path = os.path.join(folder, file)
            if os.path.islink(path):
                source = os.path.realpath(path)
                os.remove(path)
                shutil.copyfile(source, path)


def texts(*endings):
    for top in ("crates", "docs", "tools", "README.md"):
        found = [top] if os.path.isfile(top) else []
        for folder, folders, files in os.walk(top):
            folders[:] = sorted(f for f in folders if f != "out")
            found += [os.path.join(folder, f) for f in sorted(files)]
        yield from (p for p in found if p.endswith(endings) and p != "tools/port.py")


def declared():
    """Each name that a file of specs/ or of lemmas declares, and whether it is a definition of specs/."""
    names = {}
    for path in texts(".antt"):
        if re.search(r"/proofs/.*/\w+\.antt$", path):
            continue
        in_type = False
        for line in open(path, encoding="utf-8"):
            if re.match(r"\S", line):
                in_type = bool(re.match(r"(pub )?(record|data) ", line))
            m = DECLARED.match(line)
            if not m or not (m[1] == "" or "pub " in m[2] or len(m[1]) == 2 and in_type):
                continue
            names[m[3]] = names.get(m[3], False) or "/specs/" in path and len(m[1]) == 0
    return names


def snake(word):
    return re.sub(r"(?<=[a-z0-9₀-₉'])[A-Z]", lambda m: "_" + m[0].lower(), word)


def turned(name, definitions):
    parts = name.split("-")
    text = snake(parts[0])
    for left, right in zip(parts, parts[1:]):
        text += ("-" if {left, right} <= definitions else "_") + snake(right)
    return text


def names():
    known = declared()
    definitions = {n for n, of_specs in known.items() if of_specs} | STD
    table = {}
    for name in known:
        if name[0].islower() and (re.search(r"[a-z0-9][A-Z]", name) or "-" in name):
            table[name] = APART.get(name) or turned(name, definitions)
    words = {n: t for n, t in table.items() if "-" not in n}
    is_first = "readMade" in words
    for path in texts(".antt", ".rt", ".edit", ".md", ".py"):
        text = open(path, encoding="utf-8").read()
        here = dict(words if path.endswith((".rt", ".py")) else table)
        for start, apart in APART_IN.items():
            if is_first and path.startswith(start):
                here.update(apart)
        new = WORD.sub(lambda m: here.get(m[0], m[0]), text)
        if new != text:
            open(path, "w", encoding="utf-8").write(new)


if __name__ == "__main__":
    {"links": links, "names": names}[sys.argv[1]]()
