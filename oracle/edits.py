#!/usr/bin/env python3
"""usage: edits.py SRC OUT. Copies the Rust of the ACE chiplet from SRC, the folder docs/src, to OUT, with
the edits below. Each of their texts must stand exactly once in its file, or nothing is built."""
import pathlib
import sys

ACE = "src/trace/chiplets/ace/"
TRACE = ACE + "trace.rs"
INSTRUCTION = ACE + "instruction.rs"
MOD = ACE + "mod.rs"
EVAL_CIRCUIT = "src/execution/operations/eval_circuit.rs"
FILES = [TRACE, INSTRUCTION, MOD, EVAL_CIRCUIT]

# file, old text, new text
REPLACED = [
    # a module that sees private fields (opened.rs)
    (TRACE, "use super::{\n", "mod opened;\npub use opened::Opened;\n\nuse super::{\n"),
    (MOD, "pub use trace::CircuitEvaluation;\n", "pub use trace::{CircuitEvaluation, Opened};\n"),
    # decode, to be called alone (steps.rs)
    (MOD, "mod instruction;\n", "pub mod instruction;\n"),
    # what the cut below leaves unused
    (EVAL_CIRCUIT, "    processor::{MemoryInterface, Processor, StackInterface, SystemInterface},\n",
     "    processor::MemoryInterface,\n"),
    (EVAL_CIRCUIT, "    tracer::Tracer,\n", ""),
]

# file, the text where the cut begins, the text before which it ends
CUT = [
    # the operation of the virtual machine around `eval_circuit_impl`
    (EVAL_CIRCUIT, "/// Checks that the evaluation of an arithmetic circuit is equal to zero.\n",
     "/// Constructs a witness for an arithmetic circuit"),
]


def place(file, text, part):
    found = text.count(part)
    if found != 1:
        sys.exit(f"oracle: {file} has {found} times, not once, the text {part!r}")
    return text.index(part)


def edited(file, text):
    for _, old, new in (edit for edit in REPLACED if edit[0] == file):
        place(file, text, old)
        text = text.replace(old, new)
    for _, start, end in (cut for cut in CUT if cut[0] == file):
        first = place(file, text, start)
        last = place(file, text, end)
        if last < first:
            sys.exit(f"oracle: in {file} a cut ends before it begins")
        text = text[:first] + text[last:]
    return text


def main():
    source, out = map(pathlib.Path, sys.argv[1:])
    for file in FILES:
        target = out / file
        target.parent.mkdir(parents=True, exist_ok=True)
        target.write_text(edited(file, (source / file).read_text("utf-8")), "utf-8")


main()
