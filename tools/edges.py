#!/usr/bin/env python3
"""Reads the expected output of the programs edges* and fails unless it names every refusal number at
every entry point that can give it, an accepted case of every entry point, and every edge that document
01 lists. A refusal that an entry point cannot give, and a case named twice, are faults too."""
import pathlib
import re
import sys

COUNTS = "test_counts new eval_circuit add_circuit_evaluation program"
RECORD = "test fill write_into"
STATE = "fill_state write_state_into"
STEPS = "do_read do_eval output_value"
GATES = "do_eval eval_circuit program"
FIELD = "felt::add felt::sub felt::mul quad::add quad::sub quad::mul"
READERS = "numbers::read numbers::read_below read_from program"

# Which calls can give a refusal, from document 01's "Numbers of refusal".
GIVEN_BY = {
    1: COUNTS,
    2: COUNTS,
    3: COUNTS,
    4: "eval_circuit program",
    5: "eval_circuit program",
    6: f"new {STEPS} {RECORD} {STATE} eval_circuit",
    7: f"{FIELD} decode_instruction do_read {GATES}",
    8: f"decode_instruction {GATES}",
    9: GATES,
    10: GATES,
    11: f"output_value finalized {STATE}",
    12: "output_value eval_circuit program",
    13: f"{STEPS} finalized {STATE} add_circuit_evaluation trace_len first_row",
    14: "fill fill_state",
    15: READERS,
    16: READERS,
    17: f"numbers::read_below {RECORD} {STATE} read_from program",
    18: "read_from",
    19: f"{RECORD} read_from",
    20: "read_from",
    21: f"{RECORD} read_from",
    22: "read_from",
    23: "read_from program",
    24: "numbers::write write_into write_state_into read_from program",
    25: "add_circuit_evaluation",
    26: "first_row",
}

# Words of the names of the cases under "Both sides of each edge" and "Errors a careful reader still
# makes".
EDGES = [f"P{k}," for k in range(1, 13)] + [
    "eval_circuit: counts 4 and 32764 pass 1",
    "eval_circuit: counts 6 and 32764",
    "eval_circuit: counts 32769 and 0, size before evenness",
    "eval_circuit: counts 3 and 5",
    "eval_circuit: memory of 7 cells",
    "eval_circuit: the first gate names id 3, itself, on the left",
    "eval_circuit: the first gate names id 6 on the left",
    "eval_circuit: the record's limit of wires",
    "eval_circuit: the last READ wire is zero, the last wire not",
    "eval_circuit: the same total of counts, other counts",
    "do_eval: Add of 5 and 5 counts the wire twice",
    "program: the listing",
]

# A line that starts with a digit is a row of the program's text.
CASE = re.compile(r"^([a-z_:]+): (.+) = (accept|refuse (\d+))\b")


def cases():
    for path in sorted(pathlib.Path("crates").glob("edges*/stdout")):
        for line in path.read_text("utf-8").splitlines():
            if not line[:1].isdigit():
                yield line, CASE.match(line)


def main():
    wanted = {(entry, number) for number, entries in GIVEN_BY.items() for entry in entries.split()}
    found, accepted, names, faults = set(), set(), set(), []
    for line, case in cases():
        if not case:
            faults.append(f"no case: {line}")
            continue
        entry, name = case.group(1), case.group(0).rsplit(" = ", 1)[0]
        if name in names:
            faults.append(f"named twice: {name}")
        names.add(name)
        if case.group(4):
            found.add((entry, int(case.group(4))))
        else:
            accepted.add(entry)
    faults += [f"{entry} is never refused {number}" for entry, number in sorted(wanted - found)]
    faults += [f"{entry} cannot be refused {number}" for entry, number in sorted(found - wanted)]
    faults += [f"{entry} is never accepted" for entry in sorted({e for e, _ in wanted} - accepted)]
    faults += [f"no case: {edge}" for edge in EDGES if not any(edge in name for name in names)]
    for fault in faults:
        print(f"edges: {fault}", file=sys.stderr)
    print(f"edges: {len(names)} cases, {len(found & wanted)} of {len(wanted)} refusals by entry point")
    sys.exit(1 if faults else 0)


if __name__ == "__main__":
    main()
