#!/usr/bin/env python3
"""Holds docs/VALIDATION.md to the code. Every name on it exists: definitions and theorems, public
functions, must-fail edits, run cases, and the text of each named form. A row of a refusal says what is
so: the definition has the number in it, the contract comes to that definition, and each run case is
refused so. No public function, refusal at an entry point, P case, edge or named form is missing. Words
in double quotes are document 01's, and are compared with it where it is at hand."""
import pathlib
import re
import sys

import contracts
import edges
import wrong

PAGE = pathlib.Path("docs/VALIDATION.md")
DOCUMENT = pathlib.Path("../shared/docs/01-scope.md")
TABLE = pathlib.Path("crates/table/specs/Cases.antt")
MARKED = [f"P{k}" for k in range(1, 13)]
FORMS = "Named forms"
DEMANDS = ["Demand 1", "Demand 2", "Demand 3"]
# In the last cell of these a run case is named with its entry point.
RUNS = ["P1 to P12", "The other edges", "Errors a careful reader still makes"]
RUNS += ["Wrong builds that document 01 names"]

# A declaration at the margin, or one that an unnamed module makes public; a record's fields are none.
HOW = r"(?: *(?:abbrev |unfoldable )?pub |abbrev |unfoldable )?(?:data |record )?"
DECLARED = re.compile(rf"^{HOW}([^\s:(){{}}]+)(?= :| \()", re.M)
FIELDS = re.compile(r"^( *)((?:pub )?(?:record|data) .*\n)(?:\1 .*\n|\n(?=\1 ))+", re.M)


def one_line(text):
    return " ".join(text.split())


def ticked(text):
    return re.findall(r"`([^`]+)`", text)


def items(cell):
    return [item.strip() for item in cell.split(";")]


def sections(page):
    """The rows of each heading's table, without the row of titles."""
    found, heading = {}, ""
    for line in page.splitlines():
        if line.startswith("#"):
            heading = line.lstrip("# ")
        elif line.startswith("|") and not line.startswith("|---"):
            found.setdefault(heading, []).append([cell.strip() for cell in line.strip("|").split("|")])
    return {heading: rows[1:] for heading, rows in found.items()}


def declarations():
    """What specs and proofs declare: the files of each name, and the text of each definition."""
    files, says = {}, {}
    for file in sorted(pathlib.Path("crates").glob("*/*/**/*.antt")):
        text = re.sub(r"(?m)(^|\s)-- .*$", "", FIELDS.sub(r"\1\2\n", file.read_text("utf-8")))
        for block in re.split(r"\n\s*\n", text):
            for name in DECLARED.findall(block):
                files.setdefault(name, set()).add(str(file.relative_to("crates")))
                if file.parts[2] == "specs":
                    says[name] = says.get(name, "") + block
    return files, says


def promises():
    """The public functions, and the text of each one's contract; those of a static library are another library's."""
    for root in sorted(pathlib.Path("crates").glob("*/src/lib.rt")):
        name = root.parents[1].name
        for file, path in contracts.modules(root, f"{name}::") if name not in contracts.exports() else ():
            text = contracts.without_comments(file.read_text("utf-8"))
            for name, _, _, _, clauses in contracts.functions(text, path):
                yield name, " ".join(body for _, body in clauses)


class Code:
    def __init__(self):
        self.files, self.says = declarations()
        self.promises = dict(promises())
        self.edits = set(wrong.names())
        self.cases = {f"{case[1]}: {case[2]}": int(case[4] or 0) for _, case in edges.cases() if case}
        self.given = {(entry, n) for n, entries in edges.GIVEN_BY.items() for entry in entries.split()}

    def has(self, name):
        if "/" in name:
            return name in self.edits or pathlib.Path(name).exists() or pathlib.Path("crates", name).exists()
        return name in self.promises or name in self.files or any(name == entry for entry, _ in self.given)

    def reached(self, contract):
        """The definitions that a contract uses, and those that they use."""
        seen, todo = set(), [self.promises.get(contract, "")]
        while todo:
            new = set(re.findall(r"[\w-]+", todo.pop())) & self.says.keys() - seen
            seen |= new
            todo += [self.says[name] for name in new]
        return seen


def of_edits(cell, crate):
    """An edit is of the function's own crate, or stands behind `below` and is of another."""
    own, _, below = cell.partition("below:")
    if not ticked(cell) and cell != "none":
        yield "names no must-fail edit and does not say none"
    yield from (f"has {e}, which is not of its crate" for e in ticked(own) if not e.startswith(f"{crate}/"))
    yield from (f"has {e} below, which is of its crate" for e in ticked(below) if e.startswith(f"{crate}/"))


def of_row(entry, number, row, code):
    definition, contract = ticked(row[1])[0], ticked(row[2])[0]
    if (entry, number) not in code.given:
        yield "is not refused so"
    if not f"::{contract}".endswith("::program::answer" if entry == "program" else f"::{entry}"):
        yield f"has the contract of {contract}"
    if not re.search(rf"\b(?:refused|operand) {number}\b", code.says.get(definition, "")):
        yield f"has the definition {definition}, which does not give the number"
    if definition not in code.reached(contract):
        yield f"has the definition {definition}, to which the contract of {contract} does not come"
    yield from of_edits(row[3], contract.split("::")[0])
    others = [run for run in items(row[4]) if code.cases.get(f"{entry}: {run}") != number]
    yield from (f"has no run case '{run}' with this number" for run in others)


def of_refusals(parts, code):
    rows = {}
    for number in range(1, 27):
        for row in parts.get(f"Refusal {number}", []):
            if len(row) != 5 or not all(map(ticked, row[:3])):
                yield f"refusal {number}: no row of five cells: {' | '.join(row)[:60]}"
                continue
            entry = ticked(row[0])[0]
            if rows.setdefault((entry, number), row) is not row:
                yield f"refusal {number}: {entry} has two rows"
            yield from (f"refusal {number}: {entry} {fault}" for fault in of_row(entry, number, row, code))
    yield from (f"refusal {n}: {entry} has no row" for entry, n in sorted(code.given - rows.keys()))
    listed = {name: row[1] for row in parts.get("Public functions", []) for name in ticked(row[0])}
    yield from (f"{name} is public and has no row" for name in sorted(code.promises.keys() - listed.keys()))
    for name, text in listed.items():
        numbers = {n for (_, n), row in rows.items() if ticked(row[2])[0] == name}
        if numbers and numbers != set(map(int, re.findall(r"\d+", text))):
            yield f"{name} can be refused {sorted(numbers)}, and its row under public functions says other"


def of_cases(parts, code):
    """Demands, P cases, edges and errors have their place, and each run case named is one."""
    yield from (f"there is no '{part}'" for part in [*RUNS, *DEMANDS, FORMS] if not parts.get(part))
    runs = [(row[0], run) for part in RUNS for row in parts.get(part, []) for run in items(row[-1])]
    yield from (f"{case}: no run case '{run}'" for case, run in runs if run not in [*code.cases, "none"])
    marked = [(case, run) for case, run in runs if case in MARKED]
    yield from (f"{case} has the run case of another" for case, run in marked if f": {case}," not in run)
    yield from (f"no run case: {edge}" for edge in edges.EDGES if not any(edge in run for _, run in runs))
    if [row[0] for row in parts.get(RUNS[0], [])] != MARKED:
        yield f"{RUNS[0]}: not a row for each of them in turn"
    if re.findall(r'\bcase "(P\d+)"', TABLE.read_text("utf-8")) != MARKED:
        yield f"{TABLE} has not the cases P1 to P12"


def of_forms(parts):
    """A form that is there is named by its file and by what stands in it."""
    for _, place, text in parts.get(FORMS, []):
        for file in ticked(place):
            code = pathlib.Path("crates", file)
            held = one_line(code.read_text("utf-8")) if code.exists() else ""
            yield from (f"{FORMS}: {file} has no '{form}'" for form in ticked(text) if form not in held)


def of_names(page, code):
    outside = re.sub(rf"(?ms)^#+ {FORMS}$.*?(?=^#|\Z)", "", page)
    yield from (f"there is no {name}" for name in sorted(set(ticked(outside))) if not code.has(name))
    for name, file in sorted(set(re.findall(r"`([^`]+)` \((\w+/specs/\w+\.antt)\)", outside))):
        if file not in code.files.get(name, ()):
            yield f"{name} is not declared in {file}"


def of_quotes(page, document):
    """Quotes are document 01's words, and no condition of a refusal, named form or error lacks."""
    said, quotes = one_line(document), set(re.findall(r'"([^"]+)"', one_line(page)))
    yield from (f"not in document 01: '{quote}'" for quote in sorted(quotes) if quote not in said)
    errors = re.search(r"## Errors a careful reader still makes\s+(.*?)\.\n", document, re.S)[1]
    conditions = re.findall(r"^\| \d[\d, ]* \| ([^|]+) \|", document, re.M)
    forms = re.findall(r'^- "([^"]+)"', document, re.M)
    yield from (f"not quoted: '{text}'" for text in conditions + forms + items(errors) if text not in quotes)


def main():
    page, code = PAGE.read_text("utf-8"), Code()
    parts = sections(page)
    faults = [*of_names(page, code), *of_refusals(parts, code), *of_cases(parts, code), *of_forms(parts)]
    compared = f"{DOCUMENT} is not here, so its quotes were not compared"
    if DOCUMENT.exists():
        faults += of_quotes(page, DOCUMENT.read_text("utf-8"))
        compared = "its quotes are document 01's words"
    for fault in faults:
        print(f"validation: {fault}", file=sys.stderr)
    if faults:
        sys.exit(1)
    print(f"validation: {PAGE} and the code agree, {len(code.given)} refusals by entry point; {compared}")


if __name__ == "__main__":
    main()
