#!/usr/bin/env python3
"""Holds docs/CONTRACTS.md to the code: it names every public function and no other, and every wrong program of
the must-fail edits and no other; and each public function's contract determines its outcome by form: no
`requires`, an `ensures` that names the result, and `.new` of every `&mut` parameter; of a conversion by
From or TryFrom the law of what it gives. The line of each also cites the theorem of crates/determined that
any two outcomes of that function are the same; but for those that work by a type which their caller brings,
each with a type parameter, in a section of their own. A method is public with its type wherever its block
stands, so those of private modules say `pub(crate)`. A static library has no lines: it exports the
functions of a library, all of them and under the same clauses."""
import pathlib
import re
import sys

import wrong

PAPER = pathlib.Path("docs/CONTRACTS.md")
PROOFS = pathlib.Path("crates/determined/proofs")
BY_TYPE = "## Functions whose outcome is a caller's type's too"
CONVERSION = re.compile(r"\bimpl\s+((?:Try)?From)<([^<>]+)>\s+for\s+([^{<>]+?)\s*\{")
FUNCTION = re.compile(r"\bpub\s+(?:extern\s+\"C\"\s+)?fn\s+(\w+)\s*(<[^>]*>)?\s*\(")
TYPE_PARAMETER = re.compile(r"[<,]\s*[A-Z]\w*\s*:")
CLAUSE = re.compile(r"\s*(requires|ensures)\b\s*\w*\s*\{")
ROW = re.compile(r"^\| `(\w+(?:::\w+)+)`(?: \|[^|]*\| `([\w-]+)` \|)?", re.M)
USE = re.compile(r"^use Rattle\.(\w+)\.(?:proofs\.([\w.]+)\.Reads|specs\.contracts\.([\w.]+)) as ([\w-]+)$", re.M)
LEARNT = re.compile(r"^pub ([\w-]+) : Determined ([\w-]+)\.ended ([\w-]+)\.Learnt$", re.M)
CLAUSES = re.compile(r"^pub ([\w-]+) : ClausesDetermined ([\w-]+)\.ended \(λ M 𝓤 𝓛\. \2\.clauses 𝓛\)$", re.M)


def without_comments(text):
    return re.sub(r"//[^\n]*", "", text)


def closing(text, at):
    """The place of the bracket that closes the one at `at`."""
    pairs = {"(": ")", "{": "}"}
    opens, closes, depth = text[at], pairs[text[at]], 0
    for place in range(at, len(text)):
        depth += (text[place] == opens) - (text[place] == closes)
        if depth == 0:
            return place
    raise ValueError("a bracket is not closed")


def owner(text, at):
    """The type whose `impl` block holds the place `at`, with the `::` that follows it in a path."""
    for block in re.finditer(r"\bimpl\s+(\w+)\s*\{", text):
        if block.end() <= at < closing(text, block.end() - 1):
            return block.group(1) + "::"
    return ""


def faults(parameters, result, clauses):
    requires = [body for kind, body in clauses if kind == "requires"]
    ensures = " ".join(body for kind, body in clauses if kind == "ensures")
    if requires:
        yield "has a requires"
    if not ensures:
        yield "says nothing of its outcome"
    elif result and not re.search(r"\bresult\b", ensures):
        yield "does not name its result"
    for name in re.findall(r"(\w+)\s*:\s*&(?:\s*'\w+)?\s*mut\b", parameters):
        if not re.search(rf"(?<![\w.])«?{name}»?\.new\b", ensures):
            yield f"says nothing of {name} at the end"


def functions(text, path):
    """The public functions of a file: path, type parameters, parameters, result and clauses of each."""
    for found in FUNCTION.finditer(text):
        end = closing(text, found.end() - 1)
        parameters = text[found.end():end]
        head = re.match(r"\s*(->\s*[^{]*?)?(?=\s*(?:requires|ensures|\{))", text[end + 1:])
        at, clauses = end + 1 + head.end(), []
        while clause := CLAUSE.match(text, at):
            at = closing(text, clause.end() - 1) + 1
            clauses.append((clause.group(1), text[clause.end():at - 1]))
        name = path + owner(text, found.start()) + found.group(1)
        yield name, found.group(2) or "", parameters, head.group(1), clauses


def conversions(text, path):
    """The conversions between types that a file makes public, by the names under which proofs cite them, and what each lacks."""
    for found in CONVERSION.finditer(text):
        trait, *types = found.groups()
        source, target = ("Array" * name.startswith("[") + "".join(word[0].upper() + word[1:] for word in re.findall(r"\w+", name)) for name in types)
        method = "try_from" if trait == "TryFrom" else "from"
        law = re.search(rf"\bghost\s+{method}_gives\s*=", text[found.end():closing(text, found.end() - 1)])
        yield f"{path}{target}{trait}{source}::{method}", "", [] if law else ["says nothing of its outcome"]


def modules(file, path=""):
    """A module's file and those of the modules that it makes public, each with its path."""
    yield file, path
    text = without_comments(file.read_text("utf-8"))
    folder = file.parent if file.stem in ("lib", "mod") else file.parent / file.stem
    for name in re.findall(r"\bpub\s+mod\s+(\w+)\s*;", text):
        for inner in (folder / f"{name}.rt", folder / name / "mod.rt"):
            if inner.exists():
                yield from modules(inner, f"{path}{name}::")


def public(crate):
    """The public functions of a crate, the type parameters of each, and what its contract lacks."""
    for file, path in modules(crate / "src/lib.rt", f"{crate.name}::"):
        text = without_comments(file.read_text("utf-8"))
        yield from ((name, types, list(faults(*contract))) for name, types, *contract in functions(text, path))
        yield from conversions(text, path)
        for name in re.findall(r"\bpub\s+use\s+([^;]+);", text):
            yield path + name, "", ["is passed on by `pub use`, which this check does not follow"]


def hidden(crate):
    """The methods that a private module would make public."""
    reached = {place for place, _ in modules(crate / "src/lib.rt")}
    for file in sorted((crate / "src").glob("**/*.rt")):
        text = without_comments(file.read_text("utf-8"))
        for found in FUNCTION.finditer(text) if file not in reached else ():
            if type_name := owner(text, found.start()):
                yield f"{crate.name}: {type_name}{found.group(1)} stands in a private module and is not pub(crate)"


def theorems():
    """The theorems of crates/determined, each with the function whose own contract it is stated over."""
    for module in re.findall(r"^pub mod (\w+)$", (PROOFS / "Lib.antt").read_text("utf-8"), re.M):
        text = (PROOFS / f"{module}.antt").read_text("utf-8")
        calls = {name: f"{crate}.{read or cited}".replace(".", "::") for crate, read, cited, name in USE.findall(text)}
        for theorem, ended, learnt in LEARNT.findall(text):
            yield calls.get(ended) if calls.get(ended) == calls.get(learnt) else None, theorem
        for theorem, name in CLAUSES.findall(text):
            yield calls.get(name), theorem


def sections(paper):
    """The page without the section of functions whose outcome is a caller's type's too, and that section."""
    before, head, after = paper.partition(BY_TYPE)
    own, mark, rest = after.partition("\n## ")
    return before + mark + rest, head + own


def undetermined(lines):
    """The lines that cite no theorem of their function, and the theorems that no line cites."""
    proved = list(theorems())
    for function, theorem in lines:
        if (function, theorem) not in proved:
            yield f"{PAPER} cites {theorem or 'nothing'} for {function}: no theorem of {PROOFS} over its contract"
    for function, theorem in proved:
        if (function, theorem) not in lines:
            yield f"{PAPER} does not cite {theorem} for {function}"


def exports():
    """The static libraries of crates.txt, each with the library whose functions it exports."""
    names = re.findall(r"^(\w+) staticlib:", pathlib.Path("crates.txt").read_text("utf-8"), re.M)
    return {name: name.removesuffix("_c") for name in names}


def said(crate):
    """What is said of each public function of a crate: its parameters, its result and its clauses, with the definitions that
    the clauses cite by their whole names; and the functions by the names under which they are called."""
    found = {}
    for file, path in modules(pathlib.Path("crates", crate, "src/lib.rt"), f"{crate}::"):
        text = without_comments(file.read_text("utf-8"))
        cited = {}
        for place, names in re.findall(r"\bghost\s+use\s+([\w.]+)\.(\{[^}]*\}|[^\s;{]+)\s*;", text):
            cited.update((name, f"{place}.{name}") for name in re.findall(r"[^\s,{}]+", names))
        for name, _, parameters, result, clauses in functions(text, path):
            words = [re.sub(r",\s*$", "", parameters), result or ""] + [f"{kind} {body}" for kind, body in clauses]
            whole = [re.sub(r"[^\s,(){}.]+", lambda word: cited.get(word[0], word[0]), word) for word in words]
            found[name.rsplit("::", 1)[1]] = ["".join(word.split()) for word in whole]
    return found


def exported(static, library):
    """What a static library says otherwise than the library whose functions it exports."""
    out, own = said(static), said(library)
    yield from (f"{static} does not export {name} of {library}" for name in own.keys() - out.keys())
    yield from (f"{static} exports {name}, which is none of {library}" for name in out.keys() - own.keys())
    for name in out.keys() & own.keys():
        if out[name] != own[name]:
            yield f"{static}: {name} has not the parameters, the result and the clauses that it has in {library}"


def complaints():
    paper = PAPER.read_text("utf-8")
    table, listed = map(ROW.findall, sections(paper))
    yield from undetermined(table)
    rows = [function for function, _ in table + listed]
    code, generic = {}, set()
    for root in sorted(pathlib.Path("crates").glob("*/src/lib.rt")):
        for name, types, lacks in public(root.parents[1]) if root.parents[1].name not in exports() else ():
            code[name] = lacks
            generic |= {name} if TYPE_PARAMETER.search(types) else set()
        yield from hidden(root.parents[1])
    yield from (f"{PAPER} says that a type decides over {name}, which has no type parameter" for name, _ in listed if name not in generic)
    yield from (fault for static, library in exports().items() for fault in exported(static, library))
    yield from (f"{name}: {fault}" for name, lacks in code.items() for fault in lacks)
    yield from (f"{name} is public and {PAPER} does not name it" for name in code if name not in rows)
    yield from (f"{PAPER} names {name}, which is no public function" for name in rows if name not in code)
    yield from (f"{PAPER} names {name} twice" for name in set(rows) if rows.count(name) > 1)
    yield from (fault for made in wrong.by_edit() for fault in wrong.faults(made))
    programs, named = wrong.names(), set(re.findall(r"`(\w+/\w+)`", paper))
    yield from (f"two must-fail edits make {name}" for name in set(programs) if programs.count(name) > 1)
    yield from (f"{PAPER} does not name the wrong program {name}" for name in sorted(set(programs) - named))
    yield from (f"{PAPER} names {name}, which no must-fail edit makes" for name in sorted(named - set(programs)))
    if not code:
        yield "no public function was found"


def main():
    found = list(complaints())
    for complaint in found:
        print(f"contracts: {complaint}", file=sys.stderr)
    if found:
        sys.exit(1)
    print(f"contracts: {PAPER} and the code agree")


if __name__ == "__main__":
    main()
