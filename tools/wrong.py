"""The wrong programs of the must-fail edits, for the checks of tools/. An edit makes one of them or several, so that the
prover refuses several in one check. Each is `# LABEL: why`, then `fails: PLACE` and what is replaced. PLACE is where a fact
fails: a file of the crate's proofs or specs, or `fn NAME` of a function whose proof is found with no file. Where an edit makes
several, each is a change in the body of one function, and fails in the proof of that function: the prover holds a
function to the contracts of those that it calls, which stay, so that none can fail in place of another."""
import dataclasses
import pathlib
import re

TITLE = re.compile(r"# (\w+): \S")


@dataclasses.dataclass
class Program:
    crate: str
    edit: str
    label: str
    place: str = ""
    changes: list = dataclasses.field(default_factory=list)

    @property
    def name(self):
        return f"{self.crate}/{self.label}"

    @property
    def function(self):
        """The function whose proof the place is; none where it is no function's."""
        found = re.fullmatch(r"fn (?:\w+::)*(\w+)|proofs/(?:\w+/)*(\w+)/(?:Answers|Invariants)\.antt", self.place)
        return found and (found.group(1) or found.group(2))


def of_edit(edit):
    """The programs that an edit makes. A change before the first title is of a program without a label."""
    made, file, old = [Program(edit.parts[1], edit.stem, "")], "", ""
    for line in edit.read_text("utf-8").splitlines():
        if title := TITLE.match(line):
            made.append(Program(edit.parts[1], edit.stem, title.group(1)))
        elif line.startswith("fails: "):
            made[-1].place = line.removeprefix("fails: ")
        elif line.startswith("file: "):
            file = line.removeprefix("file: ")
        elif line.startswith("old: "):
            old = line.removeprefix("old: ")
        elif line.startswith("new:"):
            made[-1].changes.append((file, old, line.removeprefix("new:").removeprefix(" ")))
    return [program for program in made if program.label or program.place or program.changes]


def texts(made, crate):
    """The files of a crate's folder that an edit changes, as it leaves them. A text that it replaces stands there once."""
    changed = {}
    for file, old, new in (change for program in made for change in program.changes):
        text = changed.get(file) or (crate / file).read_text("utf-8")
        if text.count(old) != 1:
            raise ValueError(f"{file} has {text.count(old)} times, not once, the text '{old}'")
        changed[file] = text.replace(old, new)
    return changed


def function_around(text, at):
    """The function in whose body the place `at` of a source stands, if it stands in one."""
    line = text[text.rfind("\n", 0, at) + 1:at]
    before = list(re.finditer(r"\bfn (\w+)", text[:at]))
    if not before or re.match(r"\s*(requires|ensures)\b", line):
        return None
    body = re.sub(r"//[^\n]*", "", text[before[-1].start():at])
    return before[-1].group(1) if body.count("{") > body.count("}") else None


def stray(program):
    """What keeps a program from standing beside others in an edit."""
    if not program.function:
        yield f"{program.name} fails at {program.place}, which is no function's proof"
    for file, old, _ in program.changes:
        source = pathlib.Path("crates", program.crate, file).read_text("utf-8")
        if function_around(source, source.find(old)) != program.function:
            yield f"{program.name} changes {file} outside {program.function}"


def faults(made):
    """What the programs of one edit lack."""
    for program in made:
        if not (program.label and program.place and program.changes):
            yield f"{program.crate}/{program.edit}: a wrong program lacks its title, its place or its change"
        elif "/" in program.place and not pathlib.Path("crates", program.crate, program.place).exists():
            yield f"{program.name} fails at {program.place}, and there is no such file"
    for program in made if len(made) > 1 else ():
        yield from stray(program)
    if not made:
        yield "an edit makes no wrong program"
    elif len({program.place for program in made}) < len(made):
        yield f"{made[0].crate}/{made[0].edit}: two wrong programs fail at one place"


def by_edit():
    """The programs of each edit."""
    return [of_edit(edit) for edit in sorted(pathlib.Path("crates").glob("*/must-fail/*.edit"))]


def names():
    return [program.name for made in by_edit() for program in made]
