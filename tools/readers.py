#!/usr/bin/env python3
"""Counts what a reader of a promise reads: the definitions that its statement cites, and those that they cite, with their
lines and files. Of a record that is no statement it counts the fields that are cited. Of a type of the code it counts the
lines without comments. What std has is not counted. Usage: readers.py [--list], at the top of the repository; `--list` names
the definitions."""
import pathlib
import re
import sys

CRATES = pathlib.Path("crates")
MACHINE = ("lot_machine", "lot_steps", "lot_turns")
# A promise, its statements (FILE.DEFINITION or FILE.RECORD.FIELD, of a crate), and the crates at which a reader stops.
PROMISES = [
    ("owners exclude each other", ["spec_locks EachState.StateHolds.exclude"], ()),
    ("no wake-up is lost", ["spec_locks EachState.StateHolds.rests"], ()),
    ("no wake-up is lost, by debtors", ["spec_locks Headline.NobodyForgotten"], ()),
    ("rights change as a call's purpose says", ["spec_locks EachStep.StepHolds.rights"], ()),
    ("an answer is true", ["spec_locks CallTable.IsTrue"], ()),
    ("a call owns what it owned, or its trade", ["spec_locks Trade.IsOnItsWay"], ()),
    ("the search is right", ["state_search Verdicts.IsRight"], ()),
    ("the search is right of a program, to the machine",
     ["state_search Verdicts.IsRight", "lot_program States.rules_of_program"], MACHINE),
    ("the search is right of a program", ["state_search Verdicts.IsRight", "lot_program States.rules_of_program"], ()),
    ("the first page", ["spec_locks Guarantees.IsGuaranteed"], ()),
]
# The words of README before the count of each promise that it tells.
TOLD = {
    "no wake-up is lost": "A reader of the first theorem needs",
    "owners exclude each other": "of exclusion",
    "no wake-up is lost, by debtors": "of the fourth",
    "the search is right": "of the search's answer",
    "the search is right of a program, to the machine": "and",
}
HEAD = re.compile(r"^(?:(?:abbrev|unfoldable|pub|opaque) )*(?:record |data )?(?P<name>[A-Za-z_]\w*)\b")
WORD = re.compile(r"(?<![\w.◌])([A-Za-z_]\w*(?:\.[A-Za-z_]\w*)*)")


class File:
    """A file of definitions: the blocks of its definitions, which block each name is of, and its imports."""

    def __init__(self, path):
        self.path, self.blocks, self.names, self.imports, self.modules, self.opened = path, {}, {}, {}, {}, []
        text = path.read_text()
        for public, place, names, alias in re.findall(r"^(pub )?use ([\w.]+?)(?:\.\{([^}]*)\})?(?: as (\w+))?$", text, re.M):
            if names:
                for name in names.split(","):
                    first, _, second = name.strip().partition(" as ")
                    self.imports[(second or first).strip()] = (place, first.strip())
            else:
                self.modules[alias or place.split(".")[-1]] = place
        self.read(text.split("\n"))

    def read(self, lines):
        name, start = None, None
        for number, line in enumerate(lines + ["end"]):
            head = HEAD.match(line)
            if not head or line.startswith(("use ", "pub use ", "pub mod ", "--")):
                continue
            if head["name"] == name and not line.startswith(("abbrev", "pub", "unfoldable")):
                continue
            if name is not None:
                self.add(name, lines[start:number])
            name, start = head["name"], number
        for name, block in self.blocks.items():
            self.names[name] = name
            if re.match(r"^(pub )?(data)\b", block[0]):
                for line in block[1:]:
                    part = re.match(r"^ +(\w+) :", line)
                    if part:
                        self.names.setdefault(part[1], name)

    def add(self, name, block):
        while block and (not block[-1].strip() or block[-1].startswith("--")):
            block = block[:-1]
        self.blocks[name] = block


FILES = {}


def file_at(crate, stem):
    key = (crate, stem)
    if key not in FILES:
        path = CRATES / crate / "specs" / f"{stem}.antt"
        FILES[key] = File(path) if path.is_file() else None
    return FILES[key]


def declared(place):
    """Returns the crate, the Rust file and the type of a place such as Rattle.CRATE.specs.declared.FILE.Type."""
    parts = place.split(".")
    return parts[1], "/".join(parts[4:-1]), parts[-1]


def found(place, name):
    """Returns the definition that a name of a place is of: its crate, its file and its own name."""
    parts = place.split(".")
    if parts[1] == "std" or "specs" not in parts:
        return None
    if parts[3] == "declared":
        rest = [part for part in parts[4:] if part != "TheVariants"]
        types = [part for part in rest if part[0].isupper()]
        return parts[1], "/".join(part for part in rest if not part[0].isupper()), types[0] if types else name
    file = file_at(parts[1], "/".join(parts[3:]))
    if file is None:
        return None
    if name in file.names:
        return parts[1], "/".join(parts[3:]), file.names[name]
    if name in file.imports:
        return found(*file.imports[name])
    return None


def bound(lines):
    """Returns the names that a definition's own clauses bind."""
    text = "\n".join(lines)
    names = set()
    for part in re.findall(r"[({]([a-z_][\w ]*?) :", text):
        names |= set(part.split())
    for part in re.findall(r"λ ([^.]*)\.", text):
        names |= set(re.findall(r"[a-z_]\w*", part))
    return names


def clause_bound(line):
    """Returns the names that the left side of a clause binds."""
    left, sign, _ = line.partition(" =")
    return set(re.findall(r"[a-z_]\w*", left)) if sign and not line.startswith((" ", "pub", "abbrev")) else set()


def cited(crate, stem, lines):
    """Returns the definitions that these lines cite."""
    file, result, own = file_at(crate, stem), set(), bound(lines)
    clause = set()
    for line in lines:
        line = line.partition("--")[0]
        clause = clause_bound(line) or (clause if line.startswith(" ") else set())
        fields = set(re.findall(r"(\w+) =(?!=)", line)) | set(re.findall(r"^ +(?:pub )?(\w+) :", line))
        for word in WORD.findall(line):
            name, *rest = word.split(".")
            if name in file.modules and rest:
                parts = [part for part in rest if part != "TheVariants"]
                result.add(found(file.modules[name], parts[-1]))
            elif name in own | clause or (name in fields and name[0].islower()):
                continue
            elif name in file.names:
                result.add((crate, stem, file.names[name]))
            elif name in file.imports:
                result.add(found(*file.imports[name]))
    return result - {None}


def block_of(definition):
    crate, stem, name = definition
    file = file_at(crate, stem)
    if file is not None and name in file.blocks:
        return file.blocks[name]
    for ending in (".rt", "/mod.rt"):
        path = CRATES / crate / "src" / f"{stem}{ending}"
        if path.is_file():
            body = re.search(rf"^pub(?:\(crate\))? (?:enum|struct) {name}\b.*?(?:;$|^\}})", path.read_text(), re.M | re.S)
            if body:
                return [line for line in body[0].split("\n") if not line.strip().startswith("//")]
    return []


def fields_of(block, wanted):
    """Returns the head of a record, and the lines of the fields that are wanted."""
    head = []
    for line in block:
        head.append(line)
        if line.rstrip().endswith("where"):
            break
    lines, held = [], False
    for line in block[len(head):]:
        starts = re.match(r"^  (?:pub )?([\w ]+?) :", line)
        held = bool(wanted & set(starts[1].split())) if starts else held and not line.strip().startswith("--")
        if held:
            lines.append(line)
    return head + lines


def seen_of(block, fields):
    """Returns what is read of a definition: of a record that has no parameter, and so is no statement, the fields cited."""
    return fields_of(block, fields) if re.match(r"^(pub )?record \w+ :", block[0]) else block


def names_of_fields(lines):
    """Returns the names of fields that these lines cite."""
    text = "\n".join(line.partition("--")[0] for line in lines)
    return set(re.findall(r"(?<=[\w)])\.([a-z_]\w*)", text)) | set(re.findall(r"(?:[{;] |^ +)([a-z_]\w*) =(?!=)", text, re.M))


def read_by(statements, stops):
    """Returns the definitions that these statements lead to, each with the lines that are read of it."""
    fields, result = set(), {}
    while True:
        result = read_with(statements, stops, fields)
        more = set().union(*[names_of_fields(lines) for lines in result.values()])
        if more <= fields:
            return result
        fields |= more


def read_with(statements, stops, fields):
    """Returns what is read where of records that are no statements these fields are."""
    result, todo = {}, []
    for statement in statements:
        crate, place = statement.split(" ")
        stem, name, *field = place.split(".")
        block = block_of((crate, stem, name))
        assert block, statement
        todo.append(((crate, stem, name), fields_of(block, set(field)) if field else block))
    while todo:
        definition, lines = todo.pop()
        if definition in result:
            continue
        result[definition] = [line for line in lines if line.strip() and not line.strip().startswith("--")]
        if definition[0] in stops or file_at(*definition[:2]) is None:
            continue
        for other in cited(*definition[:2], lines):
            if other not in result:
                todo.append((other, seen_of(block_of(other) or [""], fields)))
    return result


def rows():
    for promise, statements, stops in PROMISES:
        read = read_by(statements, stops)
        yield promise, read, len(read), sum(map(len, read.values())), len({key[:2] for key in read})


def main():
    for promise, read, definitions, lines, files in rows():
        print(f"{promise}: {definitions} definitions, {lines} lines, {files} files")
        if "--list" in sys.argv:
            for (crate, stem, name), block in sorted(read.items()):
                print(f"    {crate} {stem}.{name}: {len(block)}")
    return 0


if __name__ == "__main__":
    sys.exit(main())
