#!/usr/bin/env python3
"""Checks what a script can of the pages: that each block "```rust PATH" or "```text PATH" shows lines of that file; that
each name, clause, test, must-fail edit, flag, file and link of a page is there; that ARCHITECTURE has each crate, each
name in its crate's row and each file in its folder; that LAWS has each must-fail edit; that lines keep to the width; that
numbers are the code's, and README's speeds SPEED's; and that pages written by a script are current. Usage: pages.py, at
the top of the repository."""
import os
import pathlib
import re
import subprocess
import sys

import readers

WRITTEN = {"docs/STEPS.md"}
WIDTH = 110
MARKED = re.compile(r"`([^`]+)`")
# Rows of README's table of speeds, and those of SPEED's that each sums up.
ROWS = {
    "mutexes, raw or with a value": ["mutex", "raw mutex"], "a reentrant mutex": ["reentrant mutex", "locked twice"],
    "reader-writer locks": ["raw reader", "raw writer", "read, recursive read", "write", "reads and writes mixed",
                            "upgradable right", "upgrade"],
    "a `Once` that is done": ["done `Once`"], "turns, queues and meetings": ["meeting", "turns", "turns of many pairs", "queue"],
}


def pages():
    """Returns the pages that people write, README first."""
    docs = sorted(str(path) for path in pathlib.Path("docs").glob("*.md"))
    return ["README.md"] + [path for path in docs if path not in WRITTEN]


def text_of(page):
    return pathlib.Path(page).read_text()


# ------------------------------------------------------------------ programs that pages show


def blocks(page):
    """Yields the first line's number, the path and the lines of each block of a page."""
    path, first, lines = None, 0, []
    for number, line in enumerate(text_of(page).split("\n"), 1):
        if path is None and re.match(r"```(rust|text)", line):
            path, first, lines = line[7:].strip(), number, []
        elif path is not None and line.startswith("```"):
            yield first, path, lines
            path = None
        elif path is not None:
            lines.append(line)


def missing(shown, file):
    """Returns the first line that is not in the file after the others."""
    there = iter(line.strip() for line in file)
    for line in shown:
        if line.strip() and line.strip() not in there:
            return line
    return None


def wrong_blocks():
    for page in pages():
        for first, path, lines in blocks(page):
            file = pathlib.Path(path)
            if not path or not file.is_file():
                yield f"{page}:{first}: the block names no file"
                continue
            line = missing(lines, file.read_text().split("\n"))
            if line is not None:
                yield f"{page}:{first}: not in {path}: {line.strip()}"


# ------------------------------------------------------------------ how pages read


def paragraphs(page):
    """Yields the first line's number and the text of each paragraph, bullet and table cell, without code and headings."""
    code, first, held = False, 0, []
    for number, line in enumerate(text_of(page).split("\n") + [""], 1):
        starts = re.match(r"^\s*([-*]|\d+\.) ", line)
        if line.startswith("```"):
            code = not code
        plain = not code and line.strip() and not re.match(r"^(#|\||```|    \S|!\[)", line)
        if held and (not plain or starts):
            yield first, " ".join(held)
            held = []
        if plain:
            if not held:
                first = number
            held.append(re.sub(r"^\s*([-*]|\d+\.) ", "", line).strip())


def wrong_widths():
    for page in pages():
        for number, line in enumerate(text_of(page).split("\n"), 1):
            if len(line) > WIDTH:
                yield f"{page}:{number}: {len(line)} columns"


# ------------------------------------------------------------------ clauses, tests and edits


def clauses_by_name():
    """Returns the clauses of each function, and of each type and definition those of its files: the clauses and ghosts of
    each file that has an impl or a trait of that name, and the fields of each file of specs/ that defines it."""
    known = {}
    for path in pathlib.Path("crates").glob("*/src/**/*.rt"):
        text = path.read_text()
        of_file = set(re.findall(r"\bghost (\w+)", text))
        for name, body in re.findall(r"\bfn (\w+)(.*?)(?=\bfn \w+[<(]|\Z)", text, re.DOTALL):
            clauses = set(re.findall(r"\b(?:ensures|requires)\*? (\w+) \{", body))
            known.setdefault(name, set()).update(clauses)
            of_file |= clauses
        for head in re.findall(r"^(?:pub(?:\(\w+\))? )?(?:unsafe )?(?:impl|trait|struct)\b[^{]*", text, re.MULTILINE):
            for name in re.findall(r"\b[A-Z]\w+", head):
                known.setdefault(name, set()).update(of_file)
    for path in pathlib.Path("crates").glob("*/specs/*.antt"):
        text = path.read_text()
        fields = set(re.findall(r"^ +(?:pub )?(\w+) :", text, re.MULTILINE))
        for name in re.findall(r"^(?:abbrev )?(?:pub )(?:abbrev |record |data |ruleset )?([A-Za-z]\w*)", text, re.MULTILINE):
            known.setdefault(name, set()).update(fields)
    return known


LISTED = re.compile(r"clauses? ((?:`\w+`(?: \([^)]*\))?(?:, | and )?)+)")


# A function, and clauses that follow it without the word.
FOLLOWED = re.compile(r"`\w+::\w+`((?:, `[a-z_]+`(?: \([^)]*\))?)+)")


def wrong_clauses():
    known = clauses_by_name()
    for page in pages():
        for number, text in paragraphs(page):
            parts = {part for name in MARKED.findall(LISTED.sub("", text)) for part in re.findall(r"\w+", name)}
            here = set().union(*[known[name] for name in parts & set(known)])
            for listed in LISTED.findall(text):
                for clause in MARKED.findall(re.sub(r"\([^)]*\)", "", listed)):
                    if here and clause not in here:
                        yield f"{page}:{number}: nothing that the paragraph names has a clause `{clause}`"
            for listed in FOLLOWED.findall(text):
                for clause in MARKED.findall(re.sub(r"\([^)]*\)", "", listed)):
                    if clause not in known and clause not in here:
                        yield f"{page}:{number}: nothing that the paragraph names has a clause `{clause}`"


def wrong_tests():
    edits = {f"{path.parent.parent.name}/{path.stem}" for path in pathlib.Path("crates").glob("*/must-fail/*.edit")}
    homes = {edit.split("/")[0] for edit in edits}
    for page in pages():
        for number, text in paragraphs(page):
            for name in MARKED.findall(text):
                crate = name.split("/")[0]
                if re.fullmatch(r"[a-z_]+/[a-z_0-9]+", name) and crate in homes and name not in edits:
                    if not list(pathlib.Path("crates", crate).rglob(name.split("/")[1] + ".*")):
                        yield f"{page}:{number}: no edit {name}"
            for listed, crate in re.findall(r"((?:`[a-z_0-9]+`(?:, | and )?)+) of `(test_\w+)`", text):
                source = "".join(path.read_text() for path in pathlib.Path("crates", crate, "src").rglob("*.rt"))
                for name in MARKED.findall(listed):
                    if not re.search(rf"\b{name}\b", source):
                        yield f"{page}:{number}: no {name} in {crate}"
    laws = text_of("docs/LAWS.md")
    for edit in sorted(edits):
        if not re.search(rf"`(?:{edit.split('/')[0]}/)?{edit.split('/')[1]}`", laws):
            yield f"docs/LAWS.md: nothing is said of the edit {edit}"
    told = re.search(r"There are (\d+), in (\w+) crates", text_of("docs/CONTRIBUTING.md"))
    count = ["no", "one", "two", "three", "four", "five", "six", "seven", "eight", "nine", "ten", "eleven", "twelve"]
    if told and (int(told.group(1)), told.group(2)) != (len(edits), count[len(homes)]):
        yield f"docs/CONTRIBUTING.md: {len(edits)} edits are there, in {count[len(homes)]} crates"


# ------------------------------------------------------------------ names


# Words in marks that are no name of this repository: the kit's, Rust's, C's, placeholders, and words of messages.
FOREIGN = set("""FN OP OUTCOME VALUE VAR Tr dyn _for _until RuledParker GLIBC_TUNABLES glibc hugetlb exported foreign halt holes
    librsvg2 rsvg plant ptr_eq satisfied supplied unsupported dac8208d650f15bf RefCell UnsafeCell""".split())
# This page names what is not here.
OTHERS = "docs/DIFFERENCES.md"


def sources():
    listed = subprocess.run(["git", "ls-files", "crates", "crates.txt", "bench", "tools", "trials", "examples", ".ci", "include"],
                            check=True, capture_output=True, text=True)
    return [path for path in map(pathlib.Path, listed.stdout.split("\n")) if path.is_file() and path.suffix not in (".svg", ".html")]


def wrong_names():
    known = set(FOREIGN)
    for path in sources():
        known.update(re.findall(r"\w+", str(path)))
        known.update(re.findall(r"[A-Za-z_]\w*", path.read_text(errors="replace")))
    absent = set(re.findall(r"\w+", " ".join(MARKED.findall(text_of(OTHERS)))))
    for page in pages():
        if page != OTHERS:
            for number, line in enumerate(text_of(page).split("\n"), 1):
                for name in set(re.findall(r"[A-Za-z_]\w*", " ".join(MARKED.findall(line)))) - known - absent:
                    if not name.endswith("_"):
                        yield f"{page}:{number}: nothing has the name `{name}`"


MAP = "docs/ARCHITECTURE.md"
LAWS_FOLDERS = pathlib.Path("crates/lot_laws/proofs")


def words_of(crate):
    """Returns all words of a crate's sources, and the names of its files."""
    words = set()
    for path in pathlib.Path("crates", crate).glob("**/*"):
        if path.suffix in (".rt", ".antt") and "out" not in path.parts:
            words |= {path.stem} | set(re.findall(r"[A-Za-z_]\w*", path.read_text(errors="replace")))
    return words


def wrong_crates():
    """Checks that ARCHITECTURE has each crate in a row, and in a row only names of its crates."""
    crates = {line.partition(":")[0].split()[0] for line in text_of("crates.txt").split("\n") if re.match(r"\w", line)}
    named = set()
    for cells in table_rows(MAP, 2):
        here = set(MARKED.findall(cells[0])) & crates
        named |= here
        words = set().union(*[words_of(crate) for crate in here])
        for name in set(re.findall(r"[A-Za-z_]\w*", " ".join(MARKED.findall(cells[1])))) - crates - words:
            if here:
                yield f"{MAP}: {', '.join(sorted(here))}: no `{name}` there"
    for crate in sorted(crates - named):
        yield f"{MAP}: nothing is said of the crate {crate}"


def is_there(path):
    return any(path.with_name(path.name + ending).exists() for ending in ("", ".rt", ".antt"))


def wrong_files():
    """Checks each file of a crate that a page names, and each folder and file of `lot_laws/proofs` in ARCHITECTURE."""
    for page in pages():
        for number, line in enumerate(text_of(page).split("\n"), 1):
            for name in MARKED.findall(line):
                found = re.fullmatch(r"(?:crates/)?(\w+/(?:src|specs|proofs|must-fail)(?:/[\w.]+)*)/?", name)
                if found and not is_there(pathlib.Path("crates", found.group(1))):
                    yield f"{page}:{number}: no file {name}"
                short = re.fullmatch(r"([a-z]+)/\w+", name)
                if page == MAP and short and (LAWS_FOLDERS / short.group(1)).is_dir() and not is_there(LAWS_FOLDERS / name):
                    yield f"{page}:{number}: no file {name} in {LAWS_FOLDERS}"
    for number, text in paragraphs(MAP):
        head = re.match(r"((?:`\w+`(?:, )?)+): ", text)
        folders = MARKED.findall(head.group(1)) if head else []
        if folders and (LAWS_FOLDERS / folders[0]).is_dir() or folders == ["Imports"]:
            for name in folders:
                if not is_there(LAWS_FOLDERS / name):
                    yield f"{MAP}:{number}: no folder {name} in {LAWS_FOLDERS}"
            for listed in re.findall(r"\(([^)]*)\)", text):
                for name in MARKED.findall(listed):
                    if not any(is_there(LAWS_FOLDERS / folder / name) for folder in folders):
                        yield f"{MAP}:{number}: no file {name} in {', '.join(folders)}"


def anchor(heading):
    return re.sub(r"[^\w\- ]", "", heading.strip().lower()).replace(" ", "-")


def wrong_links():
    """Checks that each link leads to a file, and to a heading of it."""
    for page in pages():
        for number, line in enumerate(text_of(page).split("\n"), 1):
            for target in re.findall(r"\]\(([^)\s]+)\)", line):
                name, _, part = target.partition("#")
                path = os.path.join(os.path.dirname(page), name) if name else page
                if target.startswith("http"):
                    continue
                if not os.path.exists(path):
                    yield f"{page}:{number}: no file {target}"
                elif part and part not in map(anchor, re.findall(r"^#+ (.*)$", text_of(path), re.MULTILINE)):
                    yield f"{page}:{number}: no heading {target}"


def wrong_flags():
    """Checks that each flag which README and EXPLORE show is one of the arguments of `lotexplore`."""
    known = set(re.findall(r'"([a-z][a-z-]+)"', text_of("crates/lot_arguments/src/arguments.rt"))) | {"help", "version"}
    foreign = {"html", "halt"}
    for page in ["README.md", "docs/EXPLORE.md"]:
        for number, line in enumerate(text_of(page).split("\n"), 1):
            for flag in set(re.findall(r"(?<![\w-])--([a-z][a-z-]+)", line)) - known - foreign:
                yield f"{page}:{number}: no program has the flag --{flag}"


def wrong_arguments():
    """Checks the calls of LOCKS' table: a function of that name has parameters of these names, in this order."""
    known = {}
    for path in pathlib.Path("crates").glob("*/src/**/*.rt"):
        for name, head in re.findall(r"\bfn (\w+)(.*?)(?=\n\s*(?:requires|ensures|\{)|\{\n|;\n)", path.read_text(), re.DOTALL):
            known.setdefault(name, []).append(re.findall(r"\b(rt|token|clock): ", head))
    handed = {"rt", "token", "clock"}
    for cells in table_rows("docs/LOCKS.md", 2):
        for name, words in re.findall(r"\.(\w+)\(([\w, ]*)\)", cells[1]):
            asked = [word.strip() for word in words.split(",") if word.strip() in handed]
            taken = known.get(name, [])
            if taken and asked not in taken:
                yield f"docs/LOCKS.md: `{name}` takes {taken[0]}, and not {asked}"


# ------------------------------------------------------------------ numbers that code has


def count_of(pattern, *paths):
    return sum(len(re.findall(pattern, text_of(path), re.MULTILINE)) for path in paths)


def number_in(path, pattern):
    found = re.search(pattern, text_of(path))
    return int(found.group(1).replace("_", "")) if found else None


TENS = {7: "Seventy", 8: "Eighty", 9: "Ninety"}
UNITS = ["", "-one", "-two", "-three", "-four", "-five", "-six", "-seven", "-eight", "-nine"]
WORDS = {10 * ten + unit: TENS[ten] + UNITS[unit] for ten in TENS for unit in range(10)}
FIRST_PAGE = [f"crates/spec_locks/specs/{name}.antt" for name in ["Guarantees", "EachState", "EachStep", "CallTable", "Trade", "Owners", "Rest"]]
PARSER = "crates/lot_program_text/src/parser.rt"
SMALL = {1: "alone", 3: "three", 5: "five", 6: "six", 9: "nine", 10: "ten", 22: "twenty-two"}
# Kinds of steps that PROVED counts, each with its law and its record in `core_words/specs/Laws`.
STEPS = [("on a mutex's word", "MutexSteps"), ("on a reader-writer", "RwLockSteps"), ("on a `Once`'s", "OnceSteps"),
         ("on a condition", "CondvarSteps"), ("on a semaphore's", "SemaphoreSteps")]
# Pages, what they say, and where the number is from.
FACTS = [
    ("README.md", r"The seven\s+files\s+are (\d+) lines", lambda: sum(text_of(path).count("\n") for path in FIRST_PAGE)),
    ("README.md", r"`(\d+) \* \(N \+ 1\)\^2`", lambda: number_in("crates/lot_world/specs/Drains.antt", r"≤ (\d+) \*")),
    ("docs/PROVED.md", r"`(\d+) \* \(N \+ 1\)\^2`", lambda: number_in("crates/lot_world/specs/Drains.antt", r"≤ (\d+) \*")),
    ("README.md", r"within (\d+)\s+steps", lambda: number_in("crates/lot_world/src/world.rt", r"SOLO_STEPS: usize = (\d+)")),
    ("docs/PROVED.md", r"within (\d+)\s+steps", lambda: number_in("crates/lot_world/src/world.rt", r"SOLO_STEPS: usize = (\d+)")),
    ("README.md", r"It has up to ([\d,]+)\s+threads", lambda: number_in("crates/lot_world/src/world.rt", r"MOST_THREADS: usize = (\d+)")),
    ("README.md", r"up to (\d+) locks", lambda: number_in("crates/lot_world/src/world.rt", r"MOST_LOCKS: usize = (\d+)")),
    ("docs/EXPLORE.md", r"\| locks \| (\d+) \|", lambda: number_in(PARSER, r"MOST_LOCKS: usize = (\d+)")),
    ("docs/EXPLORE.md", r"\| threads \| (\d+) \|", lambda: number_in(PARSER, r"MOST_THREADS: u64 = (\d+)")),
    ("docs/EXPLORE.md", r"\| variables, [^|]*\| (\d+) \|", lambda: number_in(PARSER, r"MOST_VARIABLES: usize = (\d+)")),
    ("docs/EXPLORE.md", r"\| instructions [^|]*\| ([\d,]+) \|",
     lambda: number_in("crates/lot_program_lines/src/sections.rt", r"MOST_CODE: usize = (\d+)")),
    ("docs/LOCKS.md", r"1 to ([\d,]+) threads", lambda: number_in("crates/parking_lot_core/src/lot.rt", r"0 < seats && seats <= (\d+)")),
    ("docs/DIFFERENCES.md", r"at (\d+) guards", lambda: number_in("crates/lock_raw/src/counts.rt", r"MOST: u64 = (\d+)")),
]


def fields_of(path, record):
    """Returns how many fields a record has."""
    found = re.search(rf"^pub record {record} .*?\n(.*?)(?=^\S|\Z)", text_of(path), re.MULTILINE | re.DOTALL)
    return len(re.findall(r"^  pub \w+ :", found.group(1), re.MULTILINE))


def programs_in(name):
    text = text_of(f"crates/test_explore/src/tests/{name}.rt")
    table = text[text.index("const PROGRAMS"):]
    table = table[:table.index("\n];")]
    return len(re.findall(r"^    Grained \{", table, re.MULTILINE)) or table.count("Found::")


def wrong_counts():
    """Checks what PROVED counts in words, or in a row: the kinds of steps on words, and the programs of `test_explore`."""
    proved = " ".join(text_of("docs/PROVED.md").split())
    for what, record in STEPS:
        wanted = SMALL[fields_of("crates/core_words/specs/Laws.antt", record)]
        if not re.search(rf"{wanted} (?:kinds )?{re.escape(what)}", proved):
            yield f"docs/PROVED.md: {record} has {wanted} kinds of steps {what}"
    counts = (f"{programs_in('programs')} programs by steps, {programs_in('grains')} by each grain, "
              f"{SMALL[programs_in('properties')]} properties")
    if counts not in proved:
        yield f"docs/PROVED.md: {counts} by the code"


def wrong_readers():
    """Checks README's counts of the definitions and lines that a reader of each promise needs."""
    text = " ".join(text_of("README.md").split())
    for promise, _, definitions, lines, _ in readers.rows():
        if readers.TOLD.get(promise) and f"{readers.TOLD[promise]} {definitions}" not in text:
            yield f"README.md: {readers.TOLD[promise]} {definitions} definitions, {lines} lines by the specs"
        elif readers.TOLD.get(promise) and not re.search(rf"{readers.TOLD[promise]} {definitions}(?: definitions)? \({lines}(?: lines)?\)", text):
            yield f"README.md: {readers.TOLD[promise]} {lines} lines by the specs"


def wrong_facts():
    for page, pattern, source in FACTS:
        found, wanted = re.search(pattern, text_of(page)), source()
        if not found:
            yield f"{page}: does not say {pattern}"
        elif int(found.group(1).replace(",", "")) != wanted:
            yield f"{page}: {found.group(0)}: {wanted} by the code"
    crates = count_of(r"^\w+[^:\n]*:", "crates.txt")
    if WORDS.get(crates, str(crates)) not in text_of("docs/ARCHITECTURE.md"):
        yield f"docs/ARCHITECTURE.md: {crates} crates are in crates.txt"
    answers = " ".join(text for _, text in paragraphs("docs/EXPLORE.md"))
    for _, text in paragraphs("README.md"):
        for answer in MARKED.findall(text):
            if " states" in answer and answer not in answers:
                yield f"README.md: EXPLORE has no `{answer}`"
    tried = "".join(path.read_text(errors="replace") for path in sources() if re.search(r"explore|stdout|search", str(path)))
    for page in ["README.md", "docs/EXPLORE.md"]:
        told = " ".join(text for _, text in paragraphs(page))
        for number in re.findall(r"(?<![\d,])(\d[\d,]*) states", told):
            bare = number.replace(",", "")
            if not re.search(rf"(?<!\d){bare}(?!\d)", tried.replace(",", "").replace("_", "")) and number not in text_of("docs/SPEED.md"):
                yield f"{page}: {number} states: no test, script or table has the number"


# ------------------------------------------------------------------ numbers in two pages


def table_rows(page, columns):
    """Yields the cells of each row of the page's tables that have so many columns."""
    for line in text_of(page).split("\n"):
        cells = [cell.strip() for cell in line.strip("|").split("|")]
        if line.startswith("|") and len(cells) == columns:
            yield cells


def numbers(cell):
    return [float(number) for number in re.findall(r"\d+\.\d+", cell)]


def wrong_numbers():
    speeds = {cells[0]: numbers(" ".join(cells[1:7])) for cells in table_rows("docs/SPEED.md", 8)}
    found = set()
    for cells in table_rows("README.md", 5):
        if cells[0] not in ROWS:
            continue
        found.add(cells[0])
        wanted = [number for name in ROWS[cells[0]] for number in speeds.get(name, [])]
        for number in numbers(" ".join(cells[1:])):
            if not any(abs(number - one) < 0.051 for one in wanted):
                yield f"README.md: {cells[0]}: {number} is none of SPEED's {wanted}"
    for name in set(ROWS) - found:
        yield f"README.md: no row of {name}"


def main():
    wrong = [line for check in (wrong_blocks, wrong_widths, wrong_names, wrong_crates, wrong_files, wrong_links,
                                  wrong_flags, wrong_arguments, wrong_counts, wrong_readers, wrong_facts, wrong_clauses, wrong_tests,
                                  wrong_numbers) for line in check()]
    for line in wrong:
        print(line)
    current = subprocess.run([sys.executable, "tools/steps.py", "--check"], check=False).returncode
    count = sum(1 for page in pages() for _ in blocks(page))
    print(f"{len(pages())} pages, {count} blocks, {len(wrong)} wrong")
    return 1 if wrong or current or not count else 0


if __name__ == "__main__":
    sys.exit(main())
