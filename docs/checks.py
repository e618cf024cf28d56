"""What `docs/definitions --check` refuses: each check goes over one kind of thing, and tells each place where it is not so."""

import glob
import os
import re
import subprocess

from sources import TOP, Functions, Names, crates, text_of

MISTAKES = "## Mistakes, and what refuses them"
MOST_WORDS = 50
LINE_CHARACTERS = 140
# Of these the first is written from the sources, and the others are of octets, scripts and texts.
WITHOUT_NAMES = ("docs/DEFINITIONS.md", "docs/FORMATS.md", "docs/SERVING.md")
# What documents name of the language, its library and the system.
OUTSIDE = {"requires", "ensures", "Arc::try_clone", "u64::MAX", "WouldBlock", "flock", "fcntl", "iolmaster"}
# The faults of the library that calls of ours answer.
LIBRARY_FAULTS = {"None", "AllocError", "WouldBlock", "Error"}


class Judge:
    """Counts checks, and tells those that fail."""

    def __init__(self):
        self.passed = self.failed = 0

    def wants(self, is_so, line):
        if is_so:
            self.passed += 1
        else:
            self.failed += 1
            print(line)


def documents():
    return ["README.md", "CONTRIBUTING.md"] + sorted(os.path.relpath(path, TOP) for path in glob.glob(os.path.join(TOP, "docs", "*.md")))


def check_words(judge, rows):
    headings = set(re.findall(r"^#+ (.+)$", text_of("docs/FORMATS.md"), re.M))
    for row in rows:
        meaning, source = row[0].described()
        place = f"{row[0].path}: {row[0].key[2]}"
        judge.wants(meaning, f"{place} has no comment")
        judge.wants(source, f"{place} does not say where it comes from, as (standard, ISDU), (format, Slots) or (own)")
        if source and source.startswith("format"):
            section = source.partition(", ")[2]
            judge.wants(section in headings, f"{place} comes from a section of docs/FORMATS.md that is not there: {section}")


def check_listed_clauses(judge, functions):
    """Lines such as '- `Writing::step`, `durable` and `done`: ..': a call, and clauses of it."""
    for number, line in enumerate(text_of("docs/PROOFS.md").splitlines(), 1):
        named = re.match(r"- (`[\w:]+`(?:(?:, | and )`\w+`)+): ", line)
        if named:
            call, *clauses = re.findall(r"`([^`]+)`", named.group(1))
            meant = functions.named(call, None)
            for clause in clauses:
                has = any(clause in function["clauses"] for function in meant)
                judge.wants(has, f"docs/PROOFS.md:{number}: `{call}` has no clause `{clause}`")


def quoted_in(text):
    return re.findall(r"`([^`]+)`", text)


def rows_of(document):
    """The rows of a document's tables, of any width: the line, and each cell by the heading over it."""
    heading = None
    for number, line in enumerate(text_of(document).splitlines(), 1):
        cells = [cell.strip() for cell in re.split(r"(?<!\\)\|", line.strip()[1:-1])] if line.strip().startswith("|") else None
        if cells and heading and not set(line) <= set("|- "):
            yield number, heading, cells
        heading = cells and (heading or cells)


def check_widths(judge):
    for document in documents():
        for number, heading, cells in rows_of(document):
            judge.wants(len(cells) == len(heading), f"{document}:{number}: {len(cells)} cells under {len(heading)} headings")


def check_clauses(judge, functions):
    """Of each table that has calls and clauses: that the functions are there, and have these clauses."""
    specs = glob.glob(os.path.join(TOP, "crates/*/specs/*.antt"))
    fields = {field for spec in specs for field in re.findall(r"(?m)^ +pub (\w+) :", text_of(spec))}
    for document in documents():
        for number, heading, cells in rows_of(document):
            row, found, owner = dict(zip(heading, cells)), [], None
            for call in quoted_in(row.get("Call", "")):
                meant = functions.named(call, owner)
                judge.wants(meant, f"{document}:{number}: no function of src is meant by `{call}`")
                found += meant
                owner = call.split("::")[-2] if "::" in call else owner
            check_single(judge, f"{document}:{number}", row, functions)
            check_clause_cell(judge, f"{document}:{number}: {row.get('Call')}", row.get("Clause", ""), found, fields)


def check_single(judge, place, row, functions):
    """Where calls and clauses have as many parts: that each call of a part with 'their one clause' has one, without a name."""
    calls, clauses = row.get("Call", "").split("; "), row.get("Clause", "").split("; ")
    for part, said in zip(calls, clauses) if len(calls) == len(clauses) else []:
        owner = None
        for call in quoted_in(part):
            single = any(function["clauses"] == [None] for function in functions.named(call, owner))
            owner = call.split("::")[-2] if "::" in call else owner
            judge.wants(single or said not in ("its one clause", "their one clause"), f"{place}: `{call}` has no single clause")


def check_clause_cell(judge, place, cell, found, fields):
    if re.search(r"\b(?:its|their) one clause", cell):
        judge.wants(any(function["clauses"] == [None] for function in found), f"{place} has no single clause without a name")
    for name in quoted_in(cell):
        # A clause, or behind it the field of a record that it says; or a path, which `check_paths` judges.
        clause, *path_to_field = name.split(".")
        has = any(clause in function["clauses"] for function in found) and fields.issuperset(path_to_field)
        judge.wants(has or "/" in name, f"{place} has no clause `{name}`")


def check_faults(judge, names):
    """Each fault that a table names is a variant of src, or one of the library."""
    for document in documents():
        for number, heading, cells in rows_of(document):
            faults = dict(zip(heading, cells)).get("Fault", "").partition("that of ")[0]
            for fault in quoted_in(faults):
                is_fault = fault in names.variants | LIBRARY_FAULTS or fault.split("::")[-1] in names.variants and names.has(fault, [])
                judge.wants(is_fault, f"{document}:{number}: no fault of src is called `{fault}`")


def check_names(judge, names):
    """Each name in backquotes is one of the sources. In a row of a crate it is one of this crate, or of a crate that the row names."""
    for document in documents():
        if document in WITHOUT_NAMES:
            continue
        text = re.sub(r"(?ms)^```.*?^```$", lambda fenced: "\n" * fenced[0].count("\n"), text_of(document))
        for number, line in enumerate(text.splitlines(), 1):
            place = f"{document}:{number}"
            row = re.match(r" *\| `(\w+)` \|", line)
            is_row = bool(row) and row[1] in names.of_crate
            places = [quoted for quoted in quoted_in(line) if quoted in names.of_crate] if is_row else []
            for quoted in quoted_in(line):
                if re.fullmatch(r"[A-Za-z_]\w*(?:::\w+)*(?:\*|\(\))?", quoted):
                    judge.wants(is_named(quoted, names, places), f"{place}: no source has the name `{quoted}`")
            if is_row:
                check_row(judge, place, names, line)


def is_named(quoted, names, places):
    """A name of these crates, a word of the command line, a file or folder, or a name that is none of ours."""
    is_file = os.path.exists(os.path.join(TOP, quoted)) or quoted in ("src", "specs", "proofs")
    is_of_c = quoted.startswith("IOLM_") and re.search(rf"\b{quoted}\b", text_of("include/iolmaster.h"))
    return names.has(quoted, places) or quoted in names.of_crate["iol_tool"] or is_file or is_of_c or quoted in OUTSIDE


def check_row(judge, place, names, line):
    """In a row of a crate each path is one of it or of a crate that is named before, and what stands in a file is in it."""
    before, found = [], {}
    for quoted in quoted_in(line):
        before += [quoted] if quoted in names.of_crate else []
        if re.match(r"(?:src|specs|proofs)/", quoted):
            paths = [os.path.join("crates", crate, quoted) for crate in before]
            found[quoted] = "".join(text_of(path) for path in paths if os.path.exists(os.path.join(TOP, path)))
            judge.wants(found[quoted], f"{place}: {', '.join(before)} has no {quoted}")
    for named, paths in re.findall(r"((?:`\w+`(?:, | and )?)+) (?:\(|in )((?:`(?:src|specs)/[\w./]+`(?:, | and )?)+)", line):
        text = "".join(found[path] for path in quoted_in(paths))
        for name in quoted_in(named):
            judge.wants(re.search(rf"\b{name}\b", text), f"{place}: `{name}` does not stand in {paths}")


def check_mistakes(judge):
    """Each edit stands in the table of mistakes by its name, and each edit that the table names is there."""
    section = text_of("docs/PROOFS.md").partition(MISTAKES)[2].partition("\n## ")[0]
    rows = [[cell.strip() for cell in line.strip("|").split("|")] for line in section.splitlines() if line.startswith("|")]
    told = {(cells[0], cells[2]) for cells in rows if len(cells) == 3 and cells[1] == "edit"}
    there = set()
    for path in glob.glob(os.path.join(TOP, "crates/*/*/*.edit")):
        crate, folder, name = os.path.relpath(path, TOP).split("/")[1:]
        if folder in ("must-fail", "wrong-bodies"):
            there.add((name[: -len(".edit")].replace("_", " "), f"{crate}/{folder}"))
    for name, place in sorted(told | there):
        judge.wants((name, place) in there, f"docs/PROOFS.md: no edit of {place} is called '{name}'")
        judge.wants((name, place) in told, f"docs/PROOFS.md: the edit '{name}' of {place} is in no row")


def check_refusers(judge):
    """Where the table of mistakes says what refuses one, that is there: a crate, a file of tests, or a module of tests."""
    for number, heading, cells in rows_of("docs/PROOFS.md"):
        if heading[0] == "Mistake":
            for place in re.split(r"[,;] ", cells[-1]):
                files = [f"crates/{place}", place, f"{place}.cases", f"crates/iol_tests/src/{place}.rt"]
                has = any(os.path.exists(os.path.join(TOP, file)) for file in files)
                judge.wants(has, f"docs/PROOFS.md:{number}: {place} is not there")


def sentences_of(text):
    """The sentences of a document: those of its paragraphs, items and cells, without what stands indented or fenced."""
    text = re.sub(r"(?ms)^```.*?^```$", "", text)
    text = re.sub(r"(?m)^    .*$", "", text)
    for part in re.split(r"\n\s*\n|\n(?=\s*[-|#] ?)|\n(?=\s*\d+\. )|(?<=\|)(?=.)", text):
        yield from re.split(r"(?<=[.!?])\**\s+", part)


def check_sentences(judge):
    for document in documents():
        for sentence in sentences_of(text_of(document)):
            count = len(sentence.split())
            judge.wants(count <= MOST_WORDS, f"{document}: a sentence of {count} words: {sentence.strip()[:80]} ..")


def check_lines(judge):
    for crate in crates():
        for folder in ("src", "specs", "proofs"):
            for at, _, names in os.walk(os.path.join(TOP, "crates", crate, folder)):
                for name in names:
                    path = os.path.relpath(os.path.join(at, name), TOP)
                    # `rt fmt` lays an attribute out on one line.
                    lines = [line for line in text_of(path).splitlines() if not line.lstrip().startswith("#[")]
                    longest = max(map(len, lines), default=0)
                    judge.wants(longest <= LINE_CHARACTERS, f"{path}: a line of {longest} characters")


def check_toolchain(judge):
    """The logic that `--version` and the README name is that of this toolchain, whichever its release is."""
    said = subprocess.run(["rt", "version"], capture_output=True, text=True).stdout.strip()
    logic = re.search(r"logic [0-9a-f]+$", said)
    for path in ("README.md", "crates/iol_tool/src/version.rt"):
        judge.wants(logic and logic[0] in text_of(path), f"{path} does not name the logic of this toolchain: {said}")


def is_path(quoted):
    return bool(re.fullmatch(r"[\w./*-]+\.(antt|rt)|(docs|crates|src|specs|examples)/[\w./*-]+", quoted))


def is_there(path):
    places = ["", "crates", "crates/*", "crates/*/specs", "crates/*/src", "docs"]
    return any(glob.glob(os.path.join(TOP, place, path)) for place in places)


def check_paths(judge):
    for document in documents():
        for number, line in enumerate(text_of(document).splitlines(), 1):
            quoted = [path for path in re.findall(r"`([^`]+)`", line) if is_path(path)]
            plain = re.findall(r"(?<![\w/`.])(?:docs|crates|examples)/[\w/-]+(?:\.\w+)?", line)
            for path in dict.fromkeys(quoted + plain):
                judge.wants(is_there(path), f"{document}:{number}: {path} is not there")


def check_documents(judge):
    """What documents say of the sources."""
    functions = Functions()
    names = Names(functions)
    check_widths(judge)
    check_listed_clauses(judge, functions)
    check_clauses(judge, functions)
    check_faults(judge, names)
    check_names(judge, names)
    check_paths(judge)
    check_mistakes(judge)
    check_refusers(judge)
    check_sentences(judge)
    check_lines(judge)
    check_toolchain(judge)
