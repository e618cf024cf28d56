"""What stands in the sources: the crates and their files, the functions of src with their clauses, and every name."""

import os
import re

TOP = os.path.dirname(os.path.dirname(os.path.abspath(__file__)))
ITEM = re.compile(r"(?m)^\s*(?:pub(?:\(\w+\))? )?(?:extern \"C\" )?(?:fn|struct|enum|trait|const|static|type|mod|ghost) (\w+)")
ENUM = re.compile(r"(?ms)^(?:pub(?:\(\w+\))? )?enum (\w+)[^{]*\{\n(.*?)^\}")
STRUCT = re.compile(r"(?ms)^(?:pub(?:\(\w+\))? )?struct (\w+)[^{;]*\{\n(.*?)^\}")
WORD = re.compile(r"(?m)^ *(?:abbrev |unfoldable )?pub (?:record |data )?([^\s:({]+)")
USED = re.compile(r"(?ms)^ *(?:pub )?use ([^;]*);")


def text_of(path):
    with open(os.path.join(TOP, path), encoding="utf-8") as file:
        return file.read()


def crates():
    lines = [line.split("#")[0].strip() for line in text_of("crates.txt").splitlines()]
    return [line.split(":")[0].split()[0] for line in lines if line]


def sources_of(crate):
    """The files of a crate's src, tests aside."""
    found = []
    for folder, folders, files in os.walk(os.path.join(TOP, "crates", crate, "src")):
        folders[:] = sorted(name for name in folders if name != "tests")
        names = [name for name in sorted(files) if name.endswith(".rt") and name != "tests.rt"]
        found += [os.path.relpath(os.path.join(folder, name), TOP) for name in names]
    return found


class Functions:
    """The functions of src, with their owner (a type or trait), module, and the names of their clauses."""

    def __init__(self):
        self.all = []
        for crate in crates():
            for path in sources_of(crate):
                self.read(crate, path)

    def read(self, crate, path):
        owners, function = [], None
        module = os.path.basename(path)[: -len(".rt")]
        for line in text_of(path).splitlines():
            owner = re.match(r"(?:pub )?(?:impl|trait)\b(.*)", line)
            name = re.match(r"\s*(?:pub(?:\(\w+\))? )?(?:extern \"C\" )?fn (\w+)", line)
            clause = re.match(r"\s*ensures (\w+)? ?\{", line)
            if owner:
                owners = re.findall(r"\w+", re.sub(r"<[^{]*?>(?= |\{|$)", " ", owner.group(1)))
            elif line.startswith("}"):
                owners = []
            if name:
                inside = owners if line.startswith(" ") else []
                function = {"name": name.group(1), "owners": inside, "places": [crate, module], "clauses": []}
                self.all.append(function)
            elif clause and function:
                function["clauses"].append(clause.group(1))

    def named(self, call, owner):
        """The functions that a document means by a call; `owner` is that of the call before it."""
        parts = call.split("::")
        name, before = parts[-1], parts[-2] if len(parts) > 1 else None
        if before:
            within = [f for f in self.all if before in f["owners"] + f["places"]]
            return [f for f in within if name in [f["name"]] + f["places"]]
        own = [f for f in self.all if f["name"] == name and owner in f["owners"]]
        free = [f for f in self.all if f["name"] == name]
        return own or free or [f for f in self.all if name in f["owners"] + f["places"]]


def files_of(crate, *folders):
    """The files of these folders of a crate, with their text."""
    for folder in folders:
        for at, _, names in os.walk(os.path.join(TOP, "crates", crate, folder)):
            for name in sorted(names):
                path = os.path.relpath(os.path.join(at, name), TOP)
                yield path, text_of(path)


# A lemma of proofs, as a document names the one that a mistake breaks.
LEMMA = re.compile(r"(?m)^ *(?:pub )?(\w+) : ")


class Names:
    """Each name that stands in a crate, and which name stands in which: a variant in its enum, an item in its module."""

    def __init__(self, functions):
        self.of_crate = {crate: {crate} for crate in crates()}
        self.variants = set()
        self.within = set()  # (owner, name)
        for crate in self.of_crate:
            for path, text in files_of(crate, "src", "specs"):
                self.read(crate, os.path.splitext(os.path.basename(path))[0], text)
            for _path, text in files_of(crate, "proofs"):
                self.of_crate[crate] |= set(LEMMA.findall(text))
        for function in functions.all:
            for owner in function["owners"] + function["places"]:
                self.within.add((owner, function["name"]))
        self.all = set().union(*self.of_crate.values())

    def read(self, crate, module, text):
        items = set(ITEM.findall(text)) | set(WORD.findall(text))
        inner = set(re.findall(r"(?m)^\s*(?:pub(?:\(\w+\))? )?(\w+):", text)) | set(re.findall(r"(?m)^  (\w+) :", text))
        clauses = set(re.findall(r"(?m)^\s*(?:ensures|requires) (\w+) \{", text))
        used = set(re.findall(r"\w+", " ".join(USED.findall(text))))
        said = set(re.findall(r'"([\w-]+)"', text))
        for owner, body in ENUM.findall(text):
            variants = set(re.findall(r"(?m)^    (\w+)(?:\(|,| \{)", body))
            self.variants |= variants
            self.within |= {(owner, variant) for variant in variants}
            inner |= variants
        for owner, body in STRUCT.findall(text):
            self.within |= {(owner, field) for field in re.findall(r"(?m)^    (?:pub(?:\(\w+\))? )?(\w+):", body)}
        self.within |= {(place, item) for place in (crate, module) for item in items | used} | {(crate, module)}
        self.of_crate[crate] |= {module} | items | inner | clauses | used | said

    def has(self, name, places):
        """Whether `a::b` is there: `b` in `a`, and the last name in one of these crates. `a_*` is any name that begins so."""
        parts = name.removesuffix("()").split("::")
        here = set().union(*(self.of_crate[place] for place in places)) if places else self.all
        if parts[-1].endswith("*"):
            return any(known.startswith(parts[-1][:-1]) for known in here)
        if len(parts) == 1:
            return parts[0] in here
        return all((owner, part) in self.within for owner, part in zip(parts, parts[1:])) and parts[-1] in here
