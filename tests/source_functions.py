"""The functions of a crate's sources, by their lines, which `rt fmt` has laid out, and stand-ins for them.

A stand-in is a body that does not return, so that it keeps any contract and is proved at once. `--only` has the prover prove a function
and all that it calls; where what is called has stand-ins, it proves that function alone. The proof of a function reads the contracts of
what it calls and not the bodies, so that it stays the same.
"""

import os
import pathlib
import re
import typing

FUNCTION = re.compile(r" *(?:pub(?:\([a-z]+\))? )?(?:extern \"C\" )?fn (\w+)")
# The line that a function's body begins at the end of: a brace alone, or behind the function's head.
BODY = re.compile(r" *(?:.*\bfn .*|\).*|where .*)?\{$")
OWNER = re.compile(r"impl(?:<.*?>)? (?:(?:\w+::)*(?P<of>\w+)(?:<.*>)? for )?(?P<type>\w+)(?:<.*>)? \{")
TRAIT = re.compile(r"(?:pub(?:\([a-z]+\))? )?trait ")
# Files of a function's proof that are made for its body.
PROOF_FILES = ("Answers.antt", "Invariants.antt", "Proof.antt")
STAND_IN = "src/stand_in.rt"
TEXT_OF_STAND_IN = """\
//! What does not return, for a body that stands in for another.
ghost use Rattle.std.specs.Prelude.{◌<◌};

unsafe extern "C" {
    pub safe fn never()
        ensures { 1 < 0 };
}
"""


class Function(typing.NamedTuple):
    """A function of a source: as `--only` takes it, where its text stands, from its attributes to the brace that ends it, where its body
    stands, between the braces, whether it is of a type, and whether it stands in an impl of a trait."""

    only: str
    text: range
    body: range
    is_of_type: bool
    is_of_trait: bool

    def proof_in(self, folder):
        """The folder of its proof in a crate. That of a type's function is at the module that declares the type."""
        path = self.only.replace("::", "/")
        if self.is_of_type:
            found = sorted(pathlib.Path(folder, "proofs").glob(f"**/{path}"))
            return str(found[0].relative_to(folder)) if found else f"proofs/{path}"
        return f"proofs/{path}"


def functions_of(source, text):
    """The functions of a source that have bodies and stand in no trait, and in no module inside of it."""
    lines = text.split("\n")
    starts = [0]
    for line in lines:
        starts.append(starts[-1] + len(line) + 1)
    block, functions = "}", []
    for number, line in enumerate(lines):
        if line.startswith(("impl", "}", "mod ")) or TRAIT.match(line):
            block = line
        if found := FUNCTION.match(line):
            functions.append(function_of(source, lines, starts, number, found[1], block))
    return [function for function in functions if function]


def function_of(source, lines, starts, head, name, block):
    """The function whose head is this line, in a block that begins so; none where it has no body or no name for `--only`."""
    indent = lines[head][: len(lines[head]) - len(lines[head].lstrip())]
    # (a declaration, as in a block of `extern`, ends with its contract)
    end = next((number for number in range(head, len(lines)) if lines[number] == f"{indent}}}"), None)
    begin = next((number for number in range(head, end or head) if BODY.match(lines[number])), None)
    owner, module = OWNER.match(block), [] if source in ("src/lib.rt", "src/main.rt") else source[4:-3].split("/")
    if begin is None or len(indent) != (4 if owner else 0) or not (owner or block.startswith("}")):
        return None
    first = head
    while lines[first - 1].lstrip().startswith("#["):
        first -= 1
    text, body = range(starts[first], starts[end + 1] - 1), range(starts[begin + 1], starts[end])
    if owner:
        return Function(f"{owner['type']}{owner['of'] or ''}::{name}", text, body, True, bool(owner["of"]))
    return Function("::".join([*module, name]), text, body, False, False)


def stand_ins(folder, texts, kept):
    """The texts that a copy of a crate needs beside its own and in place of these, so that all its functions but those that are kept have
    stand-ins; none of a file that goes. Those kept are named as `--only` takes them."""
    made = {STAND_IN: TEXT_OF_STAND_IN}
    for source in sources_in(folder):
        text = texts.get(source) or text_in(folder, source)
        for function in reversed(functions_of(source, text)):
            if function.only not in {"main", *kept}:
                text = with_stand_in(text, function.body)
                made.update({f"{function.proof_in(folder)}/{file}": None for file in PROOF_FILES})
        made[source] = text
    root = "src/lib.rt" if "src/lib.rt" in made else "src/main.rt"
    made[root] += "\nmod stand_in;\n"
    return made


def with_stand_in(text, body):
    """A text in which this body does not return."""
    indent = text[body.stop : text.index("}", body.stop)] + "    "
    return f"{text[: body.start]}{indent}crate::stand_in::never();\n{indent}unreachable!()\n{text[body.stop :]}"


def sources_in(folder):
    """The sources of a crate, by their paths in its folder."""
    found = (f"{at}/{file}" for at, _, files in os.walk(f"{folder}/src") for file in files if file.endswith(".rt"))
    return sorted(os.path.relpath(path, folder) for path in found)


def text_in(folder, path):
    with open(f"{folder}/{path}", encoding="utf-8") as file:
        return file.read()
