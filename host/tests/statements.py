#!/usr/bin/env python3
"""Holds docs/STATEMENTS.md against the tree: every name between backticks on it must be there.

    statements.py               checks the page, and says how many must-fail edits it does not name
    statements.py --self-test   puts names that are nowhere into a copy of the page: each must be found out

A name is one of these: `crate/specs/File: a, b` or `crate/proofs/File: a .. b` (definitions, theorems), `crate/specs/File`,
`crate::module::f` (a function, struct or constant), `crate::module::Type::f` (a method or constant of a type; `Type::*` for all of
them), `crate::module` or `crate::module::*`, `f` after such a name in the same cell
or paragraph (of that crate, or of that file), `rvghash_f` or `RVGHASH_F` (a name of the header), a crate, a must-fail edit after
its crate and a colon, one outside tables without its crate, a path of the tree, `make target`, or one of the literals below.
"""
import glob
import os
import re
import sys

PAGE = "docs/STATEMENTS.md"
LITERALS = {"requires", "&mut", "out", "memset", "logic-built=trusted", "libraries-built=trusted",
            "logic-built=trusted libraries-built=trusted statements=trusted", "rt ci", "rt lib", "rt version", "librvghash.a",
            "struct rvghash_running", "NULL", "N passed, 0 failed"}
MODIFIERS = r"(?:(?:unfoldable|abbrev|pub|private|data|record) )*"


def read(path):
    if not os.path.isfile(path):
        return ""
    with open(path, encoding="utf-8") as file:
        return file.read()


CRATES = {os.path.basename(path) for path in glob.glob("crates/*")}
EDITS = {(path.split("/")[1], os.path.basename(path)[:-5]) for path in glob.glob("crates/*/must-fail/*.edit")}


def declares(file, name):
    """Whether an antt file declares this name: the first word of a line, with a colon on it or on the indented lines after it."""
    return re.search(rf"^ *{MODIFIERS}{re.escape(name)}(?=\s)[^=\n]*(?:\n +[^=\n]*)*?\s:\s", read(file), re.M) is not None


def of_type(path, type_name):
    """What a file has in the `impl` blocks of a type: of its own, and of traits for it."""
    return "".join(re.findall(rf"^impl\b[^\n]*\b{re.escape(type_name)}\b[^\n]*\{{\n(.*?)^\}}", read(path), re.M | re.S))


def has_function(crate, modules, name):
    """Whether a module, or a type of it, has such a function, struct, field or constant; where no module is given, the crate anywhere."""
    if modules and modules[-1][0].isupper():
        *modules, type_name = modules
        text = of_type(f"crates/{crate}/src/{'/'.join(modules or ['lib'])}.rt", type_name)
        return re.search(rf"\b(?:fn|const) {re.escape(name)}\b" if name != "*" else r"\bfn ", text) is not None
    files = [f"crates/{crate}/src/{'/'.join(modules)}.rt"] if modules else glob.glob(f"crates/{crate}/src/**/*.rt", recursive=True)
    return any(re.search(rf"\b(?:(?:fn|struct|enum|const) {re.escape(name)}\b|pub {re.escape(name)}:)", read(file)) for file in files)


class Reader:
    """Reads one cell or paragraph, from its first name to its last."""

    def __init__(self, edits_here):
        self.edits_here = edits_here  # a cell of the column "guarded by"
        self.crate_of_edits = None  # the crate whose edits are being listed
        self.crate = None  # of the last function
        self.file = None  # the last file of definitions
        self.named_edits = set()

    def lead(self, words):
        """Takes the words in front of a name: `crate: ` begins a list of edits, and only a comma goes on with it."""
        begins = re.search(r"(?:^|[\s(;])(\w+):\s*$", words)
        if begins and (begins[1] in CRATES or self.edits_here):
            self.crate_of_edits = begins[1]
        elif not re.fullmatch(r",\s*(?:and\s+)?", words):
            self.crate_of_edits = None

    def wrong(self, name):
        """What of this name is not in the tree; nothing if all is."""
        if self.crate_of_edits:
            self.named_edits.add((self.crate_of_edits, name))
            return [] if (self.crate_of_edits, name) in EDITS else [f"the edit {name} of {self.crate_of_edits}"]
        definitions = re.fullmatch(r"(\w+)/(specs|proofs)/(\w+)(?::\s(.*))?", name, re.S)
        if definitions:
            crate, part, file, names = definitions.groups()
            self.file = f"crates/{crate}/{part}/{file}.antt"
            if not os.path.exists(self.file):
                return [name]
            return [f"{crate}/{part}/{file}: {n}" for n in re.split(r"[,\s]+", names or "")
                    if n not in ("", "..") and not declares(self.file, n)]
        if "::" in name:
            self.crate, *modules, last = name.removesuffix("::*").split("::")
            is_module = os.path.exists(f"crates/{self.crate}/src/{'/'.join([*modules, last])}.rt")
            if name.endswith("::*") and last[0].isupper():
                modules, last = [*modules, last], "*"
            is_function = last == "*" or not name.endswith("*")
            is_function = is_function and has_function(self.crate, modules or ["lib"], last)
            return [] if is_module or is_function else [name]
        return [] if self.bare(name) else [name]

    def bare(self, name):
        """Whether a name that stands alone is in the tree."""
        if name in LITERALS or name in CRATES or os.path.exists(name.rstrip("/")):
            return True
        if name.lower().startswith("rvghash_"):
            return re.search(rf"\b{name}\b", read("include/rvghash.h")) is not None
        if name.startswith("make "):
            return re.search(rf"^{re.escape(name[5:])}:", read("Makefile"), re.M) is not None
        if self.crate and has_function(self.crate, [], name) or self.file and declares(self.file, name):
            return True
        edits = {edit for edit in EDITS if edit[1] == name}
        self.named_edits |= edits
        return bool(edits) and not self.edits_here


def blocks(text):
    """The cells of the tables, and the paragraphs; with each whether it lists edits."""
    for block in re.split(r"\n\s*\n|\n(?=- )", text):
        rows = [line for line in block.split("\n") if line.startswith("|")]
        for row in rows:
            cells = re.split(r"(?<!\\)\|", row)[1:-1]
            for place, cell in enumerate(cells):
                yield cell, len(cells) == 3 and place == 2
        if not rows:
            yield block, False


def check(text):
    """How many names there are, those that are nowhere, and the edits that are named."""
    count, missing, edits = 0, [], set()
    for block, edits_here in blocks(text):
        reader, end = Reader(edits_here), 0
        for match in re.finditer(r"`([^`]+)`", block):
            reader.lead(block[end:match.start()])
            end = match.end()
            count += 1
            missing += reader.wrong(match[1])
        edits |= reader.named_edits
    return count, missing, edits


AN_EDIT = min(EDITS)[1]

# Names that are nowhere, and a line of a page that has each: in a paragraph or in a row of a table.
NOWHERE = [
    ("half_ofx", "| a promise | `vector_product::clmul::clmul64`, `half_ofx` | the check itself |"),
    ("carry_of_nothing_at_all", "Each with a must-fail edit of its constant: `carry_of_nothing_at_all`."),
    ("no_such_thing", "A block is a number (`no_such_thing`)."),
    ("element::elephant::*", "| a promise | `element::elephant::*` | the check itself |"),
    ("vector_word::decoder", "The words are decoded by `vector_word::decoder`."),
    ("gf128/specs/Field: produkt", "| a promise | `gf128/specs/Field: product, produkt` | the check itself |"),
    ("the edit no_such_edit of rvghash", "| a promise | `rvghash_execute` | rvghash: `no_such_edit` |"),
    (f"the edit {AN_EDIT} of no_such_crate", f"| a promise | `rvghash_execute` | no_such_crate: `{AN_EDIT}` |"),
    (AN_EDIT, f"| a promise | `rvghash_execute` | `{AN_EDIT}` |"),
    ("rvghash_no_such_function", "The file is what `rvghash_no_such_function` leaves."),
    ("host/no_such_file", "It is tried by `host/no_such_file`."),
    ("gf128/specs/Feild", "| a promise | `gf128/specs/Feild` | the check itself |"),
    ("vector_kind::Kind::no_such_method", "| a promise | `vector_kind::Kind::no_such_method` | the check itself |"),
    ("vector_kind::Kine::is_vv", "| a promise | `vector_kind::Kine::is_vv` | the check itself |"),
    ("vector_kind::Kine::*", "| a promise | `vector_kind::Kine::*` | the check itself |"),
    ("vector_word::no_such_module", "| a promise | `vector_word::no_such_module` | the check itself |"),
]


def self_test(text):
    accepted = 0
    for name, line in NOWHERE:
        found = name in check(f"{text}\n\n{line}\n")[1]
        accepted += not found
        print(f"statements: {'found out' if found else 'ACCEPTED'}: {line}")
    return accepted


def main():
    text = read(PAGE)
    if sys.argv[1:] == ["--self-test"]:
        sys.exit(1 if self_test(text) else 0)
    count, missing, edits = check(text)
    for what in missing:
        print("statements: not in the tree:", what)
    print(f"statements: {count} names on {PAGE}, {len(missing)} of them not in the tree")
    unnamed = EDITS - edits
    print(f"statements: {len(EDITS) - len(unnamed)} of {len(EDITS)} must-fail edits are named there, {len(unnamed)} are not")
    if "--unnamed" in sys.argv:
        print("".join(f"  {crate}: {edit}\n" for crate, edit in sorted(unnamed)), end="")
    sys.exit(1 if missing or count < 100 else 0)


main()
