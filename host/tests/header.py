#!/usr/bin/env python3
"""Holds the C declarations against the library: include/rvghash.h as the kit's own clang parses it, the exported signatures of
crates/rvghash/src, and the oracle's host/oracle/src/ffi.rs. They must agree on every function's name and answer, on its
parameters' names, order and types, and on the running hash's fields. The header's refusal numbers must be README's table and
those of crates/refusal, its kinds of word those of crates/vector_kind, and its lengths of records the constants of these names
in the crates.

    header.py [ARCHIVE]     compares; with librvghash.a, its global symbols too
    header.py --self-test   puts wrong declarations into a copy of the header: each must be refused
"""
import glob
import json
import os
import re
import subprocess
import sys
import tempfile

HEADER = "include/rvghash.h"
STRUCT = "struct rvghash_running"
NUMBERS, KINDS = "rvghash_number", "rvghash_kind"  # the enums
KINDS_SOURCE = "crates/vector_kind/specs/Kinds.antt"
REFUSALS_SOURCE = "crates/refusal/specs/Refusal.antt"

# The kit's clang brings no headers, and the comparison goes by the types' spelled names: so these serve.
STDINT = "".join(f"typedef __UINT{bits}_TYPE__ uint{bits}_t; typedef __INT{bits}_TYPE__ int{bits}_t;\n"
                 for bits in (8, 16, 32, 64))
STDDEF = "typedef __SIZE_TYPE__ size_t;\n"
STDBOOL = "typedef _Bool bool;\n"

NUMBER_TYPES = {"bool": "bool", "u8": "uint8_t", "u32": "uint32_t", "u64": "uint64_t", "usize": "size_t", "()": "void"}
C_REFUSALS = {"NoneExists": "NONE", "ManyExist": "MANY"}  # `None` is Option's
C_FIELDS = {"open_block": "open"}  # the fields that have another name in C: `open` is a word of the language antt


def read(path):
    with open(path, encoding="utf-8") as file:
        return file.read()


def kit_clang():
    """The clang of the kit that `rt` belongs to."""
    guide = subprocess.run(["rt", "doc"], capture_output=True, text=True, check=True).stdout.strip()
    return os.path.join(os.path.dirname(guide), "toolchain/bin/clang")


def parsed(header):
    """The header's top declarations, as clang's JSON has them."""
    with tempfile.TemporaryDirectory() as folder:
        for name, text in (("stdint.h", STDINT), ("stddef.h", STDDEF), ("stdbool.h", STDBOOL)):
            with open(os.path.join(folder, name), "w", encoding="utf-8") as file:
                file.write(text)
        run = subprocess.run(
            [kit_clang(), "-std=c99", "-Wall", "-Wextra", "-pedantic", "-Werror", "-nostdinc", "-isystem", folder, "-x", "c",
             "-fsyntax-only", "-Xclang", "-ast-dump=json", header], capture_output=True, text=True)
    if run.returncode != 0:
        sys.exit(f"header: clang cannot parse {header}:\n{run.stderr}")
    return json.loads(run.stdout)["inner"]


def of_kind(node, kind):
    return [inner for inner in node.get("inner", []) if inner["kind"] == kind]


def named_types(node, kind):
    """(name, type) of each inner declaration of this kind."""
    return [(inner.get("name", ""), inner["type"]["qualType"]) for inner in of_kind(node, kind)]


def constant(node):
    """The value of an enumerator, as clang computed it."""
    return next(inner["value"] for inner in of_kind(node, "ConstantExpr"))


def of_header(header):
    """What the header declares: functions, the struct's fields, each enum's names and numbers; those without a name in one."""
    functions, fields, enums = {}, [], {NUMBERS: [], KINDS: []}
    for node in parsed(header):
        if node["kind"] == "FunctionDecl":
            answer = node["type"]["qualType"].split(" (")[0]
            functions[node["name"]] = (answer, named_types(node, "ParmVarDecl"))
        elif node["kind"] == "RecordDecl" and f"struct {node.get('name')}" == STRUCT:
            fields = named_types(node, "FieldDecl")
        elif node["kind"] == "EnumDecl":
            found = [(inner["name"], constant(inner)) for inner in of_kind(node, "EnumConstantDecl")]
            enums[node.get("name")] = enums.get(node.get("name"), []) + found
    return functions, fields, enums


def comma_parts(text):
    return [part.strip() for part in text.split(",") if part.strip()]


def rattle_parameter(name, kind):
    """The C parameters that one parameter of an exported function becomes."""
    if kind in ("&[u8]", "&mut [u8]"):
        const = "" if "mut" in kind else "const "
        return [(name, f"{const}uint8_t *"), (f"{name}_len", "size_t")]
    if kind in ("&Running", "&mut Running"):
        const = "" if "mut" in kind else "const "
        return [(name, f"{const}{STRUCT} *")]
    number, pointer = (kind[5:], " *") if kind.startswith("&mut ") else (kind, "")
    return [(name, NUMBER_TYPES.get(number, f"no C type for {kind}") + pointer)]


def of_library():
    """What crates/rvghash exports, in C's types."""
    functions = {}
    for path in glob.glob("crates/rvghash/src/**/*.rt", recursive=True):
        pattern = r'#\[unsafe\(no_mangle\)\]\s*pub extern "C" fn (\w+)\(([^)]*)\)(?: -> (\S+))?'
        for name, parameters, answer in re.findall(pattern, read(path)):
            pairs = [re.split(r":\s*", part) for part in comma_parts(parameters)]
            functions[name] = (NUMBER_TYPES[answer or "()"], [c for pair in pairs for c in rattle_parameter(*pair)])
    return functions


def rust_type(kind):
    if kind.startswith("*"):
        access, to = kind[1:].split(" ")
        return ("const " if access == "const" else "") + (STRUCT if to == "Running" else NUMBER_TYPES[to]) + " *"
    return NUMBER_TYPES[kind]


def of_oracle():
    """What the oracle declares, in C's types."""
    declarations = re.search(r'extern "C" \{(.*?)\n\}', read("host/oracle/src/ffi.rs"), re.S)[1]
    functions = {}
    for name, parameters, answer in re.findall(r"fn (\w+)\(([^)]*)\)(?: -> (\w+))?;", declarations):
        pairs = [re.split(r":\s*", part) for part in comma_parts(parameters)]
        functions[name] = (NUMBER_TYPES[answer or "()"], [(parameter, rust_type(kind)) for parameter, kind in pairs])
    return functions


def struct_fields(path):
    """The fields of the #[repr(C)] struct Running in this file, in C's types."""
    text = re.search(r"#\[repr\(C\)\]\s*(?:#\[[^\]]*\]\s*)*pub struct Running \{(.*?)\}", read(path), re.S)
    fields = []
    for name, kind in re.findall(r"pub (\w+): ([^,\n]+),", text[1] if text else ""):
        array = re.fullmatch(r"\[(\w+); (\d+)\]", kind)
        name = C_FIELDS.get(name, name)
        if kind == "Block":  # two 64-bit halves
            fields += [(f"{name}_high", "uint64_t"), (f"{name}_low", "uint64_t")]
        else:
            fields.append((name, f"{NUMBER_TYPES[array[1]]}[{array[2]}]" if array else NUMBER_TYPES[kind]))
    return fields


def differences(what, ours, theirs):
    """Compares two lists of (name, type), in words."""
    for place in range(max(len(ours), len(theirs))):
        here, there = (" ".join(reversed(side[place])) if place < len(side) else "nothing" for side in (ours, theirs))
        if here != there:
            yield f"{what}, place {place + 1}: the header has `{here}`, {{}} `{there}`"


def function_differences(header, other):
    for name in sorted(header.keys() | other.keys()):
        if name not in header or name not in other:
            yield f"{name}: {'not in the header, but in' if name not in header else 'in the header, but not in'} {{}}"
            continue
        (answer, parameters), (their_answer, their_parameters) = header[name], other[name]
        if answer != their_answer:
            yield f"{name}: the header's answer is `{answer}`, that of {{}} `{their_answer}`"
        yield from differences(name, parameters, their_parameters)


def table_of_numbers():
    """README's rows: number, name, meaning."""
    rows = re.findall(r"^\| (\d+) \| `(RVGHASH_\w+)` \| (.*?) \|$", read("README.md"), re.M)
    return [(name, number, meaning) for number, name, meaning in rows]


def number_differences(header, numbers):
    table = table_of_numbers()
    yield from differences(f"enum {NUMBERS}", numbers, [(name, value) for name, value, _ in table])
    text = " ".join(read(header).split())  # a comment may go on in the next line
    for name, value, meaning in table:
        if not re.search(rf"\b{name} = {value},? /\* {re.escape(meaning)} \*/", text):
            yield f"{name}: the header's comment is not {{}}'s `{meaning}`"


def refusals_of_library():
    """The refusals' numbers in the library's definition, by their names in C: Not16Bytes is RVGHASH_NOT_16_BYTES."""
    rows = re.findall(r"^number (\w+) = (\d+)$", read(REFUSALS_SOURCE), re.M)
    names = [(C_REFUSALS.get(name) or re.sub(r"\B(?=[A-Z]|(?<!\d)\d)", "_", name).upper(), number) for name, number in rows]
    return [("RVGHASH_DONE", "0"), *((f"RVGHASH_{name}", number) for name, number in names)]


def kinds_of_library():
    """The kinds' numbers in the library's definition, by their names in C: VclmulVv is RVGHASH_VCLMUL_VV."""
    clauses = re.findall(r"^kind_number (\w+) = (\d+)$", read(KINDS_SOURCE), re.M)
    return [("RVGHASH_" + re.sub(r"\B(?=[A-Z])", "_", name).upper(), number) for name, number in clauses]


def lengths_of_library(names):
    """The crates' constants of these names: RVGHASH_RECORD_BYTES is RECORD_BYTES."""
    sources = "".join(read(path) for path in sorted(glob.glob("crates/*/src/**/*.rt", recursive=True)))
    pattern = r"^(?:pub )?const {}: usize = (\d+);$"
    values = [(name, re.findall(pattern.format(name.removeprefix("RVGHASH_")), sources, re.M)) for name in names]
    return [(name, ", ".join(found) or "nothing") for name, found in values]


def complaints(header):
    """Everything in which the header differs from the rest."""
    functions, fields, enums = of_header(header)
    found = []
    for where, theirs in (("crates/rvghash", of_library()), ("the oracle", of_oracle())):
        found += [text.format(where) for text in function_differences(functions, theirs)]
    for where, path in (("crates/ghash_state", "crates/ghash_state/src/lib.rt"), ("the oracle", "host/oracle/src/ffi.rs")):
        found += [text.format(where) for text in differences(STRUCT, fields, struct_fields(path))]
    found += [text.format("README") for text in number_differences(header, enums[NUMBERS])]
    found += [text.format("crates/refusal") for text in differences(f"enum {NUMBERS}", enums[NUMBERS], refusals_of_library())]
    found += [text.format("crates/vector_kind") for text in differences(f"enum {KINDS}", enums[KINDS], kinds_of_library())]
    lengths = [(name, value) for name, value in enums.get(None, []) if name.endswith("_BYTES")]
    theirs = lengths_of_library(["RVGHASH_RECORD_BYTES", "RVGHASH_LINK_BYTES", "RVGHASH_PARKED_BYTES"])
    found += [text.format("the crates") for text in differences("the lengths of records", lengths, theirs)]
    return found


def symbol_complaints(archive, names):
    """The archive's global symbols are the header's functions, no more and no less."""
    listing = subprocess.run(["nm", "--defined-only", "--extern-only", archive], capture_output=True, text=True, check=True)
    symbols = {line.split()[2] for line in listing.stdout.splitlines() if len(line.split()) == 3}
    return [f"{name}: in {'the header' if name in names else archive} alone" for name in sorted(symbols ^ names)]


# Wrong headers: what is wrong, and what its text has in place of what, each at its first place.
WRONG = [
    ("a scalar of 32 bits", {"uint64_t scalar": "uint32_t scalar"}),
    ("a file length of 32 bits", {"size_t file_len": "uint32_t file_len"}),
    ("a key length of 8 bits", {"size_t key_len": "uint8_t key_len"}),
    ("a signed vl", {"uint32_t vl,": "int32_t vl,"}),
    ("an answer of 8 bits", {"uint32_t rvghash_execute(": "uint8_t rvghash_execute("}),
    ("a number 70", {"RVGHASH_KEY_OVERLAP = 7,": "RVGHASH_KEY_OVERLAP = 70,"}),
    ("two numbers exchanged", {"SEW_NOT_32 = 4,": "SEW_NOT_32 = 5,", "NOT_MULTIPLE_OF_4 = 5,": "NOT_MULTIPLE_OF_4 = 4,"}),
    ("a key that is not const", {"const uint8_t *key": "uint8_t *key"}),
    ("SEW and LMUL exchanged", {"uint32_t sew, uint32_t lmul": "uint32_t lmul, uint32_t sew"}),
    ("the executor's policies exchanged",
     {"bool tail_agnostic,\n": "bool mask_agnostic,\n", "bool mask_agnostic, uint32_t vl": "bool tail_agnostic, uint32_t vl"}),
    ("a record's policies exchanged", {"bool tail_agnostic, bool mask_agnostic": "bool mask_agnostic, bool tail_agnostic"}),
    ("a policy of 32 bits", {"bool tail_agnostic": "uint32_t tail_agnostic"}),
    ("a record without the mask policy", {"bool tail_agnostic, bool mask_agnostic": "bool tail_agnostic"}),
    ("another meaning", {"/* a key or block not 16 bytes long */": "/* a key or block not 8 bytes long */"}),
    ("a field of 64 bits", {"uint32_t a_count": "uint64_t a_count"}),
    ("a function that is not there", {"void rvghash_running_new": "void rvghash_reset(void);\nvoid rvghash_running_new"}),
    ("a function left out",
     {"RVGHASH_MUST_USE\nuint32_t rvghash_assemble(const uint8_t *text, size_t text_len, uint32_t *word);": ""}),
    ("two kinds exchanged", {"VCLMUL_VX = 1,": "VCLMUL_VX = 2,", "VCLMULH_VV = 2,": "VCLMULH_VV = 1,"}),
    ("a kind left out", {"    RVGHASH_VGHSH_VS = 5,\n": ""}),
    ("a kind that is not there", {"RVGHASH_VGMUL_VS = 7\n": "RVGHASH_VGMUL_VS = 7,\n    RVGHASH_VGMUL_VX = 8\n"}),
    ("a text length of 32 bits", {"size_t text_len": "uint32_t text_len"}),
    ("a text's length of 32 bits", {"size_t text_len, size_t *length": "size_t text_len, uint32_t *length"}),
    ("a text to read that is not const", {"const uint8_t *text": "uint8_t *text"}),
    ("vs1 and vs2 exchanged", {"uint32_t *vs2, uint32_t *vs1": "uint32_t *vs1, uint32_t *vs2"}),
    ("a number 21", {"RVGHASH_SHORT_TEXT = 22 ": "RVGHASH_SHORT_TEXT = 21 "}),
    ("two numbers 16", {"RVGHASH_BAD_PARKED = 15,": "RVGHASH_BAD_PARKED = 16,"}),
    ("another meaning of number 15", {"unpark: the record's length not 48, ": ""}),
    ("a parked record of 47 bytes", {"RVGHASH_PARKED_BYTES = 48": "RVGHASH_PARKED_BYTES = 47"}),
    ("a running hash to park that is not const", {"rvghash_park(const struct": "rvghash_park(struct"}),
    ("a running hash to read into that is const", {"rvghash_unpark(struct": "rvghash_unpark(const struct"}),
    ("a buffer to park into that is const", {"running, uint8_t *record": "running, const uint8_t *record"}),
    ("a parked record that is not const", {"running, const uint8_t *record": "running, uint8_t *record"}),
    ("a buffer's length of 32 bits",
     {"running, uint8_t *record, size_t record_len": "running, uint8_t *record, uint32_t record_len"}),
    ("a parked record without its length", {"running, const uint8_t *record, size_t record_len": "running, const uint8_t *record"}),
    ("parking left out",
     {"RVGHASH_MUST_USE\nuint32_t rvghash_park(const struct rvghash_running *running, uint8_t *record, size_t record_len);": ""}),
    ("a number 17", {"RVGHASH_BAD_LINKS = 16,": "RVGHASH_BAD_LINKS = 17,"}),
    ("another meaning of number 16", {"the records' length no multiple of 32,": "the records' length no multiple of 16,"}),
    ("a link of 31 bytes", {"RVGHASH_LINK_BYTES = 32": "RVGHASH_LINK_BYTES = 31"}),
    ("links that are not const", {"const uint8_t *records": "uint8_t *records"}),
    ("results that are const", {"uint8_t *results": "const uint8_t *results"}),
    ("the links' length of 32 bits", {"size_t records_len": "uint32_t records_len"}),
    ("results without their length", {"uint8_t *results, size_t results_len": "uint8_t *results"}),
    ("links before their key",
     {"rvghash_check_links(const uint8_t *key, size_t key_len, const uint8_t *records, size_t records_len":
      "rvghash_check_links(const uint8_t *records, size_t records_len, const uint8_t *key, size_t key_len"}),
    ("results of 32 bits", {"uint8_t *results": "uint32_t *results"}),
]


def changed(text, changes):
    for old, new in changes.items():
        assert old in text, old
        text = text.replace(old, new, 1)
    return text


def self_test():
    accepted, always = 0, complaints(HEADER)
    with tempfile.TemporaryDirectory() as folder:
        for what, changes in WRONG:
            copy = os.path.join(folder, "rvghash.h")
            with open(copy, "w", encoding="utf-8") as file:
                file.write(changed(read(HEADER), changes))
            found = [text for text in complaints(copy) if text not in always]
            accepted += not found
            print(f"header: {what}: " + (f"refused: {found[0]}" if found else "ACCEPTED"))
    print(f"header: {len(WRONG) - accepted} of {len(WRONG)} wrong headers are refused")
    return accepted


def main():
    if sys.argv[1:] == ["--self-test"]:
        sys.exit(1 if self_test() else 0)
    found = complaints(HEADER)
    functions, _, enums = of_header(HEADER)
    if len(sys.argv) > 1:
        found += symbol_complaints(sys.argv[1], set(functions))
    for text in found:
        print("header:", text)
    if found or not functions or not enums[NUMBERS] or not enums[KINDS]:
        sys.exit("header: the declarations differ")
    print(f"header: {len(functions)} functions, the struct, {len(enums[NUMBERS])} numbers, {len(enums[KINDS])} kinds of word "
          "and the records' lengths are the same in the header, the library, the oracle and README")


if __name__ == "__main__":
    main()
