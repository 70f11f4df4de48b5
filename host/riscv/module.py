#!/usr/bin/env python3
"""Makes of the LLVM module that `rt lib` compiles for x86-64 one for RISC-V, and holds it against the header.

    module.py HEADER MODULE.ll OUT.ll        writes OUT.ll, and prints the header's functions, one to a line

Four changes: the triple, the data layout, no x86-64 processor, and `signext` on each exported 32-bit return, which the
RISC-V calling convention keeps sign-extended. Numbers, pointers and bool then pass alike; a struct by value would not,
so any other type in the header or in the module is an error.
"""
import os
import re
import sys

sys.dont_write_bytecode = True
sys.path.insert(0, os.path.join(os.path.dirname(__file__), "../tests"))
from header import of_header

TRIPLE = "riscv64-unknown-linux-gnu"
LAYOUT = "e-m:e-p:64:64-i64:64-i128:128-n32:64-S128"
# The header's types, and the module's for them. A pointer is ptr.
TYPES = {"uint8_t": "i8", "uint32_t": "i32", "uint64_t": "i64", "size_t": "i64", "bool": "i1", "_Bool": "i1", "void": "void"}


def fail(what):
    sys.exit(f"riscv: {what}")


def header_functions(header):
    """Each function of the header with its types in the module: the return's, then the parameters'."""
    functions = {}
    for name, (answer, parameters) in of_header(header)[0].items():
        types = [answer] + [kind for _, kind in parameters]
        functions[name] = ["ptr" if kind.endswith("*") else TYPES.get(kind) for kind in types]
        if None in functions[name]:
            fail(f"{name} has a type that is no number, pointer or bool: {', '.join(types)}")
    return functions


def module_type(words, what):
    """The type of a return or a parameter, which may have an attribute and a name beside it and nothing more."""
    found = [w for w in words if w not in ("noundef", "zeroext") and not w.startswith("%")]
    if len(found) != 1 or found[0] not in (*TYPES.values(), "ptr"):
        fail(f"{what} is {' '.join(words)}: no number, pointer or bool")
    return found[0]


def signature(line):
    """The name and the types of an exported definition."""
    m = re.fullmatch(r"define (.*?)@([^\s(]+)\((.*)\)[^()]*\{", line) or fail(f"cannot read: {line}")
    given, name, taken = m.groups()
    result = module_type(given.split(), f"the return of {name}")
    if result in ("i1", "i8") and "zeroext" not in given:
        fail(f"the return of {name} is not zero-extended")
    return name, [result] + [module_type(p.split(), f"a parameter of {name}") for p in taken.split(", ") if p]


def for_riscv(module, functions):
    """The module's text for RISC-V. What it exports must be the header's functions and nothing else."""
    lines, exported = module.splitlines(), {}
    for i, line in enumerate(lines):
        if line.startswith("define ") and not line.startswith("define internal "):
            name, types = signature(line)
            exported[name] = types
            if types[0] == "i32":
                lines[i] = line.replace("define ", "define signext ", 1)
        if re.match(r"@.* = (?!internal |private )", line):
            fail(f"the module exports data: {line}")
    for name in sorted(functions.keys() | exported.keys()):
        if functions.get(name) != exported.get(name):
            fail(f"{name} is {functions.get(name)} in the header and {exported.get(name)} in the module")
    text = "\n".join(lines) + "\n"
    for old, new in [
        (r'^target triple = "x86_64-.*"$', f'target triple = "{TRIPLE}"'),
        (r'^target datalayout = "e-.*"$', f'target datalayout = "{LAYOUT}"'),
    ]:
        text, count = re.subn(old, new, text, flags=re.M)
        if count != 1:
            fail(f"{old} stands {count} times in the module, not once")
    # each group of attributes names the processor, and nothing else that is x86's may stand in one
    text, count = re.subn(r'^(attributes #\d+ = \{.*) "target-cpu"="x86-64"(.*\})$', r"\1\2", text, flags=re.M)
    if count == 0:
        fail("no processor stands in the module")
    if re.search(r'"(target|tune)-\w+"', text):
        fail("more than a processor of x86-64 stands in the module")
    return text


def main():
    header, module, out = sys.argv[1:]
    functions = header_functions(header)
    with open(module, encoding="utf-8") as file:
        text = for_riscv(file.read(), functions)
    extended = set(re.findall(r"^define signext .*i32 @(\w+)\(", text, flags=re.M))
    if extended != {name for name, types in functions.items() if types[0] == "i32"}:
        fail("an exported 32-bit return is not sign-extended")
    with open(out, "w", encoding="utf-8") as file:
        file.write(text)
    print("\n".join(sorted(functions)))


main()
