#!/usr/bin/env python3
"""Prints a C program that holds the headers of the library for C against its exports: bench/c_types.py

Of each export in crates/mt_c/src, and of each call that rust/maple/src/raw.rs declares, the program has a pointer of the type that its
words come to in C, set to what a header of include/ declares by that name; and of each struct its size and fields.
So it compiles just where the types are the same, and links just where the archive has the names."""
import glob
import os
import re

os.chdir(os.path.join(os.path.dirname(os.path.abspath(__file__)), ".."))

# What C has for the types of the exports, and of the declarations in Rust.
STRUCTS = {
    "TreeHandle": "maple_tree", "UserHandle": "maple_user", "OutRange": "maple_range", "OutWalk": "maple_walk",
    "OutForm": "maple_form", "OutStats": "maple_stats", "CallWindow": "maple_read", "Outcome": "maple_done",
    "OutWindow": "maple_window", "OutCall": "maple_call",
}
IN_RUST = {
    "RawTree": "maple_tree", "RawUser": "maple_user", "RawRange": "maple_range", "Range": "maple_range",
    "RawWalk": "maple_walk", "RawForm": "maple_form", "RawStats": "maple_stats", "RawRead": "maple_read", "RawDone": "maple_done",
    "RawWindow": "maple_window",
    "RawCall": "maple_call",
}
WORDS = {"u8": "uint8_t", "u32": "uint32_t", "u64": "uint64_t", "usize": "size_t"}


def in_c(word, structs):
    """The type in C of what is behind a pointer, or of a number."""
    return WORDS.get(word) or f"struct {structs[word]}"


def of_export(kind):
    """The types in C of an argument of an export: a slice is a pointer and a length, and the allocator nothing."""
    if kind == "Global":
        return []
    slice_of = re.fullmatch(r"&(mut )?\[(\w+)\]", kind)
    if slice_of:
        return [("" if slice_of[1] else "const ") + in_c(slice_of[2], STRUCTS) + " *", "size_t"]
    if kind.startswith("&mut "):
        return [in_c(kind[5:], STRUCTS) + " *"]
    return [in_c(kind, {})]


def of_rust(kind, aliases):
    kind = aliases.get(kind, kind)
    pointer = re.fullmatch(r"\*(mut|const) (\w+)", kind)
    if pointer:
        return ["const " * (pointer[1] == "const") + in_c(pointer[2], IN_RUST) + " *"]
    return [in_c(kind, {})]


def arguments(text):
    return [it.split(":", 1)[1].strip() for it in re.sub(r"\s+", " ", text).split(",") if it.strip()]


def exports():
    for name in sorted(glob.glob("crates/mt_c/src/*.rt")):
        text = open(name, encoding="utf-8").read()
        for it in re.finditer(r'extern "C" fn (\w+)\(([^)]*)\)(?: -> (\w+))?', text):
            yield it[1], sum(map(of_export, arguments(it[2])), []), WORDS.get(it[3], "void")


def declarations_in_rust():
    text = open("rust/maple/src/raw.rs", encoding="utf-8").read()
    aliases = dict(re.findall(r"^type (\w+) = ([^;]+);", text, re.M))
    for it in re.finditer(r"pub fn (maple_\w+)\(([^)]*)\)(?: -> (\w+))?;", text):
        yield it[1], sum((of_rust(a, aliases) for a in arguments(it[2])), []), WORDS.get(it[3], "void")


def layouts():
    """The fields of what the exports tell, and where each begins; a handle is two words, whatever they are called. A user
    has two cache lines of its own."""
    sizes = {"u32": 4, "u64": 8}
    found = {}
    for name in sorted(glob.glob("crates/mt_c/src/*.rt")):
        text = open(name, encoding="utf-8").read()
        for it in re.finditer(r"pub struct (\w+) \{([^}]*)\}", text):
            if it[1] in ("TreeHandle", "UserHandle"):
                yield STRUCTS[it[1]], 16 if it[1] == "TreeHandle" else 128, []
            elif it[1] in STRUCTS:
                found[it[1]] = re.findall(r"pub (\w+): (\w+)", it[2])
    # a struct may hold another one
    for struct in sorted(found, key=lambda struct: sum(kind in found for _, kind in found[struct])):
        at, fields = 0, []
        for field, kind in found[struct]:
            fields.append((field, at))
            at += sizes[kind]
        sizes[struct] = at
        yield STRUCTS[struct], at, fields


print('#include "maple_log.h"\n#include "maple_shared.h"\n#include <stdio.h>\n')
count = 0
for source in (exports, declarations_in_rust):
    for name, kinds, answer in source():
        count += 1
        print(f"{answer} (*volatile p{count}_{name})({', '.join(kinds)}) = {name};")
for struct, size, fields in layouts():
    print(f'_Static_assert(sizeof(struct {struct}) == {size}, "{struct}");')
    for field, at in fields:
        print(f'_Static_assert(offsetof(struct {struct}, {field}) == {at}, "{struct}.{field}");')
print(f'\nint main(void)\n{{\n    puts("{count} pointers");\n    return 0;\n}}')
