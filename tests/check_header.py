#!/usr/bin/env python3
"""Compares what the callers declare with the exports of crates/mdp_c: tests/check_header.py

The functions and structs are read of the sources of crates/mdp_c and mdp_session. A C file then states of bindings/c/mdp_handler.h the
type of each function, the size of each struct, the type and the place of each field and each status; the compiler CC judges it. The
declarations of bindings/rust and, where build/ has the shared library, those of bindings/python are compared by their text. Prints each
miss, and then 'N passed, M failed'.
"""
import ctypes
import glob
import os
import re
import subprocess
import sys

HEADER = "bindings/c/mdp_handler.h"
NAMES = {"Handle": "mdp_handler", "Options": "mdp_options", "Listed": "mdp_instrument", "Became": "mdp_became", "Level": "mdp_level",
         "Best": "mdp_best", "BookFault": "mdp_book_fault", "State": "mdp_state", "Lent": "mdp_lent"}
PLAIN = {"u8": "uint8_t", "u16": "uint16_t", "u32": "uint32_t", "u64": "uint64_t", "i32": "int32_t", "i64": "int64_t", "usize": "size_t",
         "bool": "bool"}
SIZES = {"uint8_t": 1, "bool": 1, "uint16_t": 2, "uint32_t": 4, "int32_t": 4, "uint64_t": 8, "int64_t": 8, "size_t": 8}

passed = failed = 0


def judge(is_right, says):
    global passed, failed
    if is_right:
        passed += 1
    else:
        failed += 1
        print(says)


def c_name(word):
    return PLAIN.get(word) or f"struct {NAMES[word]}"


def c_types(word):
    """The types in C of a type in Rattle or Rust: none of the allocator, and of a slice a pointer and a length."""
    word = re.sub(r"'\w+ |<'\w+>", "", word)
    if word == "Global":
        return []
    is_pointer = re.fullmatch(r"(&mut |&|\*mut |\*const )(\[?)(\w+)\]?", word)
    if not is_pointer:
        return [c_name(word)]
    how, is_slice, inner = is_pointer.groups()
    return [("" if "mut" in how else "const ") + c_name(inner) + " *"] + (["size_t"] if is_slice else [])


def functions_of(text):
    """The functions that C calls, each with its types: what it answers, then what it takes."""
    found = {}
    for name, takes, answers in re.findall(r'fn (mdp_\w+)(?:<[^>]*>)?\s*\(([^()]*)\)(?:\s*->\s*(\w+))?', text):
        arguments = [it.split(":", 1)[1].strip() for it in takes.split(",") if it.strip()]
        found[name] = [c_name(answers) if answers else "void"] + [it for word in arguments for it in c_types(word)]
    return found


def structs_of(text):
    """The structs of C's layout, each with its fields: name, type, count in an array, place."""
    found = {}
    for name, body in re.findall(r"#\[repr\(C\)\]\s*(?:#\[[^\]]*\]\s*)*pub struct (\w+)(?:<[^>]*>)? \{\n(.*?)\n\}", text, re.S):
        fields = []
        for field, word in re.findall(r"^    (?:pub )?(\w+): (.+),$", body, re.M):
            array = re.fullmatch(r"\[(\w+); (\d+)\]", word)
            types = [c_name(array[1])] if array else c_types(word)
            fields.append((field, types[0], int(array[2]) if array else 1))
            if len(types) == 2:
                fields.append(("length", types[1], 1))
        found[name] = fields
    return found


def size_of(kind, structs):
    if kind.endswith("*"):
        return 8
    if kind in SIZES:
        return SIZES[kind]
    name = next(name for name, owner in NAMES.items() if kind == f"struct {owner}")
    return sum(size_of(it, structs) * count for _, it, count in structs[name])


def check_c(functions, structs, statuses):
    """Lets the compiler judge the header. A struct has no gaps, so its size says that there are no other fields."""
    facts = []
    for name, (answers, *takes) in functions.items():
        facts.append(f"{answers} (*const is_{name})({', '.join(takes)}) = {name};")
    for name, fields in structs.items():
        owner, place = f"struct {NAMES[name]}", 0
        for field, kind, count in fields:
            kind = "void *" if name == "Handle" else kind
            facts.append(f'_Static_assert(offsetof({owner}, {field}) == {place}, "{owner}.{field}");')
            first = f"(({owner} *)0)->{field}" + ("[0]" if count > 1 else "")
            facts.append(f'_Static_assert(_Generic({first}, {kind}: 1, default: 0), "type of {owner}.{field}");')
            place += size_of(kind, structs) * count
        facts.append(f'_Static_assert(sizeof({owner}) == {place}, "size of {owner}");')
    for name, number in statuses:
        facts.append(f'_Static_assert(MDP_{name} == {number}, "MDP_{name}");')
    text = f'#include "{HEADER}"\n' + "\n".join(facts) + "\n"
    compiler = os.environ.get("CC", "cc")
    command = [compiler, "-std=c11", "-Werror=incompatible-pointer-types", "-fsyntax-only", "-I.", "-xc", "-"]
    told = subprocess.run(command, input=text, capture_output=True, text=True)
    wrong = {it for it in re.findall(r"^<stdin>:(\d+):\d+: error", told.stderr, re.M)}
    for number, fact in enumerate(facts, 2):
        judge(str(number) not in wrong, f"{HEADER}: not so: {fact}")
    judge(told.returncode == 0 or wrong, f"{HEADER}: {told.stderr}")
    with open(HEADER, encoding="utf-8") as file:
        declared = set(re.findall(r"^(?:uint32_t|void) (mdp_\w+)\(", file.read(), re.M))
    judge(declared == set(functions), f"{HEADER}: declares {sorted(declared ^ set(functions))}")


def check_rust(functions, structs):
    path = "bindings/rust/src/raw.rs"
    with open(path, encoding="utf-8") as file:
        text = file.read()
    found, laid_out = functions_of(text), structs_of(text)
    for name in functions.keys() | found.keys():
        judge(found.get(name) == functions.get(name), f"{path}: {name}: {found.get(name)}, wanted {functions.get(name)}")
    for name in structs.keys() | laid_out.keys():
        judge(laid_out.get(name) == structs.get(name), f"{path}: {name}: {laid_out.get(name)}, wanted {structs.get(name)}")


def check_python(functions, structs):
    """Compares what ctypes is told: of a pointer to bytes, that it is one."""
    if not os.path.exists("build/libmdp_handler.so"):
        print("not run: bindings/python: there is no build/libmdp_handler.so")
        return
    sys.dont_write_bytecode = True
    sys.path.insert(0, "bindings/python")
    import mdp_handler as module

    owners = {getattr(module, "_" + {"Listed": "Instrument"}.get(name, name)): name for name in structs}
    words = {ctypes.c_uint32: "uint32_t", ctypes.c_uint64: "uint64_t", ctypes.c_size_t: "size_t", ctypes.c_bool: "bool", None: "void"}
    words |= {owner: f"struct {NAMES[name]}" for owner, name in owners.items()}

    def word_of(kind):
        if kind is ctypes.c_char_p:
            return "uint8_t *"
        # size_t is c_ulong, and so is uint64_t.
        return f"{words[kind._type_]} *" if hasattr(kind, "contents") else words[kind]

    def plain(kind):
        return kind.removeprefix("const ").replace("size_t", "uint64_t")

    for name, types in functions.items():
        function = getattr(module._library, name)
        found = [plain(word_of(it)) for it in [function.restype, *function.argtypes]]
        judge(found == [plain(it) for it in types], f"bindings/python: {name}: {found}, wanted {types}")
    for owner, name in owners.items():
        found = [(field, getattr(owner, field).offset, getattr(owner, field).size) for field, _ in owner._fields_]
        wanted, place = [], 0
        for field, kind, count in structs[name]:
            wanted.append((field, place, size_of(kind, structs) * count))
            place += wanted[-1][2]
        judge((found, ctypes.sizeof(owner)) == (wanted, place), f"bindings/python: {name}: {found}, wanted {wanted}")


def main():
    os.chdir(os.path.join(os.path.dirname(os.path.realpath(__file__)), ".."))
    text = ""
    for path in sorted(glob.glob("crates/mdp_c/src/*.rt") + glob.glob("crates/mdp_session/src/*.rt")):
        with open(path, encoding="utf-8") as file:
            text += file.read()
    exports = "\n".join(re.findall(r'#\[unsafe\(no_mangle\)\]\npub extern "C" (fn .*?)\n(?:    ensures|\{)', text, re.S))
    functions = functions_of(exports)
    structs = structs_of(text)
    statuses = re.findall(r"pub\(crate\) const (\w+): u32 = (\d+);", text)
    judge(text.count("no_mangle") == len(functions) > 0, f"{len(functions)} of {text.count('no_mangle')} exports are read")
    judge(structs.keys() == NAMES.keys(), f"structs that are read: {sorted(structs)}")
    judge(len(statuses) > 0, "no status is read")
    check_c(functions, structs, statuses)
    check_rust(functions, structs)
    check_python(functions, structs)
    print(f"{passed} passed, {failed} failed")
    sys.exit(failed > 0)


main()
