#!/usr/bin/env python3
"""Compares what calls the proved crates web and check_host with the functions that they export, and
says where they differ.

The exported functions are those of each crate's src/calls.rt. Compared with them, by name, number,
width and sign of arguments and result: the prototypes of c/nonobench.h and of web/guard.c, the
table of python/src/nonobench/_library.py, and LLVM's module of the crate web where one is named, as
text; and those of c/nonocheck.h and of web/check_guard.c. Of the calls in web/nonobench.mjs the
number of arguments is compared with what web/guard.c exports.

The statuses are those of crates/web/src/status.rt, and what is refused has the one of
crates/program_options/src/fault.rt. They are repeated in c/nonobench.h, web/within.h,
web/nonobench.mjs and python/src/nonobench/_library.py, and, as far as there are such, in
crates/check_host/src/status.rt, c/nonocheck.h and web/check.mjs.

Then it plants differences, and fails if one is not found.

Usage: .ci/abi.py [MODULE.ll]. The last line says how much was compared. The status is 1 if
something differs.
"""
import ast
import pathlib
import re
import sys

ROOT = pathlib.Path(__file__).resolve().parent.parent
CALLS = "crates/web/src/calls.rt"
STATUS = "crates/web/src/status.rt"
FAULT = "crates/program_options/src/fault.rt"
HEADER = "c/nonobench.h"
GUARD = "web/guard.c"
SCRIPT = "web/nonobench.mjs"
PYTHON = "python/src/nonobench/_library.py"
CHECK_CALLS, CHECK_STATUS = "crates/check_host/src/calls.rt", "crates/check_host/src/status.rt"
CHECK_HEADER, CHECK_GUARD, CHECK_SCRIPT, WITHIN = (
    "c/nonocheck.h",
    "web/check_guard.c",
    "web/check.mjs",
    "web/within.h",
)
# What stands after it in the header is C, and not the crate's.
OWN_C = "/* ---- one question each"
# A pointer to bytes and a length are two arguments, what takes no bytes is none. `pointer TO` names
# what lies there.
RUST = {
    "Global": [],
    "": ["nothing"],
    "bool": ["bool"],
    "u32": ["u32"],
    "usize": ["u64"],
    "&mut u32": ["pointer u32"],
    "&mut bool": ["pointer bool"],
    "&[u8]": ["pointer const u8", "u64"],
    "&mut [u8]": ["pointer u8", "u64"],
    "&[u16]": ["pointer const u16", "u64"],
    "&mut Held": ["pointer desk"],
    "&mut DeskCell": ["pointer desk"],
    "DeskCell": ["desk"],
}
C = {
    "void": "nothing",
    "bool": "bool",
    "_Bool": "bool",
    "bool *": "pointer bool",
    "_Bool *": "pointer bool",
    "uint32_t": "u32",
    "unsigned": "u32",
    "uint32_t *": "pointer u32",
    "unsigned *": "pointer u32",
    "size_t": "u64",
    "u64": "u64",
    "u64 *": "pointer u64",
    "uint8_t *": "pointer u8",
    "byte *": "pointer u8",
    "const uint8_t *": "pointer const u8",
    "const byte *": "pointer const u8",
    "const uint16_t *": "pointer const u16",
    "const sample *": "pointer const u16",
    "nonobench_desk *": "desk",
    "nonobench_desk **": "pointer desk",
    "void *": "pointer desk",
}
CTYPES = {
    "None": ["nothing"],
    "number": ["u32"],
    "ctypes.c_size_t": ["u64"],
    "ctypes.c_bool": ["bool"],
    "ctypes.c_void_p": ["desk"],
    "cell": ["pointer desk"],
    "ctypes.c_char_p": ["pointer u8"],
    "*bytes_of": ["pointer u8", "u64"],
    "ctypes.POINTER(number)": ["pointer u32"],
}
# What web/guard.c knows of a desk: a number, which lies behind a pointer to one.
GUARD_ONLY = {"desk": "u64", "pointer desk": "pointer u64"}
# What Python knows of bytes: not whether they are written.
PYTHON_ONLY = {"pointer const u8": "pointer u8"}


def without_comments(text):
    """C without its comments, in one line."""
    return " ".join(re.sub(r"/\*.*?\*/|//[^\n]*", " ", text, flags=re.S).split())


def exported(text):
    """The functions that the crate exports: each with its result and its arguments as C sees
    them."""
    found = {}
    pattern = (
        r'#\[unsafe\(no_mangle\)\]\s+pub extern "C" fn (\w+)\((.*?)\)(?:\s*->\s*(\w+))?\s*[{re]'
    )
    for name, inside, result in re.findall(pattern, text, flags=re.S):
        types = [part.split(":", 1)[1].strip() for part in inside.split(",") if ":" in part]
        found[name] = [c for rust in [result, *types] for c in RUST.get(rust, [f"unknown: {rust}"])]
    return found


def c_type(words):
    """The type of a parameter or a result of C, whether it has a name or not."""
    spaced = " ".join(re.sub(r"(\*+)", r" \1 ", words).split())
    for end in (spaced, re.sub(r" \w+$", "", spaced)):
        if end in C:
            return C[end]
    return f"unknown: {spaced}"


def prototypes(text):
    """The functions that C declares and does not define, in the same form."""
    found = {}
    pattern = r"(?<![\w*] )\b(\w+(?: \*+)?) (nono(?:bench|check)_\w+)\(([^()]*)\);"
    for result, name, inside in re.findall(pattern, without_comments(text)):
        if result not in ("return", "else"):
            found[name] = [c_type(result)] + [c_type(part) for part in inside.split(",")]
    return found


def tabled(text):
    """The functions of Python's table, in the same form."""
    [table] = [node for node in ast.walk(ast.parse(text)) if is_table(node)]
    found = {}
    for name, value in zip(table.keys, table.values):
        result, arguments = value.elts
        types = [ast.unparse(one) for one in [result, *arguments.elts]]
        found["nonobench_" + name.value] = [
            c for kind in types for c in CTYPES.get(kind, [f"unknown: {kind}"])
        ]
    return found


def is_table(node):
    """Whether it is a table of calls by name: of each its result and a list of its arguments."""
    return isinstance(node, ast.Dict) and all(isinstance(one, ast.Tuple) for one in node.values)


def llvm_type(kind):
    """What LLVM hands over for an argument."""
    if kind.startswith("pointer"):
        return "ptr"
    return {"u32": "i32", "u64": "i64", "desk": "i64", "bool": "i1", "nothing": "void"}.get(
        kind, kind
    )


def defined(text):
    """The functions that LLVM's module defines, with the types of result and arguments."""
    found = {}
    for words, name, inside in re.findall(
        r"^define ([^@\n]*)@(nonobench_\w+)\((.*?)\)[^()\n]*\{$", text, flags=re.M
    ):
        arguments = re.findall(r"(?:^|, )(ptr|i\d+)\b", re.sub(r"\([^()]*\)", "", inside))
        found[name] = [words.split()[-1]] + arguments
    return found


def guarded(text):
    """How many arguments each function has that a guard exports."""
    pattern = r"CALL\((\w+)\) \w+ \w+\(([^()]*)\)"
    prefix = re.search(r'export_name\("(\w+_)"', text)[1]
    return {
        prefix + name: inside.count(",") + 1
        for name, inside in re.findall(pattern, without_comments(text))
    }


def script_calls(text):
    """The calls of a script: name and number of arguments."""
    for found in re.finditer(r"\bcalls\.(nonobench_\w+)\(", text):
        depth, commas, at = 1, 0, found.end()
        while depth:
            depth += {"(": 1, ")": -1}.get(text[at], 0)
            commas += depth == 1 and text[at] == ","
            at += 1
        yield found[1], 0 if text[found.end()] == ")" else commas + 1


def numbers(text, pattern):
    """The statuses that a text names, by their names."""
    return {name: int(number) for name, number in re.findall(pattern, text)}


def statuses(files):
    """The statuses as they stand, and as they stand again: pairs of a file and its numbers."""
    own = numbers(files[STATUS], r"pub const (\w+): u32 = (\d+);")
    own["REFUSED"] = int(re.search(r"\n +_ => (\d+),\n", files[FAULT])[1])
    own["PROCESSOR"] = 7  # not of the crate, but of what stands in front of it: c/start.c
    line = re.search(r"^([A-Z, ]+) = ([\d, ]+)$", files[PYTHON], flags=re.M)
    again = [
        (HEADER, numbers(files[HEADER], r"NONOBENCH_([A-Z]+) = (\d+)\b")),
        (WITHIN, numbers(files[WITHIN], r"\b([A-Z]+) = (\d+)\b")),
        (CHECK_STATUS, numbers(files[CHECK_STATUS], r"pub const (\w+): u32 = (\d+);")),
        (CHECK_HEADER, numbers(files[CHECK_HEADER], r"NONOCHECK_([A-Z]+) = (\d+)\b")),
        (
            CHECK_SCRIPT,
            numbers(files[CHECK_SCRIPT], r"const (DONE|REFUSED|MEMORY|CLOSED|OPTIONS) = (\d+);"),
        ),
        (SCRIPT, numbers(files[SCRIPT], r"const (DONE|REFUSED|MEMORY|CLOSED|OPTIONS) = (\d+);")),
        (PYTHON, dict(zip(line[1].split(", "), map(int, line[2].split(", ")))) if line else {}),
    ]
    return own, again


def differing(name, wanted, got):
    """A line for each function that is missing, is too many or differs."""
    for key in sorted(wanted.keys() | got.keys()):
        if wanted.get(key) != got.get(key):
            yield (
                f"{name}: {key} is {got.get(key, 'missing')}, in the crate"
                f" {wanted.get(key, 'missing')}"
            )


def known(functions, only):
    """The functions as a caller knows them that tells some types not apart."""
    return {name: [only.get(kind, kind) for kind in kinds] for name, kinds in functions.items()}


def differences(files, module=None):
    """A line for each place that differs from the crate."""
    own = exported(files[CALLS])
    yield from differing(HEADER, own, prototypes(files[HEADER].split(OWN_C)[0]))
    yield from differing(GUARD, known(own, GUARD_ONLY), known(prototypes(files[GUARD]), GUARD_ONLY))
    yield from differing(PYTHON, known(own, PYTHON_ONLY), tabled(files[PYTHON]))
    if module is not None:
        wanted = {name: [llvm_type(kind) for kind in kinds] for name, kinds in own.items()}
        yield from differing("the module", wanted, defined(module))
    guard = guarded(files[GUARD])
    counts = {name: len(kinds) - 1 for name, kinds in own.items()}
    yield from differing(f"{GUARD}, what it exports", counts, guard)
    for name, count in script_calls(files[SCRIPT]):
        if name in own and guard.get(name) != count:
            yield f"{SCRIPT}: {name} is called with {count} arguments, of {guard.get(name)}"
    checks = exported(files[CHECK_CALLS])
    yield from differing(CHECK_HEADER, checks, prototypes(files[CHECK_HEADER]))
    yield from differing(CHECK_GUARD, checks, prototypes(files[CHECK_GUARD]))
    yield from differing(
        f"{CHECK_GUARD}, what it exports",
        {name: len(kinds) - 1 for name, kinds in checks.items()},
        guarded(files[CHECK_GUARD]),
    )
    wanted, copies = statuses(files)
    for file, found in copies:
        yield from differing(
            file, {name: wanted.get(name) for name in found} or {"a status": "there"}, found
        )


# Differences that must be found: a file, a text of it and what is put in its place.
PLANTED = [
    (HEADER, "uint32_t nonobench_close(nonobench_desk **desk, uint32_t handle);", ""),
    (HEADER, "const uint8_t *lines, size_t size);", "const uint8_t *lines, uint32_t size);"),
    (HEADER, "uint32_t handle, const uint8_t *lines", "int handle, const uint8_t *lines"),
    (HEADER, "uint32_t nonobench_close(", "size_t nonobench_close("),
    (HEADER, "NONOBENCH_CLOSED = 5", "NONOBENCH_CLOSED = 3"),
    (CHECK_HEADER, "NONOCHECK_PROCESSOR = 7", "NONOCHECK_PROCESSOR = 5"),
    (
        GUARD,
        "nonobench_say(void *, unsigned, const byte *, u64);",
        "nonobench_say(void *, u64, const byte *, u64);",
    ),
    (GUARD, "u64 nonobench_version(byte *, u64);", "u64 nonobench_version(byte *, u64, u64);"),
    (GUARD, "unsigned close_within(u64 desk, unsigned handle)", "unsigned close_within(u64 desk)"),
    (
        GUARD,
        "const byte *, u64, _Bool, unsigned\n);",
        "const byte *, u64, unsigned, unsigned\n);",
    ),
    (SCRIPT, "const MEMORY = 4;", "const MEMORY = 5;"),
    (
        SCRIPT,
        "            complete,\n            format\n",
        "            format\n",
    ),
    (
        PYTHON,
        '"check": (number, [cell, *bytes_of, ',
        '"check": (number, [cell, ',
    ),
    (GUARD, "    u64 givens_size,\n", ""),
    (
        SCRIPT,
        "nonobench_say(cell, handle, text.at, text.size)",
        "nonobench_say(cell, handle, text.at)",
    ),
    (PYTHON, "= 0, 1, 4, 5, 6", "= 0, 1, 4, 6, 5"),
    (PYTHON, '"close": (number, [cell, number]),', '"close": (number, [cell, ctypes.c_size_t]),'),
    (STATUS, "OPTIONS: u32 = 6", "OPTIONS: u32 = 7"),
    (WITHIN, "OPTIONS = 6", "OPTIONS = 5"),
    (CHECK_CALLS, "givens: &[u8],", ""),
    (CHECK_HEADER, "    size_t samples,\n", ""),
    (CHECK_GUARD, "const byte *, u64, const sample *", "const byte *, u64, const byte *"),
    (CHECK_GUARD, "    u64 givens_size,\n", ""),
    (CHECK_STATUS, "MEMORY: u32 = 4", "MEMORY: u32 = 5"),
    (CALLS, "handle: u32, lines: &[u8]) -> u32", "handle: u32, lines: &[u8], more: u32) -> u32"),
]


def unseen(files, module):
    """A line for each planted difference that is not found, or can't be planted."""
    for file, old, new in PLANTED:
        if old not in files[file]:
            yield f"{file}: nothing to plant at: {old}"
        elif not list(differences({**files, file: files[file].replace(old, new, 1)}, module)):
            yield f"{file}: not found where it is planted: {new or 'nothing in place of ' + old}"
    if module is not None and not list(
        differences(files, module.replace("@nonobench_say(ptr", "@nonobench_say(i64"))
    ):
        yield "the module: a planted difference is not found"


def main():
    names = [CALLS, STATUS, FAULT, HEADER, GUARD, SCRIPT, PYTHON]
    names += [CHECK_CALLS, CHECK_STATUS, CHECK_HEADER, CHECK_GUARD, CHECK_SCRIPT, WITHIN]
    files = {name: (ROOT / name).read_text(encoding="utf-8") for name in names}
    module = pathlib.Path(sys.argv[1]).read_text(encoding="utf-8") if len(sys.argv) > 1 else None
    found = list(differences(files, module)) or list(unseen(files, module))
    wanted, copies = statuses(files)
    beside = "the module too" if module is not None else "no module was named"
    print(
        *found,
        (
            f"abi: {len(exported(files[CALLS]) | exported(files[CHECK_CALLS]))} functions,"
            f" {beside}; {len(wanted)} statuses in {len(copies)} files;"
            f" {len(PLANTED) + (module is not None)} planted; {len(found)} differences"
        ),
        sep="\n",
    )
    return 1 if found else 0


if __name__ == "__main__":
    sys.exit(main())
