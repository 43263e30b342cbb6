#!/usr/bin/env python3
"""Compares what C, Rust and Python are told of the library with the exports of crates/pitch_c.

    examples/c/check_header.py

The exports and their structs are read from the crate's source, and written in each language by the
rules by which they cross: a `Global` is not passed, a slice is a pointer and a length, and a
reference to a number, a struct or an array is a pointer. Each has to stand so in pitch_client.h,
pitch_client.rs and pitch_client.py, but for comments, blanks and line ends. The codes, the states
and the ABI's number have to be those of all three, and the header's list of codes and texts is as
long as its numbers go. It writes what is not there, and its status is 1 where anything is not.
"""
import os
import re
import sys

HERE = os.path.dirname(os.path.abspath(__file__))
SRC = os.path.join(HERE, "..", "..", "crates", "pitch_c", "src")
OF_HEADER_ALONE = {"NULL": 9, "OTHER_ABI": 10}
# Ends with their sessions: their exports and structs, and the header where they stand.
ENDS = {"exports": "ends.rt", "structs": "end_reports.rt", "file": "pitch_end.h"}


class C:
    file = "pitch_client.h"
    numbers = {"u8": "uint8_t", "u32": "uint32_t", "u64": "uint64_t", "usize": "size_t"}
    names = {
        "Client": "pitch_client",
        "StatusOut": "pitch_status_out",
        "BestOut": "pitch_best_out",
        "OrderOut": "pitch_order_out",
        "StateOut": "pitch_state_out",
        "LevelOut": "pitch_level_out",
        "QuoteOut": "pitch_quote_out",
        "HeardOut": "pitch_heard_out",
        "End": "pitch_end",
        "DatagramOut": "pitch_datagram_out",
        "SentOut": "pitch_sent_out",
    }

    def field(self, name, kind, count):
        return f"{kind} {name}[{count}];" if count else f"{kind} {name};"

    def struct(self, name, fields):
        return f"typedef struct {name} {{{''.join(fields)}}} {name};"

    def number(self, name, kind):
        return f"{kind} {name}"

    def pointer(self, name, kind, fixed, count):
        kind = f"const {kind}" if fixed else kind
        return f"{kind} {name}[{count}]" if count else f"{kind} *{name}"

    def call(self, name, given, told):
        return f"{told or 'void'} {name}({', '.join(given) or 'void'});"


class Rust:
    file = "pitch_client.rs"
    numbers = {it: it for it in ("u8", "u32", "u64", "usize")}
    names = {
        "Client": "Raw",
        "StatusOut": "Status",
        "BestOut": "BestOut",
        "OrderOut": "Order",
        "StateOut": "State",
        "LevelOut": "Level",
        "QuoteOut": "Quote",
        "HeardOut": "Heard",
        "End": "RawEnd",
        "DatagramOut": "Datagram",
        "SentOut": "Sent",
    }

    def field(self, name, kind, count):
        return f"{name}: [{kind}; {count}]," if count else f"{name}: {kind},"

    def struct(self, name, fields):
        return f"struct {name} {{{''.join(fields)}}}"

    def number(self, name, kind):
        return f"{name}: {kind}"

    def pointer(self, name, kind, fixed, count):
        kind = f"[{kind}; {count}]" if count else kind
        return f"{name}: *{'const' if fixed else 'mut'} {kind}"

    def call(self, name, given, told):
        return f"fn {name}({', '.join(given)}){f' -> {told}' if told else ''};"


class Python:
    file = "pitch_client.py"
    numbers = {"u8": "U8", "u32": "U32", "u64": "U64", "usize": "SIZE"}
    names = {**Rust.names, "BestOut": "Best"}

    def field(self, name, kind, count):
        return f'("{name}", {kind} * {count}), ' if count else f'("{name}", {kind}), '

    def struct(self, name, fields):
        return f"class {name}(ctypes.Structure): _fields_ = [{''.join(fields).rstrip(', ')}]"

    def number(self, name, kind):
        return kind

    def pointer(self, name, kind, fixed, count):
        return "BYTES" if fixed else f"of({kind})"

    def call(self, name, given, told):
        return f'"{name}": ([{", ".join(given)}], {told}),'


def text(*path):
    with open(os.path.join(*path), encoding="utf-8") as file:
        return file.read()


def plain(code):
    """Code without comments and without blanks that tell nothing."""
    code = re.sub(r"/\*.*?\*/", " ", code, flags=re.S)
    code = re.sub(r"//.*|\bpub ", " ", code)
    code = re.sub(r",\s*\)", ")", re.sub(r"\s+", " ", code))
    return re.sub(r"\s*([(),;:{}*\[\]=])\s*", r"\1", code)


def named(language, kind):
    return language.numbers.get(kind) or language.names[kind]


def parameters(language, given):
    slices = 0
    for name, kind in re.findall(r"(\w+): ((?:\[[^\]]*\]|[^,])+)", given):
        kind = kind.strip()
        fixed = not kind.startswith("&mut ")
        inner = re.sub(r"^&(mut )?", "", kind)
        if kind == "Global":
            continue
        if not kind.startswith("&"):
            yield language.number(name, named(language, kind))
        elif found := re.fullmatch(r"\[(\w+); (\d+)\]", inner):
            yield language.pointer(name, named(language, found[1]), fixed, found[2])
        elif found := re.fullmatch(r"\[(\w+)\]", inner):
            yield language.pointer(name, named(language, found[1]), fixed, None)
            slices += 1
            length = "len" if slices == 1 else f"{name}_len"
            yield language.number(length, language.numbers["usize"])
        else:
            yield language.pointer(name, named(language, inner), fixed, None)


def wanted(language, structs="reports.rt", calls="lib.rt"):
    """Each struct and each call, as the language has to have it."""
    for found in re.finditer(r"pub struct (\w+) \{(.*?)\n\}", text(SRC, structs), re.S):
        fields = []
        for name, kind in re.findall(r"pub (\w+): (.+),\n", found[2] + "\n"):
            array = re.fullmatch(r"\[(\w+); (\d+)\]", kind)
            inner, count = (array[1], array[2]) if array else (kind, None)
            fields.append(language.field(name, named(language, inner), count))
        yield language.struct(language.names[found[1]], fields)
    exports = r'#\[unsafe\(no_mangle\)\]\s*pub extern "C" fn (\w+)\((.*?)\)(?: -> (\w+))?\s'
    for found in re.finditer(exports, text(SRC, calls), re.S):
        told = language.numbers[found[3]] if found[3] else None
        yield language.call(found[1], parameters(language, found[2]), told)


def source_codes():
    """The codes of the source and those of the header alone, and the ABI's number."""
    source = text(SRC, "codes.rt")
    codes = {name: int(n) for name, n in re.findall(r"pub const (\w+): u32 = (\d+);", source)}
    abi = codes.pop("ABI")
    return {**codes, **OF_HEADER_ALONE}, abi


def source_states():
    """The number of each state, as the source tells it."""
    found = re.findall(r"Status::(\w+)[^=]*=> StatusOut \{\s*state: (\d+)", text(SRC, "reports.rt"))
    return {name.upper(): int(n) for name, n in found}


def numbers_in(there, pattern):
    return {name: int(n) for name, n in re.findall(pattern, there, re.M)}


def wrong_codes():
    """Each file with the codes that it has not, and the texts of codes."""
    codes, _ = source_codes()
    errors = {name: n for name, n in codes.items() if n}
    header, rust, python = (text(HERE, it.file) for it in (C, Rust, Python))
    of_header = numbers_in(header, r"PITCH_(\w+) = (\d+),? *(?=/|\n)")
    of_rust = numbers_in(rust, r"pub const (\w+): Code = Code\((\d+)\);")
    of_python = numbers_in(python, r"^    ([A-Z_]+) = (\d+)$")
    for file, there, wanted in ((C.file, of_header, codes), (Rust.file, of_rust, errors),
                                (Python.file, of_python, errors)):
        if there != wanted:
            yield file, f"the codes {sorted(wanted.items(), key=lambda it: it[1])}"
    words = re.search(r"words\[\] = \{(.*?)\};", header, re.S)[1]
    if len(re.findall(r'"[^"]*"', words)) != len(codes):
        yield C.file, f"a text for each of {len(codes)} codes"


def wrong_numbers():
    """Each file with the line that it has not of the states and of the ABI's number."""
    _, abi = source_codes()
    states = source_states()
    of_c = ", ".join(f"PITCH_{name} = {n}" for name, n in states.items())
    numbers = ", ".join(str(n) for n in states.values())
    lines = [(C.file, f"#define PITCH_ABI {abi}\n"), (Rust.file, f"const ABI: u32 = {abi};\n"),
             (Python.file, f"\nABI = {abi}\n"), ("libpitch.map", f"PITCH_{abi} {{\n"),
             ("check.sh", f"libpitch.so.{abi} "), ("README.md", f"libpitch.so.{abi} "),
             (C.file, f"enum pitch_state {{ {of_c} }};\n"),
             (Python.file, f"\n{', '.join(states)} = {numbers}\n")]
    lines += [(Rust.file, f"pub const {name}: u32 = {n};\n") for name, n in states.items()]
    return [(file, line.strip()) for file, line in lines if line not in text(HERE, file)]


def sessions():
    """Each session with its number, as the header has to have it."""
    numbers = re.findall(r"(\d+) => Some\(Session::(\w+)\)", text(SRC, ENDS["exports"]))
    words = [(n, re.sub(r"(?<=.)([A-Z])", r"_\1", it).upper()) for n, it in numbers]
    return [f"PITCH_{it} = {n}" for n, it in words]


def main():
    missing = []
    for language in (C(), Rust(), Python()):
        there = plain(text(HERE, language.file))
        missing += [(language.file, it) for it in wanted(language) if plain(it) not in there]
    for language, file in ((C(), ENDS["file"]), (Rust(), Rust.file), (Python(), Python.file)):
        there = plain(text(HERE, file))
        of_ends = [*wanted(language, ENDS["structs"], ENDS["exports"])]
        if file == ENDS["file"]:
            of_ends += sessions()
        missing += [(file, it) for it in of_ends if plain(it) not in there]
    missing += [*wrong_codes(), *wrong_numbers()]
    for file, it in missing:
        print(f"examples/c/{file}: not there: {it}")
    return 1 if missing else 0


if __name__ == "__main__":
    sys.exit(main())
