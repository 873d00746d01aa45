"""The header include/dezhakom.h, and the declarations of bindings/rust, beside the sources: functions, constants and refusals."""

import re
from pathlib import Path

import second_reader as sr

ROOT = Path(__file__).resolve().parent.parent
HEADER = ROOT / "include" / "dezhakom.h"
RUST = ROOT / "bindings" / "rust" / "src" / "ffi.rs"

NUMBERS = {"u8": "uint8_t", "u16": "uint16_t", "u32": "uint32_t", "u64": "uint64_t", "usize": "size_t"}

CONSTANTS = {
    "MEMBER": sr.MEMBER, "END": sr.END, "CUT": sr.CUT, "REGION": sr.REGION, "BARRIER": sr.BARRIER,
    "ACQUIRE": sr.ACQUIRE, "RELEASE": sr.RELEASE,
    "READ": sr.READ, "WRITE": sr.WRITE, "ATOMIC_READ": sr.ATOMIC_READ, "ATOMIC_WRITE": sr.ATOMIC_WRITE,
    "WIDE_READ": sr.WIDE_READ, "WIDE_WRITE": sr.WIDE_WRITE, "WIDE_ATOMIC_READ": sr.WIDE_ATOMIC_READ,
    "WIDE_ATOMIC_WRITE": sr.WIDE_ATOMIC_WRITE,
    "MOST_BYTES": sr.MOST_BYTES, "MOST_SEGMENTS": sr.MOST_SEGMENTS, "MOST_ACCESSES": sr.MOST_ACCESSES,
    "MOST_RACES": sr.MOST_ACCESSES * (sr.MOST_ACCESSES - 1) // 2, "MOST_TEAM": 65535, "MOST_MEMBERS": 64,
    "MOST_DEPTH": sr.MOST_DEPTH, "MOST_LOCKS": 64, "MOST_SITE": 65535, "MOST_WIDE_SITE": 4294967295, "MOST_TRIPLES": 1 + sr.MOST_DEPTH,
    "COMMAND_BYTES": max(map(sr.command_length, sr.WIDTHS)), "WORK_WORDS": sr.LEAST_WORDS, "NAME_WORDS": 2,
}  # fmt: skip

ORDERS = {"SAME": 0, "BEFORE": 1, "AFTER": 2, "CONCURRENT": 3}


class Wrong(Exception):
    pass


def want(title, got, wanted):
    if got != wanted:
        raise Wrong(f"{title}: got {got}, wanted {wanted}")


# ----------------------------------------------------------------- functions


def header_text():
    return re.sub(r"/\*.*?\*/", " ", HEADER.read_text(), flags=re.DOTALL)


def header_functions():
    """By its name, each function's result and its parameters as (type, name)."""
    found = {}
    for result, name, words in re.findall(r"^(\w+)\s+(dezhakom_\w+)\(([^)]*)\);", header_text(), re.MULTILINE):
        parameters = [re.fullmatch(r"(.*?)(\w+)", " ".join(word.split())).groups() for word in words.split(",")]
        found[name] = result, [(kind.replace(" *", "*").strip(), parameter) for kind, parameter in parameters]
    return found


def source_functions():
    """The same of crates/exports/src and crates/exports_c/src, with the types of the source."""
    found = {}
    form = re.compile(r"#\[unsafe\(no_mangle\)\]\s*pub extern \"C\" fn (\w+)\((.*?)\)(?:\s*->\s*(\w+))?\s*(?:ensures|\{)", re.DOTALL)
    for path in sorted((ROOT / "crates").glob("exports*/src/*.rt")):
        for name, words, result in form.findall(path.read_text()):
            parameters = [word.split(":", 1) for word in words.split(",") if word.strip()]
            found[name] = result, [(kind.strip(), parameter.strip()) for parameter, kind in parameters]
    return found


def rust_functions():
    """Those that bindings/rust declares."""
    found = {}
    for name, words, result in re.findall(r"pub fn (\w+)\((.*?)\)(?: -> (\w+))?;", RUST.read_text(), re.DOTALL):
        parameters = [word.split(":", 1) for word in words.split(",") if word.strip()]
        found[name] = result, [(kind.strip(), parameter.strip()) for parameter, kind in parameters]
    return found


def in_c(kind):
    """What a parameter of the source is in C: the patterns of its types. A record has its number of words beside it."""
    if kind in NUMBERS:
        return [NUMBERS[kind]], None
    mutable, inner = re.fullmatch(r"&(mut )?(.*)", kind).groups()
    const = "" if mutable else "const "
    if inner in NUMBERS:
        return [rf"{const}{NUMBERS[inner]}\*"], None
    word, length = re.fullmatch(r"\[(\w+)(?:; (\d+))?\]", inner).groups()
    if length:
        return [rf"{const}(dezhakom_\w+)\*"], int(length)
    return [rf"{const}{NUMBERS[word]}\*", "size_t"], None


def in_rust(kind):
    """The same in Rust."""
    mutable, inner = re.fullmatch(r"(?:&(mut )?)?(.*)", kind).groups()
    if inner in NUMBERS:
        return [re.escape(kind)], None
    word, length = re.fullmatch(r"\[(\w+)(?:; (\d+))?\]", inner).groups()
    if length:
        return [rf"&{mutable or ''}([\w:]+)"], int(length)
    return [rf"\*{'mut' if mutable else 'const'} {word}", "usize"], None


def compare_functions(title, declared, translate, results):
    """Each function of the source is declared as it is. Answers the pairs of a record's type and its words in the source."""
    sources = source_functions()
    want(f"{title}: functions", sorted(declared), sorted(sources))
    records = set()
    for name, (result, parameters) in sources.items():
        want(f"{title}: {name}: result", declared[name][0], results[result])
        given = iter(declared[name][1])
        for kind, parameter in parameters:
            patterns, words = translate(kind)
            for place, pattern in enumerate(patterns):
                declared_kind, declared_name = next(given, ("nothing", "nothing"))
                match = re.fullmatch(pattern, declared_kind)
                if not match:
                    raise Wrong(f"{title}: {name}: {declared_name} is {declared_kind}, in the source {parameter}: {kind}")
                if place == 0:
                    want(f"{title}: {name}: name of a parameter", declared_name, parameter)
                if words:
                    records.add((match[1], words))
        want(f"{title}: {name}: parameters too many", list(given), [])
    return sorted(records)


def record_words():
    """Compares all functions. Answers the records of the header with their words in the source."""
    records = compare_functions("header", header_functions(), in_c, {**NUMBERS, "": "void"})
    compare_functions("bindings/rust", rust_functions(), in_rust, {**{kind: kind for kind in NUMBERS}, "": ""})
    return records


def words_program(records):
    """A C program that compiles exactly where each record has its words."""
    checks = [f"typedef char holds{n}[sizeof({record}) == 4 * {words} ? 1 : -1];\n" for n, (record, words) in enumerate(records)]
    return '#include "dezhakom.h"\n' + "".join(checks)


# ----------------------------------------------------------------- constants


def check_constants():
    text = header_text()
    defined = {name: int(value, 0) for name, value in re.findall(r"#define DEZHAKOM_(\w+) (0x\w+|\d+)\s", text)}
    want("constants", defined, CONSTANTS)
    enumerated = {name: int(value) for name, value in re.findall(r"DEZHAKOM_(\w+) = (\d+)", text)}
    want("refusals and orders", enumerated, {"DONE": 0, **refusals(), **ORDERS})


def refusals():
    """Those of the source, in capitals."""
    source = (ROOT / "crates" / "bundle" / "src" / "refusal.rt").read_text()
    causes = re.findall(r"^    (\w+) = (\d+),$", source, re.MULTILINE)
    return {re.sub(r"(?<!^)([A-Z])", r"_\1", cause).upper(): int(value) for cause, value in causes}


def check_comments():
    """Each function has a comment of two lines above it."""
    text = HEADER.read_text()
    for name in header_functions():
        above = re.search(rf"/\*((?:(?!\*/).)*)\*/\n\w+ {name}\(", text, re.DOTALL)
        want(f"{name}: lines of its comment", len(above[1].splitlines()) if above else 0, 2)
