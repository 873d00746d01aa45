"""What documents have from the sources: docs/LAWS.md as a whole, and a part of docs/ARCHITECTURE.md.

A part begins at a line "<!-- NAME: written by tests/write_documents -->" and ends at "<!-- end of NAME -->".
"""

import re
import sys
from pathlib import Path

sys.dont_write_bytecode = True
ROOT = Path(__file__).resolve().parent.parent
CRATES = ROOT / "crates"
LAWS = "docs/LAWS.md"
ARCHITECTURE = "docs/ARCHITECTURE.md"


def text_of(path):
    return path.read_text(encoding="utf-8")


def crates():
    """All crates, each after those that it uses."""
    return re.findall(r"^(\w+)(?: staticlib)?:", text_of(ROOT / "crates.txt"), re.MULTILINE)


def first_comment(path):
    """The comment at the top of a file, as one line."""
    words = []
    for line in text_of(path).splitlines():
        if not line.startswith("--"):
            break
        words.append(line[2:].strip())
    return " ".join(words).strip()


# --------------------------------------------------------------------- laws

# Files of a function's proof, in proofs/MODULE/FUNCTION: its answers and invariants, and Proof in the older Rattle.
OF_FUNCTIONS = ("Answers", "Invariants", "Proof")

LAWS_BEGIN = """# Laws by file

Every file of laws in `crates/*/proofs/`, with its first comment. `tests/write_documents` writes this page; `tests/check_documents`
checks that it is up to date.

Each crate has two lists. *Laws and results* build on the definitions and on each other; no proof of a function cites them directly. Laws
that are *cited by proofs of functions* say, case by case, why the code meets its contract. The proof of a function `f` of module `m` is in
the folder `proofs/m/f`. [PROVED.md](PROVED.md) has the statements that a user relies on, and [INTERNALS.md](INTERNALS.md), "Laws", the
order in which they build on each other.
"""


def law_files():
    """Every file of laws by crate and name; the name of one in a folder is FOLDER/NAME."""
    found = {}
    for path in CRATES.glob("*/proofs/**/*.antt"):
        inner = path.relative_to(CRATES / path.relative_to(CRATES).parts[0] / "proofs")
        if path.stem != "Lib" and not (path.stem in OF_FUNCTIONS and len(inner.parts) > 2):
            found[path.relative_to(CRATES).parts[0], str(inner.with_suffix(""))] = path
    return found


def cited_by_functions(crate):
    """The names of the laws of a crate that some function's proof cites, of this crate or of another."""
    cited = set()
    for path in CRATES.glob("*/proofs/*/*/**/*.antt"):
        if path.stem in OF_FUNCTIONS:
            for words in re.findall(rf"Rattle[·.]{crate}(?:·proofs)?\.proofs\.([\w.]+?)(?:\.\{{| |$)", text_of(path), re.MULTILINE):
                cited.add(words.replace(".", "/"))
    return cited


def law_sentence(path):
    """The first comment without its last sentence, which says what is assumed."""
    return re.sub(r"\s*Assumes nothing\.$", "", first_comment(path)).strip()


def laws():
    files, parts = law_files(), [LAWS_BEGIN]
    for crate in crates():
        names = sorted(name for owner, name in files if owner == crate)
        if not names:
            continue
        cited = cited_by_functions(crate)
        parts.append(f"\n## {crate}\n")
        for title, chosen in (
            ("Laws and results", [name for name in names if name not in cited]),
            ("Cited by proofs of functions", [name for name in names if name in cited]),
        ):
            if chosen:
                lines = "".join(f"- `{name}`: {law_sentence(files[crate, name])}\n" for name in chosen)
                parts.append(f"\n{title}:\n\n{lines}")
    return "".join(parts)


# -------------------------------------------------------- lines of definitions

LAYERS = ("bundle", "order", "verdict")

# Files of specs/ that nobody has to believe. Beside these a file is inner if it is called Inner or its first comment begins with "Inner:".
APART = {
    ("bundle", "Index"): "between crates",
    ("bundle", "ByRows"): "between crates",
    ("order", "SharedBytes"): "computing",
    ("verdict", "GraphTests"): "computing",
    ("verdict", "RaceLists"): "computing",
    ("verdict", "Table"): "examples",
    ("text", "Sides"): "inner",
}
KINDS = ("between crates", "computing", "examples", "inner")

# Of the files of the three layers that have to be believed, those on which demand 3 does not rest.
NOT_FOR_DEMAND_3 = {
    ("bundle", "Cutting"),
    ("bundle", "Find"),
    ("order", "Labels"),
    ("order", "Swapping"),
    ("verdict", "Agreement"),
    ("verdict", "Cutting"),
    ("verdict", "Parting"),
    ("verdict", "SegmentOrder"),
}


def lines_of(path):
    """Lines without comments, imports and blank lines."""
    text = re.sub(r"^(?:unfoldable )?(?:pub )?use [^{\n]*\{[^}]*\}\n", "", text_of(path), flags=re.MULTILINE)
    kept = [line for line in text.splitlines() if line.strip() and not line.lstrip().startswith("--")]
    return sum(1 for line in kept if not re.match(r"(?:unfoldable )?(?:pub )?(?:use|mod) ", line))


def definition_files():
    return {(path.parts[-3], path.stem): path for path in sorted(CRATES.glob("*/specs/*.antt")) if path.stem != "Lib"}


def kind_of(key, path):
    """None where a file has to be believed."""
    inner = key[1] == "Inner" or first_comment(path).startswith("Inner:")
    return APART.get(key, "inner" if inner else None)


def lines_believed():
    files = definition_files()
    counted = {key: lines_of(path) for key, path in files.items()}
    kinds = {key: kind_of(key, path) for key, path in files.items()}
    rows = ["| Crate | To be believed | Apart |", "|---|---|---|"]
    for crate in crates():
        def cell(kind):
            return ", ".join(f"{key[1]} {counted[key]}" for key in sorted(files) if key[0] == crate and kinds[key] == kind)

        apart = "; ".join(f"{kind}: {cell(kind)}" for kind in KINDS if cell(kind))
        if cell(None) or apart:
            rows.append(f"| `{crate}` | {cell(None)} | {apart} |")
    layers = {key for key in files if key[0] in LAYERS and kinds[key] is None}
    gone = sorted(NOT_FOR_DEMAND_3 - layers)
    if gone:
        raise SystemExit(f"written_documents: demand 3 does not rest on {gone}, which are not there")
    whole, demand = (sum(counted[key] for key in chosen) for chosen in (layers, layers - NOT_FOR_DEMAND_3))
    without = ", ".join(f"`{crate}/specs/{name}`" for crate, name in sorted(NOT_FOR_DEMAND_3))
    rows += ["", f"The three layers `bundle`, `order` and `verdict` have {whole} lines to be believed."]
    rows.append(f"Demand 3 rests on {demand} of them, those without {without}.")
    return "\n".join(rows) + "\n"


# ------------------------------------------------------------------ documents

PARTS = {
    (ARCHITECTURE, "lines to be believed"): lines_believed,
}


def with_part(text, name, part):
    """The text with this part between its two lines."""
    begin, end = f"<!-- {name}: written by tests/write_documents -->\n", f"<!-- end of {name} -->\n"
    if text.count(begin) != 1 or text.count(end) != 1 or text.index(begin) > text.index(end):
        raise SystemExit(f"written_documents: no place for the part {name!r}")
    return text[: text.index(begin)] + begin + "\n" + part + "\n" + text[text.index(end):]


def written():
    """Each document's path and the text that it should have."""
    texts = {LAWS: laws()}
    for (document, name), part in PARTS.items():
        texts[document] = with_part(texts.get(document) or text_of(ROOT / document), name, part())
    return texts


def out_of_date():
    return [path for path, text in written().items() if not (ROOT / path).is_file() or text_of(ROOT / path) != text]
