"""The text of AimedExamples.antt: a table for each kind of question, each agreeing by computation."""

import example_cases
import second_reader as sr
from example_terms import (
    answer_term, bytes_term, found_term, judgement_term, name_term, overlap_term, races_term, range_term, taken_term, triples_term,
)

HEAD = """\
-- Examples aimed at single points of docs/FORMAT.md, with the second reader's answers. tests/write_examples writes this file.
use Prim.Native.Nat.{ℕ}
use mathlib.Core.Bool.{true, false}
use mathlib.Core.Path.{◌≡◌, refl}
use mathlib.Core.List.{List, [], ◌∷◌, map}
use mathlib.Core.Option.{Option, none, some}
use lib.ListN.{replicate}
use Rattle.bundle.specs.Answer.{Answer, gives, refuses, when_given}
use Rattle.std.specs.declared.option.Option.TheVariants.{Some}
use Rattle.bundle.specs.Commands.{Lent, read_at}
use Rattle.bundle.specs.Check.{check_of}
use Rattle.bundle.specs.declared.command.AccessKind.TheVariants as Kind
use Rattle.bundle.specs.declared.command.Command.TheVariants as Com
use Rattle.bundle.specs.declared.command.Taken.{Taken}
use Rattle.order.specs.Labels.{label_of, compare_of}
use Rattle.order.specs.Ranges.{shared_of}
use Rattle.order.specs.declared.label.Triple.{Triple}
use Rattle.order.specs.declared.label.Label.{Label}
use Rattle.order.specs.declared.label.Order.{Order}
use Rattle.order.specs.declared.label.Order.TheVariants as Ord
use Rattle.order.specs.declared.range.Overlap.{Overlap}
use Rattle.verdict.specs.Accesses.{key_of}
use Rattle.verdict.specs.Graph.{Node}
use Rattle.verdict.specs.SegmentOrder.{order_in}
use Rattle.verdict.specs.Judge.{judge_of, race_above, next_of}
use Rattle.verdict.specs.Table.{triple, range}
use Rattle.verdict.specs.declared.race.Name.{Name}
use Rattle.verdict.specs.declared.race.Race.{Race}
use Rattle.verdict.specs.declared.race.Judgement.{Judgement}
use Rattle.verdict.proofs.Computing.{verdict-computes}
use Rattle.verdict.proofs.SmallBundles.{bytes, race}

-- what the definitions give, and what is wanted
pub record AimedExample (A : Type 0) : Type 0 where
  pub given : A
  pub wanted : A

unfoldable pub row : {A : Type 0} → A → A → AimedExample A
row g w = record { given = g; wanted = w }

unfoldable pub name : ℕ → ℕ → ℕ → Name
name t m n = record { team = t; member = m; number = n }

unfoldable pub node : ℕ → ℕ → ℕ → Node
node t m n = record { team = t; member = m; number = n }

unfoldable pub label : ℕ → List Triple → Label
label count triples = record { count = count; triples = triples }

unfoldable pub overlap : ℕ → ℕ → ℕ → Overlap
overlap b e e' = record { byte = b; first_element = e; second_element = e' }

"""

TABLE = """\
-- {title}
unfoldable pub {name} : List (AimedExample ({type}))
{name} =
{rows}    []

pub {name}-agree : map (λ (r : AimedExample ({type})). r.given) {name} ≡ map (λ (r : AimedExample ({type})). r.wanted) {name}
unfolding verdict-computes bytes race row name label {uses}{name}
{name}-agree = refl
"""

def read_rows():
    for data, position in example_cases.READ:
        wanted = answer_term(lambda read: read[1], sr.read_command, data, position)
        yield f"(when_given (read_at {bytes_term(data)} {position}) (λ (t : Taken). gives t.next))", wanted


def wide_read_rows():
    for data, position in example_cases.WIDE_READ:
        yield f"(read_at {bytes_term(data)} {position})", answer_term(taken_term, sr.read_command, data, position)


def has_cut(data):
    """Whether a chunk is cut, as far as the commands can be read."""
    position = 0
    while position < len(data):
        if data[position] == sr.CUT:
            return True
        try:
            position = sr.read_command(data, position)[1]
        except sr.Refused:
            return False
    return False


def check_rows(cut):
    """Bundles with cut chunks, and those without, are tables of their own: one would compute too long."""
    for data in example_cases.checked_bundles():
        if has_cut(data) == cut:
            yield f"(check_of {bytes_term(data)})", answer_term(lambda _: "tt", sr.check, data)


def wide_check_rows():
    for data in example_cases.WIDE_CHECKED:
        yield f"(check_of {bytes_term(data)})", answer_term(lambda _: "tt", sr.check, data)


def label_rows():
    for data, *place in example_cases.LABELLED:
        given = f"(label_of {bytes_term(data)} " + " ".join(str(n) for n in place) + ")"
        yield given, answer_term(triples_term, sr.label_of, data, *place)


def label_term(label):
    return f"(label {label[0]} {triples_term(label[1])})"


def comparison_rows():
    for first, second in example_cases.COMPARED:
        wanted = answer_term(lambda order: f"Ord.{order.capitalize()}", sr.compare_labels, first, second)
        yield f"(compare_of {label_term(first)} {label_term(second)})", wanted


def order(data, first, second):
    """The order of two segments: their labels, compared."""
    return sr.compare_labels(*((len(triples), triples) for triples in (sr.label_of(data, *segment) for segment in (first, second))))


def order_rows():
    for data, *segments in example_cases.ORDERED:
        wanted = answer_term(lambda order: f"Ord.{order.capitalize()}", order, data, *segments)
        nodes = " ".join(f"(node {' '.join(map(str, segment))})" for segment in segments)
        yield f"(order_in {bytes_term(data)} {nodes})", wanted


def share_rows():
    for first, second in example_cases.SHARED:
        wanted = answer_term(overlap_term, sr.lowest_shared_byte, sr.Range(*first), sr.Range(*second))
        yield f"(shared_of {range_term(first)} {range_term(second)})", wanted


def race_lists():
    """The races of the bundles that the keys are held against, by name."""
    for name, data in example_cases.RACED.items():
        yield f"unfoldable pub {name} : List Race\n{name} = {races_term(sr.all_races(sr.check(data)))}\n\n"


def above_rows():
    for bundle, witness, first, second in example_cases.ABOVE:
        race = sr.next_race(sr.LEAST_WORDS, example_cases.RACED[bundle], witness, first, second)
        yield f"(race_above (key_of {witness} {name_term(first)} {name_term(second)}) {bundle})", found_term(race)


def left_term(words, filler):
    """What is left in an area."""
    after = sr.area_after([filler] * words)
    return f"replicate {words} {filler if any(after) else 0}"


def next_rows():
    for data, words, filler, witness, first, second in example_cases.NEXT:
        key = f"{witness} {name_term(first)} {name_term(second)}"
        wanted = answer_term(found_term, sr.next_race, words, data, witness, first, second)
        given = f"(next_of {bytes_term(data)} {key} (replicate {words} {filler}))"
        yield given, f"(record {{ answer = {wanted}; buffer = {left_term(words, filler)} }})"


def judge_rows(areas):
    for data, words, filler in areas:
        wanted = answer_term(judgement_term, sr.judge, words, data)
        given = f"(judge_of {bytes_term(data)} (replicate {words} {filler}))"
        yield given, f"(record {{ answer = {wanted}; buffer = {left_term(words, filler)} }})"


def table(title, name, kind, rows, uses=""):
    lines = "".join(f"    row {given} {wanted} ∷\n" for given, wanted in rows)
    return TABLE.format(title=title, name=name, type=kind, rows=lines, uses=uses)


def text():
    return HEAD + "\n".join((
        table("reading a command: a refusal, or the position after it", "reads", "Answer ℕ", read_rows()),
        table("refusals of check, and bundles that it accepts", "checks", "Answer (Unit {0})", check_rows(False)),
        table("the same with cut chunks", "cut-checks", "Answer (Unit {0})", check_rows(True)),
        table("labels of segments", "labels", "Answer (List Triple)", label_rows()),
        table("comparisons of labels, both ways", "comparisons", "Answer Order", comparison_rows()),
        table("segments compared by their labels: concurrent is not transitive; cut chunks", "orders", "Answer Order", order_rows(), "node "),
        table("the lowest shared byte of two ranges, and the lowest element of each that covers it", "shares",
              "Answer (Option Overlap)", share_rows(), "overlap "),
        "-- the races of five bundles; small-bundles has the bundles\n" + "".join(race_lists())
        + table("the least race above a key", "aboves", "Option Race", above_rows(), " ".join(example_cases.RACED) + " "),
        table("next race, and the work area afterwards", "nexts", "Lent (Option Race)", next_rows()),
        table("judge, and the work area afterwards", "judgements", "Lent Judgement", judge_rows(example_cases.AREAS)),
        table("reading an access of either group", "wide-reads", "Answer Taken", wide_read_rows()),
        table("check of wide accesses, and of both groups", "wide-checks", "Answer (Unit {0})", wide_check_rows()),
        table("judge of a bundle with wide accesses", "wide-judgements", "Lent Judgement", judge_rows(example_cases.WIDE_AREAS)),
    ))
