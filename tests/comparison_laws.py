"""The laws of the comparison, request A.8 of document 02: swapping two labels turns before into after and leaves same and concurrent, and what
is refused stays refused; among the segment labels of an accepted bundle before composes; same holds for one segment only with itself.
Beside them the key by which docs/SORTING.md sorts segments.

A comparison takes two labels, (count, triples), and answers an order, or a refusal as (number, place). Each law counts where a comparison
breaks it, so that wrong comparisons can be held to the laws too.
"""

from itertools import product

import second_reader as sr

REVERSED = {"same": "same", "before": "after", "after": "before", "concurrent": "concurrent"}


def compare(first, second):
    """The second reader's."""
    try:
        return sr.compare_labels(first, second)
    except sr.Refused as refusal:
        return refusal.number, refusal.place


def labels_of(data):
    """The label of each segment of an accepted bundle, by team, member and number."""
    bundle = sr.check(data)
    places = [(chunk, number) for chunk in bundle.chunks for number in range(len(chunk.segments))]
    return {(chunk.team, chunk.member, number): filled(sr.segment_label(bundle, chunk, number)) for chunk, number in places}


def filled(triples):
    return len(triples), [*triples, *[(0, 0, 0)] * (5 - len(triples))]


def key(label):
    """Of each triple the interval, then the offset; a list that ends is lower than one that goes on."""
    count, triples = label
    return [(interval, offset) for offset, span, interval in triples[:count]]


# ------------------------------------------------------------------- laws


def swapped(answer, second_is_good):
    """What the comparison the other way round has to answer."""
    if isinstance(answer, str):
        return REVERSED[answer]
    number, place = answer
    return (15, 2 if second_is_good else 1) if number == 15 else (number, place)


def swapping(comparison, first, second):
    """1 where swapping two labels breaks the law, else 0."""
    second_is_good = sr.label_is_good(*second)
    return comparison(second, first) != swapped(comparison(first, second), second_is_good)


def composing(comparison, labels):
    """How many triples of a bundle's segments break the law that before composes."""
    before = {name: {other for other in labels if comparison(labels[name], labels[other]) == "before"} for name in labels}
    return sum(len(before[second] - before[first]) for first in labels for second in before[first])


def same_itself(comparison, labels):
    """How many pairs of a bundle's segments break the law that same holds for one segment only with itself."""
    return sum(
        (comparison(labels[first], labels[second]) == "same") != (first == second) for first, second in product(labels, labels)
    )


def by_key(comparison, labels):
    """How many pairs of a bundle's segments break the law that what is before has the lower key, and that no two have one key."""
    wrong = len(labels) - len({tuple(key(label)) for label in labels.values()})
    return wrong + sum(
        comparison(first, second) == "before" and not key(first) < key(second)
        for first, second in product(labels.values(), labels.values())
    )


# ---------------------------------------------------------- wrong comparisons


def prefix_concurrent(first, second):
    """A proper prefix is concurrent, seen from the prefix."""
    answer = compare(first, second)
    return "concurrent" if answer == "before" and first[0] < second[0] and key(second)[: first[0]] == key(first) else answer


def equal_concurrent(first, second):
    """Equal labels are concurrent, as document 000's two cases leave them."""
    answer = compare(first, second)
    return "concurrent" if answer == "same" else answer


def lower_offset_only(first, second):
    """Of offsets equal modulo the span the lower one is before, and the other way round the two are concurrent."""
    answer = compare(first, second)
    place, left, right = first_difference(first, second)
    return "concurrent" if answer == "after" and place is not None and left[2] == right[2] else answer


def same_residue_same(first, second):
    """Offsets equal modulo the span are the same."""
    place, left, right = first_difference(first, second)
    answer = compare(first, second)
    alike = place is not None and isinstance(answer, str) and left[2] == right[2] and left[0] % left[1] == right[0] % left[1]
    return "same" if alike else answer


def last_difference_decides(first, second):
    """The last differing triples are taken."""
    answer = compare(first, second)
    shared = min(first[0], second[0])
    if not isinstance(answer, str) or shared > 5:
        return answer
    places = [k for k in range(shared) if first[1][k] != second[1][k]]
    if not places or first[1][places[-1]][1] != second[1][places[-1]][1]:
        return answer
    return sr.compare_triples(first[1][places[-1]], second[1][places[-1]], places[-1])


def later_interval_first(first, second):
    """The higher interval is before."""
    answer = compare(first, second)
    place, left, right = first_difference(first, second)
    return REVERSED[answer] if isinstance(answer, str) and place is not None and left[2] != right[2] else answer


def bad_always_at_1(first, second):
    """15 is always at 1."""
    answer = compare(first, second)
    return (15, 1) if answer == (15, 2) else answer


def bad_second_first(first, second):
    """15 of the second label is tested first."""
    return (15, 2) if not sr.label_is_good(*second) else compare(first, second)


def unequal_from_the_end(first, second):
    """16 is at the triple's number, counted from the end of the first label."""
    answer = compare(first, second)
    return (16, first[0] - 1 - answer[1]) if isinstance(answer, tuple) and answer[0] == 16 else answer


def first_difference(first, second):
    """The number of the first differing triples, and these; None where there are none or a label is bad."""
    if sr.label_is_good(*first) and sr.label_is_good(*second):
        for place in range(min(first[0], second[0])):
            if first[1][place] != second[1][place]:
                return place, first[1][place], second[1][place]
    return None, None, None


def prefix_concurrent_both_ways(first, second):
    """A proper prefix is concurrent, seen from either label."""
    answers = prefix_concurrent(first, second), prefix_concurrent(second, first)
    return "concurrent" if "concurrent" in answers else answers[0]


def concurrent_by_key(first, second):
    """What is concurrent is put in the order of the keys, as a sort does."""
    answer = compare(first, second)
    return answer if answer != "concurrent" else "before" if key(first) < key(second) else "after"


# Told by swapping labels; by before or same among the segments of a bundle; by their keys.
BY_SWAPPING = (prefix_concurrent, lower_offset_only, bad_always_at_1, bad_second_first, unequal_from_the_end)
BY_SEGMENTS = (
    (equal_concurrent, same_itself), (same_residue_same, same_itself), (last_difference_decides, composing), (later_interval_first, by_key),
)  # fmt: skip
# These keep all the laws: they are orders too, but not that of the graph.
BY_GRAPH_ALONE = (prefix_concurrent_both_ways, concurrent_by_key)
