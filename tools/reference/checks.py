"""Tries the reference on itself: its readings against all trees, its trails against all words, its answers against known ones."""

import itertools
import random

from reference.answers import Marker
from reference.case_list import LETTER_TESTS, random_group, strings
from reference.cues import record_of
from reference.patterns import SIGNS, Group, Join, Refused, Repeat, Test, admits, read_letters, read_pattern, read_words, tests_with_tags
from reference.shapes import Shapes, printed
from reference.shelf import RANKINGS, Laid


def shape_of(node):
    """A tree as a shape; the tests have to be numbered as they are written."""
    match node:
        case Test(_, (_, low, _)):
            return chr(low)
        case Repeat(sign, unit):
            return sign, shape_of(unit)
        case Group(sign, _, branches):
            group = tuple(shape_of(branch) if isinstance(branch, Join) else (shape_of(branch),) for branch in branches)
            return (sign, group) if sign else group
        case Join(first, rest):
            return (shape_of(first), *(shape_of(rest) if isinstance(rest, Join) else (shape_of(rest),)))
    raise ValueError(node)


def repeats_tag(shape, inside=False):
    """Whether a `*` or `+` has a tag in its unit."""
    if isinstance(shape, str):
        return inside and shape == "{"
    inside = inside or shape[0] in ("*", "+")
    return any(repeats_tag(part, inside) for part in shape)


def check_readings():
    """Of all short texts, exactly those read that some tree prints, and the tree is that one."""
    shapes = Shapes("a")
    printing = {}
    for length in range(1, 7):
        for group in shapes.of("groups", length):
            assert printing.setdefault(printed(group), group) == group, printed(group)
    lawful = {text: group for text, group in printing.items() if not repeats_tag(group)}
    for text in strings("a" + SIGNS, range(7)):
        try:
            pattern = read_pattern(text, read_letters)
        except Refused:
            assert text.decode() not in lawful, text
            continue
        assert shape_of(pattern.tree) == lawful[text.decode()], text
        assert [test.number for test, _ in tests_with_tags(pattern.tree)] == list(range(1, pattern.tests + 1)), text
        assert pattern.tags == text.count(b"{"), text
    print(f"readings: {len(lawful)} lawful texts")


def lawful_beginnings(repeats, most):
    """How lawful texts begin: all beginnings of at most so many bytes. Twice as many and one are enough to end one."""
    shapes, begun = Shapes("a", repeats), {""}
    for length in range(1, 2 * most + 2):
        for group in shapes.of("groups", length):
            if not repeats_tag(group):
                text = printed(group)
                begun.update(text[:end] for end in range(1, most + 1))
    return begun


def check_offsets():
    """A fault is told at the first byte with which no lawful text goes on; 11 at a repeat, and 7 where a group could end."""
    for repeats, most in (("*+?", 3), ("*", 4)):
        begun, told = lawful_beginnings(repeats, most), 0
        for text in strings("a|(){}" + repeats, range(most + 1)):
            due = len(text)
            for at in reversed(range(len(text))):
                due = due if text[: at + 1].decode() in begun else at
            try:
                read_pattern(text, read_letters)
            except Refused as refused:
                wanted = due == 0 or text[due - 1] in b"({|"
                number = 6 if wanted else 11 if text[due : due + 1] in (b"*", b"+") else 7
                assert (refused.number, refused.offset) == (number, due), text
                told += 1
        print(f"offsets: {told} faults of texts with {repeats}")


def words_of(node, most):
    """All words of a node with at most so many tests, straight from what the operators mean."""
    match node:
        case Test(number, _):
            return {(number,)} if most else set()
        case Join(first, rest):
            return {one + other for one in words_of(first, most) for other in words_of(rest, most) if len(one + other) <= most}
        case Group(_, _, branches):
            return set().union(*(words_of(branch, most) for branch in branches))
        case Repeat(sign, unit):
            once = words_of(unit, most)
            many, more = {()}, {()}
            while more:
                more = {one + other for one in more for other in once if len(one + other) <= most} - many
                many |= more
            return {"?": {()} | once, "*": many, "+": {one + other for one in once for other in many if len(one + other) <= most}}[sign]
    raise ValueError(node)


def check_trails():
    """Trails and stretches come out as from the list of all words, asked one by one whether their tests admit the symbols."""
    chance, done = random.Random(7), 0
    for _ in range(1500):
        text, _ = random_group(chance, LETTER_TESTS, chance.randint(1, 5))
        line = bytes(chance.choices(b"aab", k=chance.randint(0, 4)))
        if refusal_of(read_pattern, text, read_letters) != "carried out":
            continue
        pattern = read_pattern(text, read_letters)
        laid = Laid(pattern, line)
        forms = {test.number: test.form for test, _ in tests_with_tags(pattern.tree)}
        words = words_of(pattern.tree, len(line))
        for left, right in itertools.combinations_with_replacement(range(len(line) + 1), 2):
            symbols = line[left:right]
            fitting = {word for word in words if len(word) == len(symbols) and all(map(admits, map(forms.get, word), symbols))}
            assert laid.trails(pattern.tree, left, right) == fitting, (text, line, left, right)
            assert ((left, right) in set(laid.stretches())) == bool(fitting), (text, line, left, right)
            done += 1
    print(f"trails: {done} stretches")


REPORTS = (  # pattern, line, longest stretch, marks
    (b"bb*", b"abbabbbab", (4, 7), ".##.###.#"),
    (b"aba", b"ababa", (0, 3), "#####"),
    (b"a*", b"bb", (0, 0), ".."),
)
SPLITS = (  # pattern, line, ranking, trail, the parts of the first tags
    (b"{a}bc|a{b{c}}", b"abc", "extent", (4, 5, 6), (None, (1, 3), (2, 3))),
    (b"{a}bc|a{b{c}}", b"abc", "order", (1, 2, 3), ((0, 1), None, None)),
    (b"a{b}|{a}b", b"ab", "extent", (1, 2), ((1, 2), None)),
    (b"a{b*}c", b"ac", "extent", (1, 3), (None,)),
)
REFUSALS = (  # pattern, refusal
    (b"", "refused 6 at 0"),
    (b"(b", "refused 7 at 2"),
    (b"({a)", "refused 7 at 3"),
    (b"({a})*", "refused 11 at 5"),
    (b"[z-a]", "refused 5 at 0 cause 2"),
    (b"*[", "refused 6 at 0"),
    (b"a)[", "refused 7 at 1"),
    (b"[^-^]", "refused 5 at 0 cause 3"),
    (b"a" * 65, "refused 9 at 64"),
    (b"(" * 9, "refused 8 at 8"),
)
ORDERS = (
    (b"+3 {[A-Z]+}: {.*}", "ok 4 2\n"),
    (b"?3 hm ANNA: good evening", "longest 3 21\nmarks ...##################\nparts 1:3-7 2:9-21\n"),
    (b"-3", "ok\n"),
    (b"?3 x", "refused 3\n"),
)


def refusal_of(call, *arguments):
    try:
        call(*arguments)
    except Refused as refused:
        return str(refused)
    return "carried out"


def check_examples():
    """Answers that are known without all this."""
    for text, line, longest, marks in REPORTS:
        laid = Laid(read_pattern(text, read_letters), line)
        assert laid.longest() == longest, text
        assert "".join(".#"[mark] for mark in laid.marks()) == marks, text
    for text, line, ranking, due, parts in SPLITS:
        laid = Laid(read_pattern(text, read_letters), line)
        trail = laid.best_trail(RANKINGS[ranking], 0, len(line))
        assert (trail, tuple(laid.parts(trail, 0))) == (due, parts + (None,) * (8 - len(parts))), text
    for text, due in REFUSALS:
        assert refusal_of(read_pattern, text, read_letters) == due, text
    assert read_pattern(b"a" * 64, read_letters).tests == 64
    assert refusal_of(Laid(read_pattern(b"a", read_letters), b"").longest) == "refused 15"
    assert Laid(read_pattern(b"#3;@7;*", read_words), (196_609, 131_079, 327_687)).longest() == (0, 3)
    marker = Marker()
    for order, due in ORDERS:
        assert marker.answer(order) == due, order
    none = [None] * 8
    assert record_of(9, 8, [0, 1, 1, 0, 1, 1, 1, 0, 1], none).hex() == "0301020103010100"
    assert record_of(160, 5, [1] * 160, none).hex() == "0100a00100"
    print("examples: as they should be")


CHECKS = (check_examples, check_readings, check_offsets, check_trails)
