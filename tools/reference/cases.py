"""The cases: what is asked, of what, and how often. Each function here is one kind; all begin with a shelf of their own."""

import collections
import itertools
import sys

from reference.case_list import LETTER_TESTS, WORD_TESTS, CaseList
from reference.case_list import edited, lines_of, many_tests, random_group, random_line, random_symbols, strings, text_reading
from reference.cues import number_bytes, record_of
from reference.answers import shown, words_shown
from reference.patterns import MOST_TAGS, SIGNS, Refused
from reference.shapes import Shapes, printed
from reference.shelf import MOST_SYMBOLS, RANKINGS


def signs_alone(cases):
    """Every short string of signs and a test; longer ones by chance."""
    cases.ask("letters")
    for text in strings("a" + SIGNS, range(5)):
        cases.try_pattern(text)
    for _ in cases.times(700):
        cases.try_pattern("".join(cases.chance.choices("aaab[" + SIGNS, k=cases.chance.randint(5, 9))).encode())


def nearly_lawful(cases):
    """Lawful patterns, and what one edit makes of them; signs inside forms, tags that are repeated."""
    for notation, tests, some in (("letters", LETTER_TESTS + [b"[(-)]", b"\\{", b"[^*-|]"], 450), ("words", WORD_TESTS, 200)):
        cases.ask(notation)
        for _ in cases.times(some):
            text, _ = random_group(cases.chance, tests, cases.chance.randint(1, 14))
            cases.try_pattern(text)
            cases.try_pattern(edited(cases.chance, text, SIGNS.encode() + b"a[#"))
            ends = [at for at, byte in enumerate(text, 1) if byte in b"})"]
            star = cases.chance.choice(ends or range(1, len(text) + 1))
            cases.try_pattern(text[:star] + cases.chance.choice((b"*", b"+")) + text[star:])


def letter_forms(cases):
    """Every byte alone, behind a backslash and behind a test; forms with limits, whole, cut, and with one byte changed."""
    cases.ask("letters")
    for byte in range(256):
        for front in (b"", b"\\", b"a"):
            cases.try_pattern(front + bytes([byte]))
    for front, signs, lengths in (("[", "[]^-az", range(5)), ("[^", "]^-a", (4,))):
        for text in strings(signs, lengths):
            cases.try_pattern(front.encode() + text)
    for _ in cases.times(300):
        low, high = cases.chance.randrange(256), cases.chance.randrange(256)
        form = cases.chance.choice((b"[%c-%c]", b"[^%c-%c]")) % (low, high)
        cases.try_pattern(form)
        cases.try_pattern(b"(a" + form[: cases.chance.randrange(len(form))])
        cases.try_pattern(edited(cases.chance, form, range(256)))


def what_letters_admit(cases):
    """Each form on a line that holds every byte, in two halves; each single byte on its neighbours."""
    cases.ask("letters")
    halves = bytes(range(160)), bytes(range(160, 256))
    forms = [b".", b"[\0-\xff]", b"[^\0-\xff]", b"[--]]", b"[^^-^]", b"[]-^]", b"[^[-]]", b"[(-}]", b"[\0-\0]", b"[\xff-\xff]"]
    for _ in cases.times(25):
        low, high = sorted(cases.chance.choices(range(256), k=2))
        forms += [b"[%c-%c]" % (low, high), b"[^%c-%c]" % (low, high)]
    for form in forms:
        if cases.file(3, form):
            for half in halves:
                cases.ask(f"mark 3 {len(half)} {shown(half)}")
            cases.ask("withdraw 3")
    cases.file(3, b".*{.}\\\xf0{.*}")
    for half in halves:
        cases.survey(3, half, 2)
    cases.ask("withdraw 3")
    for byte in range(256):
        for form in (b"\\%c" % byte, b"%c" % byte):
            if cases.file(4, form):
                line = bytes([byte, (byte + 1) % 256, (byte - 1) % 256, byte ^ 128, 0, 255, byte])
                cases.ask(f"mark 4 {len(line)} {shown(line)}")
                cases.ask("withdraw 4")


def word_forms(cases):
    """Every short string of what word forms are made of; numbers near their limits; each cut, and with one byte changed."""
    cases.ask("words")
    for text in strings("#@;06", range(5)):
        cases.try_pattern(text)
    for front in (b"", b"#", b"@12"):
        for byte in range(256):
            cases.try_pattern(front + bytes([byte]) + b";")
    for sign in "#@":
        for value in (0, 1, 9, 10, 99, 100, 199, 255, 256, 299, 300, 999, 1000, 9999, 10_000, 65_535, 65_536, 65_540, 99_999, 100_000):
            for width in (1, 3, 5, 6, 7):
                text = f"{sign}{value:0{width}};".encode()
                for form in dict.fromkeys((text, text[:-1], text[:-2], text[:-1] + b"a;", edited(cases.chance, text, b"0;9#"))):
                    cases.try_pattern(form)


def what_words_admit(cases):
    """Each form on a line of codes around its own limits."""
    cases.ask("words")
    for sign, most in (("#", 255), ("@", 65_535)):
        for value in (0, 1, 2, 7, 128, most - 1, most):
            near = [(value + step) % 65_536 for step in (-1, 0, 1)] + [0, 255, 256, 65_535]
            line = tuple(kind * 65_536 + entry for kind in near for entry in near)
            cases.file(5, f"{sign}{value};".encode())
            cases.ask(f"mark 5 {len(line)} {words_shown(line)}")
            cases.survey(5, line[:20], 4)
            cases.ask("withdraw 5")
    ends = (0, 65_535, 65_536, 196_609, 131_079, 327_687, 4_294_967_295)
    for form in (b".", b"#3;@7;*", b"#0;", b"@0;", b"@65535;", b"#255;"):
        cases.file(5, form)
        cases.survey(5, ends)
        cases.ask("withdraw 5")


def limits(cases):
    """At, below and above each limit, alone and several at one offset."""
    cases.ask("letters")
    for tests in (63, 64, 65):
        for test in (b"a", b"\\*", b"a|", b"(a)", b"a*"):
            for last in (b"", b"[", b"[z-a]", b"[a]", b"\\", b"b", b"(b", b"|", b")", b"?"):
                cases.try_pattern((test * tests).rstrip(b"|") + last)
    for length in (119, 120, 121, 122, 200, 400):
        for text in (b"a" + b"*" * (length - 1), b"(a)" * 40 + b"?" * (length - 120), b"*" * length, b"[" * length,
                     b"a?" * 60 + b"*" * (length - 120), b"(" * length, b"." * 20 + b"[a-b]" * 20 + b"+" * (length - 120)):
            cases.try_pattern(text)
    for _ in cases.times(80):
        text, _ = random_group(cases.chance, [b"a"], cases.chance.randint(60, 68), False)
        cases.try_pattern(text.replace(b"(", b"").replace(b")", b""))
        cases.try_pattern(b"a" * 40 + text[:80])
    for opens in (7, 8, 9):
        for _ in cases.times(40):
            kinds = [cases.chance.choice(("()", "{}")) for _ in range(opens)]
            text = "".join(kind[0] for kind in kinds) + "a" + "".join(kind[1] for kind in reversed(kinds))
            cases.try_pattern(text.encode())
            cases.try_pattern(edited(cases.chance, text.encode(), b"(){}a"))
    for tags in (7, 8, 9):
        for last in (b"", b"{", b"(", b"((((((((", b"(((((((({", b"(((((((", b"((((((({", b"}", b"[", b"*"):
            for unit in (b"{a}", b"({a})", b"{a}?", b"(b)"):
                cases.try_pattern(unit * tags + last)


def small_patterns(cases):
    """Patterns picked from all short ones over two letters, tags first, on lines picked from all short ones."""
    cases.ask("letters")
    shapes = Shapes("ab")
    texts = [printed(group) for length in range(1, 6) for group in shapes.of("groups", length)]
    tagged = [text for text in texts if "{" in text]
    lines = lines_of(b"ab", range(5))
    for pick in cases.times(200):
        text = cases.chance.choice(tagged if pick % 3 else texts)
        if cases.file(6, text.encode()):
            for line in cases.chance.sample(lines, 2):
                cases.survey(6, line, 4, 1)
            cases.ask("withdraw 6")
    for _ in cases.times(200):
        text, _ = random_group(cases.chance, LETTER_TESTS[: cases.chance.choice((3, 10))], cases.chance.randint(2, 8))
        if cases.file(7, text):
            cases.survey(7, random_line(cases, 7, cases.chance.randint(0, 7)), 5, 1)
            cases.ask("withdraw 7")
    cases.ask("words")
    for _ in cases.times(80):
        text, _ = random_group(cases.chance, WORD_TESTS, cases.chance.randint(2, 7))
        if cases.file(7, text):
            cases.survey(7, random_line(cases, 7, cases.chance.randint(0, 6)), 4, 1)
            cases.ask("withdraw 7")


READ_TWO_WAYS = [b"{a?}", b"{a*}", b"({a}|a)", b"(a|{a})", b"{a|{a}}", b"a?", b"(a|a)", b"{(a|b)?}", b"({a}b?|a{b?})", b"{.}?",
                 b"a*", b"{b?}", b"({a}a|a{a})", b"{a}?a?", b"(aa?|{a?})", b"{(aa)*}", b"(a|aa)", b"(a|aa)", b"(a|aaa)", b"(a|aa|b)"]


def many_trails(cases):
    """Patterns that read the same stretch in many ways, so that rank and tie order have to decide."""
    cases.ask("letters")
    for pick in cases.times(500):
        line = bytes(cases.chance.choices(b"aab", k=cases.chance.randint(1, 6)))
        if pick % 2:
            text = b"|".join(text_reading(cases.chance, line) for _ in range(cases.chance.randint(1, 3)))
        else:
            text = b"".join(cases.chance.choices(READ_TWO_WAYS, k=cases.chance.randint(2, 5)))
        if cases.file(7, text):
            cases.survey(7, line, 3, 0)
            cases.ask("withdraw 7")


def many_long_trails(cases):
    """Patterns of many tests that read `ab` over and over, in some places in two ways, on lines of up to 160 symbols."""
    cases.ask("letters")
    two_ways = [b"({a}b|a{b})", b"(ab|ab)", b"(a|a)b", b"a(b|.)", b"{ab|.b}", b"({ab}|ab)"]
    for _ in cases.times(100):
        texts = cases.chance.choices(two_ways, k=cases.chance.randint(1, 4))
        texts += cases.chance.choice(([b"(ab)*"], [b"{(ab)*}"], [b"(..)*"], [b"(ab)*", b"{(.b)*}"]))
        tests = sum(text.count(test) for text in texts for test in b"ab.")
        texts += [b"ab"] * cases.chance.choice((0, 10, (64 - tests) // 2, (64 - tests) // 2))
        cases.chance.shuffle(texts)
        if cases.file(9, b"".join(texts)):
            length = cases.chance.choice((60, 80, 100, 120, 158, 159, 160))
            cases.survey(9, (b"ab" * 81)[cases.chance.choice((0, 0, 0, 1)) :][:length], 1, 0)
            cases.ask("withdraw 9")


def in_tags(text, depth):
    return b"{" * depth + text + b"}" * depth


def nested_tags(cases):
    """Tags in tags around long runs, where ranks are large and one end of a run decides; the last tags alone."""
    cases.ask("letters")
    for _ in cases.times(40):
        depths = cases.chance.choice(((7, 1), (1, 7), (6, 2), (8, 0), (0, 8), (2, 4), (3, 2, 3), (0, 4, 4), (5, 0, 3)))
        text = b"".join(in_tags(cases.chance.choice((b".*", b"a*", b"(a|b)*", b"a?.+")), depth) for depth in depths)
        length = 30 if len(depths) == 3 else cases.chance.choice((33, 64, 100, 128, 160))
        if cases.file(5, text):
            cases.survey(5, bytes(cases.chance.choices(b"aaaaaaab", k=length)), 1, 0)
            cases.survey(5, b"a" * length, 1, 0)
            cases.ask("withdraw 5")
    for _ in cases.times(160):
        front = b"".join(cases.chance.choices((b"{a}", b"{b}?", b"{.}", b"{b*}"), k=cases.chance.choice((4, 5, 6, 6, 6, 7))))
        text = front + b"".join(cases.chance.choices([b"a?", b"a*", *READ_TWO_WAYS], k=cases.chance.randint(1, 4)))
        if cases.file(6, text):
            cases.survey(6, b"a" * cases.chance.randint(3, 9), 3, 0)
            cases.ask("withdraw 6")


def every_stretch(cases):
    """Every stretch of every short line, under both rankings, for a few patterns with many trails."""
    cases.ask("letters")
    for text in (b"{a}b|a{b}", b"{a*}{a*}", b"{(a|b)?}(a|b)*{.?}", b"({a}|a{a})?a?", b"{{a?}a?}{a?}"):
        if cases.file(0, text):
            for line in lines_of(b"ab", range(4)):
                cases.survey(0, line, 20, 4)
            cases.ask("withdraw 0")


def nested_repeats(cases):
    """Repeats in repeats, groups that read the empty stretch, and branches that read the same."""
    cases.ask("letters")
    for text in ("(a*)*", "(a?b?)+", "((a|b)*)*", "(a**)+?", "a***", "(a+)+", "(a?)*", "(a?)+", "((a*)+b?)*", "(a*|b*)+",
                 "(a*b*)*", "((a?)?)?", "(a|a)*", "(a|a|a)+", "((a*)*)*", "{(a*)*}{(b*)*}", "{(a|ab)*}{b*}", "{a?}{a?}(a*)*",
                 "(a*)*b(a*)*", "({a})?", "({a}?)?({b}?)?", "{a??}b", "(a|b*)(a*|b)", "{((a?)*)?}", "((ab)*a?)*", "(a?|b)+(a|b?)+",
                 "{{(a*)*}|(b*)*}", "(((a)))*", "{(((a)*)*)*}", "(.*)*", "{.*}{.*}{.*}"):
        if cases.file(2, text.encode()):
            for length in (0, 1, 2, 4, 6):
                cases.survey(2, bytes(cases.chance.choices(b"aab", k=length)), 4, 1)
            cases.survey(2, b"a" * 5, 3, 1)
            cases.ask("withdraw 2")


def eight_tags(cases):
    """All eight tags, in each other and side by side, and tags that get no symbol."""
    cases.ask("letters")
    nested = b"a"
    for depth in range(8):
        nested = b"{" + nested + (b"a?}" if depth % 2 else b"}")
    rows = [nested, b"{a}" * 8, b"{a?}" * 8, b"{a*}" * 8, b"{a}?" * 8, b"{{a?}{a?}}" * 2 + b"{{a?}a?}", b"({a}|{b})" * 4,
            b"{a|b|{a{b}}}{{b}|{a}|{a?}{b?}}", b"{a}|{b}|{ab}|{ba}|{aa}|{bb}|{.}|{..}", b"{b*}" * 8, b"{b*}a" * 7 + b"{b*}",
            b"{{a?}{a?}{a?}{a?}{a?}{a?}{a?}}"]
    for text in rows:
        if cases.file(1, text):
            for length in (0, 1, 3, 5, 8):
                cases.survey(1, random_line(cases, 1, length), 4, 1)
            cases.ask("withdraw 1")
    for _ in cases.times(40):
        text = b"".join(b"{" + random_group(cases.chance, LETTER_TESTS, 2, False)[0] + b"}" for _ in range(8))
        if cases.file(1, text):
            cases.survey(1, random_line(cases, 1, cases.chance.randint(4, 12)), 3, 1)
            cases.ask("withdraw 1")


def long_lines(cases):
    """Lines up to the limit and one above it, and patterns of up to 64 tests."""
    fixed = [b"{[A-Z]+}: {.*}", b"a*", b".*", b"{.*}{b*}", b"{a*}b{.*}", b"(ab|ba)*c?", b"(a|b|c)*", b"a" * 64, b"{" + b"a?b" * 10 + b"}",
             b"(" + b"a" * 31 + b"|" + b"b" * 31 + b")+", b"abc", b"[^b-b]+", b"({a.}|b{a})"]
    letters = ("letters", [b"a", b"b", b"a", b"b", b"."], (10, 20, 32, 33, 40, 63, 64, 64), 60)
    for notation, tests, counts, some in (letters, ("words", WORD_TESTS, (4, 8), 6)):
        cases.ask(notation)
        texts = list(fixed) if notation == "letters" else [b"#1;*", b"{#1;*}{@7;*}", b".*"]
        texts += [many_tests(cases.chance, tests, notation, cases.chance.choice(counts)) for _ in cases.times(some)]
        for text in texts:
            if cases.file(8, text):
                for length in cases.chance.sample((0, 1, 20, 40, 100, 159, 160, 161), 2):
                    cases.survey(8, random_line(cases, 8, length), 1, 1)
                whole = random_symbols(cases.chance, cases.pattern_at(8).tree)[:MOST_SYMBOLS]
                cases.survey(8, bytes(whole) if notation == "letters" else tuple(whole), 1, 0)
                cases.ask("withdraw 8")


HUGE = 18_446_744_073_709_551_615


def order_of_checks(cases):
    """Every call with several things wrong at once: places, lines, ends, room and work, each right and wrong."""
    for notation, text, lines in (
        ("letters", b"{a*}b?", (b"aab", b"", b"cc", b"a" * 160, b"a" * 161)),
        ("words", b"{#1;+}{@7;*}", ((65_536, 65_543, 7), (), (131_072,), (65_536,) * 161)),
    ):
        cases.ask(notation)
        for place in (0, 9, 0, 10, 255, HUGE):
            for filed in (text, b"", b"a" * 121, b"["):
                cases.file(place, filed)
        for place, line in itertools.product((0, 5, 9, 10, 255, HUGE), lines):
            size = len(line)
            cases.ask(f"longest {place} {cases.shown_line(line)}")
            for room in dict.fromkeys((0, max(size - 1, 0), size, size + 5)[:: 1 if size < 100 else 2]):
                cases.ask(f"mark {place} {room} {cases.shown_line(line)}")
            ends = [(0, size), (size, size), (0, 0), (1, 0), (size + 1, size), (0, size + 1), (size + 1, size + 1),
                    (size // 2, size), (HUGE, HUGE), (0, HUGE), (HUGE, 0), (1, HUGE)]
            choices = list(itertools.product(RANKINGS, ends, (0, -1, 1), (0, 127, 128, 129, 200)))
            some = 6 if size > 100 else 50 if place in (0, 9) else 4
            for ranking, (left, right), more, work in cases.chance.sample(choices, some):
                fits = left <= right <= size
                cases.split(place, ranking, (left, right), line, max(right - left + more, 0) if fits else 2, work)
        for place in (5, 9, 0, 0, 10, 255, HUGE):
            cases.ask(f"withdraw {place}")


def histories(cases):
    """Long lists of calls at all places and two that there are not, so that a wrong or an old pattern would show."""
    lawful = [b"a", b"b", b"aa?", b"{a}b", b"a{b}", b"(a|b)*", b"{.*}b", b"b+", b".", b"c*", b"{a*}{b*}", b"ab|{ba}"]
    unlawful = [b"", b"({a})*", b"(b", b"[z-a]", b"a" * 65, b"a" * 121, b"a)", b"{" * 9]
    numbers = {ord("a"): b"#1;", ord("b"): b"@7;", ord("c"): b"#3;"}
    for notation in ("letters", "letters", "words", "letters", "words"):
        cases.ask(notation)
        words = notation == "words"
        for _ in cases.times(700):
            place = cases.chance.randint(0, 11)
            act = cases.chance.choice("ffwlmss")
            letters = bytes(cases.chance.choices(b"aabbc", k=cases.chance.randint(0, 5)))
            line = tuple({97: 65_536, 98: 7, 99: 196_608}[letter] for letter in letters) if words else letters
            if act == "f":
                text = cases.chance.choice(lawful if cases.chance.random() < 0.8 else unlawful)
                cases.file(place, b"".join(numbers.get(byte, bytes([byte])) for byte in text) if words else text)
            elif act == "w":
                cases.ask(f"withdraw {place}")
            elif act == "l":
                cases.ask(f"longest {place} {cases.shown_line(line)}")
            elif act == "m":
                cases.ask(f"mark {place} {len(line) + cases.chance.choice((-1, 0, 1)) if line else 0} {cases.shown_line(line)}")
            else:
                ends = sorted(cases.chance.choices(range(len(line) + 1), k=2)) if cases.chance.random() < 0.9 else (1, 0)
                cases.split(place, cases.chance.choice(list(RANKINGS)), ends, line)


def fill(cases, tag, part):
    cases.ask(f"fill {tag} " + ("none" if part is None else f"{part[0]} {part[1]}"))


def random_sheet(cases, symbols, misfit):
    """Fills some entries of a new sheet with parts of a line; now and then with one that does not fit."""
    cases.ask("letters")
    for tag in range(1, MOST_TAGS + 1):
        if cases.chance.random() < 0.3 and symbols > 0:
            left = cases.chance.randrange(symbols)
            fill(cases, tag, (left, cases.chance.randint(left + 1, symbols)))
    if misfit:
        past = symbols + 1
        misfits = ((0, 0), (symbols, symbols), (2, 1), (0, past), (symbols, past), (HUGE, HUGE), (HUGE, 0), (0, HUGE))
        fill(cases, cases.chance.randint(1, 8), cases.chance.choice(misfits))


def random_marks(chance, symbols):
    """Marks in runs of some length; a marked symbol has any byte but 0."""
    marks = []
    while len(marks) < symbols:
        marks += [chance.choice((0, 0, 1, 1, 2, 128, 255))] * chance.choice((1, 1, 2, 3, 40, 160))
    return bytes(marks[:symbols])


SIZES = (0, 1, 2, 3, 9, 20, 127, 128, 129, 159, 160)


def records_written(cases):
    """Marks and sheets of all kinds, written where there is room and where there is none."""
    for pick in cases.times(420):
        symbols = cases.chance.choice(SIZES[:6] if pick % 3 else (*SIZES, 161, 200))
        random_sheet(cases, symbols, cases.chance.random() < 0.2)
        for _ in range(3):
            marks = random_marks(cases.chance, symbols)
            try:
                length = len(record_of(symbols, HUGE, marks, cases.answerer.sheet))
            except Refused:
                length = 3
            room = cases.chance.choice((length, length, length, length + 4, length + 4, max(length - 1, 0), 0))
            marks = marks[: max(symbols + cases.chance.choice((0, 0, 0, 0, -1)), 0)] + b"\1" * cases.chance.choice((0, 0, 2))
            answer = cases.ask(f"write {symbols} {room} {shown(marks)}")
            if answer.startswith("ok") and cases.chance.random() < 0.4:
                read_both_ways(cases, symbols, record_of(symbols, HUGE, marks, cases.answerer.sheet))
    for marks in (b"\1" * 160, b"\1\0" * 80, b"\0" * 160, b"\0" * 159 + b"\1", b"\0" * 128 + b"\1" * 32):
        for room in (4, 5, 8, 163, 164, 170):
            cases.ask("letters")
            cases.ask(f"write 160 {room} {shown(marks)}")


def read_both_ways(cases, symbols, record, room=None):
    cases.ask(f"read {symbols} {symbols if room is None else room} {shown(record)}")
    cases.ask(f"cues {symbols} {shown(record)}")


def damaged(record):
    """What one damage makes of a record: a byte dropped, doubled or changed, the record cut, a byte too many."""
    for at, byte in enumerate(record):
        before, after = record[:at], record[at + 1 :]
        yield before
        yield before + after
        yield record[: at + 1] + record[at:]
        for other in (0, 1, 9, 127, 128, 255, byte - 1, byte + 1, byte ^ 128):
            if 0 <= other < 256 and other != byte:
                yield before + bytes([other]) + after
        yield before + bytes([byte | 128, 0]) + after
        yield before + bytes([byte | 128, 128, 0]) + after
    for surplus in (0, 1, 128, 255):
        yield record + bytes([surplus])


def records_damaged(cases):
    """Good records, read for lines of several lengths and into several rooms; and every damage to each."""
    for pick in cases.times(24):
        symbols = (0, 1, 2, 3, 9, 9, 9, 20, 20, 128, 129, 160)[pick % 12]
        random_sheet(cases, symbols, False)
        record = record_of(symbols, HUGE, random_marks(cases.chance, symbols), cases.answerer.sheet)
        for other in (symbols, symbols + 1, max(symbols - 1, 0), 0, 160, 161, HUGE):
            read_both_ways(cases, other, record, min(other, 162))
        for room in (symbols - 1, symbols + 3):
            if room >= 0:
                read_both_ways(cases, symbols, record, room)
        for other in dict.fromkeys(damaged(record)):
            cases.ask(f"cues {symbols} {shown(other)}")
            if cases.chance.random() < (0.5 if symbols <= 20 else 0.1):
                cases.ask(f"read {symbols} {symbols} {shown(other)}")


def records_short(cases):
    """Every short record of some bytes, for several lengths of line."""
    cases.ask("letters")
    values = (0, 1, 2, 3, 8, 9, 127, 128, 129, 160, 161, 255)
    for record in lines_of(values, range(3)):
        for symbols in (0, 1, 2, 9):
            read_both_ways(cases, symbols, record)
        for symbols in (127, 128, 160, 161):
            cases.ask(f"cues {symbols} {shown(record)}")
    for record in lines_of((0, 1, 2, 128), (3, 4)):
        read_both_ways(cases, cases.chance.choice((1, 2, 3)), record)
        cases.ask(f"cues {cases.chance.choice((0, 1, 2, 160))} {shown(record)}")


def rows_of_numbers(cases):
    """Rows of numbers that are nearly records: small counts and lengths, tags that rise, the forms of numbers by chance."""
    cases.ask("letters")
    for _ in cases.times(700):
        symbols = cases.chance.choice((3, 9, 20, 20, 150, 160))
        numbers = [cases.chance.choice((0, 1, 2, 2))]
        for _ in range(numbers[0]):
            numbers += [cases.chance.choice((0, 1, 1, 2, symbols // 3)), cases.chance.choice((0, 1, 1, 2, symbols // 3))]
        tags = sorted(cases.chance.sample(range(10), cases.chance.choice((0, 1, 2, 3))))
        numbers += [len(tags) + cases.chance.choice((0, 0, 0, 1))]
        for tag in tags:
            start = cases.chance.choice((0, 1, symbols - 1, symbols, symbols + 1, symbols // 2))
            numbers += [tag, start, cases.chance.choice((0, 1, 1, symbols - start, symbols - start + 1))]
        record = b"".join(number_bytes(max(number, 0)) for number in numbers)
        if cases.chance.random() < 0.2:
            record = edited(cases.chance, record, (0, 1, 128, 129, 255))
        cases.ask(f"cues {symbols} {shown(record)}")
        if symbols <= 20 or cases.chance.random() < 0.3:
            cases.ask(f"read {symbols} {symbols} {shown(record)}")


def sheets(cases):
    """Entries filled one by one, and the parts of a line that they stand for, of bytes and of words."""
    letters, words = (b"", b"a", b"\0\xffxyz", b"b" * 160, b"c" * 170), ((), (7,), (0, 65_536, 4_294_967_295))
    for notation, lines in (("letters", letters), ("words", words)):
        cases.ask(notation)
        for _ in cases.times(270):
            ends = cases.chance.choices((0, 0, 1, 2, 3, 5, 160, 161, HUGE), k=2)
            fill(cases, cases.chance.choice((*range(11), 255, HUGE)), None if cases.chance.random() < 0.2 else ends)
            if cases.chance.random() < 0.5:
                fill(cases, cases.chance.randint(1, 8), sorted(cases.chance.choices(range(4), k=2)))
            for _ in range(2):
                tag = cases.chance.choice((*range(10), *range(1, 9), 255, HUGE))
                cases.ask(f"part {tag} {cases.shown_line(cases.chance.choice(lines))}")


def order(cases, text):
    cases.ask(f"order {shown(text)}")


def orders_malformed(cases):
    """Every short line of what orders are made of; every first byte and every digit; lines about as long as an order may be."""
    cases.ask("marker")
    for text in strings("+-?3 a", range(5)):
        if len(text) < 4 or text[:3] in (b"+3 ", b"?3 ", b"-3 ", b"-3a", b"+33", b"?33"):
            order(cases, text)
    for byte in range(256):
        for text in (b"%c3 a" % byte, b"%c3" % byte, b"+%c b" % byte, b"?%c b" % byte, b"-%c" % byte, b"+4%cb" % byte):
            order(cases, text)
    for length in (120, 121, 160, 161, 196, 197, 198, 250):
        for text in (b"?0 " + b"a" * length, b"+5 " + b"(" * length, b"?4 " + b"b" * length, b"?9 " + b"x" * length,
                     b"+2 a" + b"*" * (length - 1), b"?2 " + b"a" * length, b"-2", b"x" * length):
            order(cases, text)


def orders(cases):
    """Long lists of orders: patterns, lawful and not, filed, withdrawn and asked."""
    tests = [b"[A-Z]+", b": ", b".", b"a", b"b", b"[a-z]", b"\\{", b"[^a-a]"]
    texts = [b"{[A-Z]+}: {.*}", b"({a})*", b"[z-a]", b"", b"(b", b"a{b}|{a}b", b"{a?}{b?}c", b"a" * 65, b"(((((((((", b"{a}" * 9,
             b"{\xff*}"]
    lines = [b"hm ANNA: good evening", b"", b"x", b"ab", b"ANNA: ab", b"\xff\xff\0", b"abc\r", b"a" * 160, b"a" * 161]
    for _ in cases.times(4):
        cases.ask("marker")
        for _ in range(300):
            place = b"%d" % cases.chance.randint(0, 9)
            act = cases.chance.choice("+++--????")
            if act == "-":
                order(cases, b"-" + place)
            elif act == "+":
                text, _ = random_group(cases.chance, tests, cases.chance.randint(1, 6))
                choices = (text, text, text, edited(cases.chance, text, b"(){}|*[\\a"), cases.chance.choice(texts))
                order(cases, b"+" + place + b" " + cases.chance.choice(choices))
            else:
                line = cases.chance.choice(lines) if cases.chance.random() < 0.6 else bytes(cases.chance.choices(b"aabB: {", k=8))
                order(cases, b"?" + place + b" " + line)


GENERATORS = (
    signs_alone, nearly_lawful, letter_forms, what_letters_admit, word_forms, what_words_admit, limits, small_patterns, many_trails,
    every_stretch, nested_repeats, eight_tags, long_lines, many_long_trails, nested_tags, order_of_checks, histories, records_written,
    records_damaged, records_short, rows_of_numbers, sheets, orders_malformed, orders,
)


def write_cases(seed, more, cases_file, answers_file):
    """Writes both files, and says on the error output how many cases there are of each kind."""
    cases = CaseList(seed, more)
    for generator in GENERATORS:
        asked, left_out = len(cases.asked), cases.left_out
        generator(cases)
        print(f"{generator.__name__}: {len(cases.asked) - asked}, left out {cases.left_out - left_out}", file=sys.stderr)
    kinds = collections.Counter(case.split(" ")[0] for case in cases.asked)
    print(f"{len(cases.asked)} cases: " + ", ".join(f"{kind} {count}" for kind, count in sorted(kinds.items())), file=sys.stderr)
    for path, lines in ((cases_file, cases.asked), (answers_file, cases.answers)):
        with open(path, "w", encoding="ascii") as file:
            file.writelines(line + "\n" for line in lines)
