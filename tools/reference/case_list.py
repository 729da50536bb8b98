"""The list to which cases are added, and the patterns, lines and strings that chance makes for them."""

import itertools
import random

from reference.answers import NOTATIONS, Answerer, shown, words_shown
from reference.patterns import Group, Join, Refused, Repeat, Test, read_pattern
from reference.shelf import LEAST_WORK, MOST_SYMBOLS, RANKINGS, Laid, TooManyTrails


class CaseList:
    """Cases and their answers, and the chance by which all that is picked is picked."""

    def __init__(self, seed, more):
        self.chance, self.more, self.answerer = random.Random(seed), more, Answerer()
        self.asked, self.answers, self.left_out, self.turn = [], [], 0, 0

    def ask(self, case):
        """The answer, which a generator may look at; nothing where the case is left out."""
        try:
            answer = self.answerer.answer(case)
        except TooManyTrails:
            self.left_out += 1
            return ""
        self.asked.append(case)
        self.answers.append(answer)
        return answer

    def times(self, count):
        return range(count * self.more)

    def file(self, place, text):
        return self.ask(f"file {place} {shown(text)}").startswith("ok")

    def try_pattern(self, text):
        """Files a pattern, each time at the next place, and withdraws it."""
        self.turn = (self.turn + 1) % 10
        if self.file(self.turn, text):
            self.ask(f"withdraw {self.turn}")

    def pattern_at(self, place):
        return self.answerer.shelf.places[place]

    def shown_line(self, line):
        return shown(line) if self.answerer.notation == "letters" else words_shown(line)

    def split(self, place, ranking, ends, line, room=None, work=LEAST_WORK):
        room = max(ends[1] - ends[0], 0) if room is None else room
        self.ask(f"split {place} {ranking} {ends[0]} {ends[1]} {room} {work} {self.shown_line(line)}")

    def several_trails_first(self, laid, stretches):
        def one_trail(ends):
            try:
                return len(laid.all_trails(*ends)) == 1
            except TooManyTrails:
                return True

        return sorted(stretches, key=one_trail)

    def survey(self, place, line, most=8, others=2):
        """The longest stretch, the marks, and splittings of some stretches that read and of some others."""
        text = self.shown_line(line)
        self.ask(f"longest {place} {text}")
        self.ask(f"mark {place} {len(line) + self.chance.choice((0, 0, 1, 3))} {text}")
        laid = Laid(self.pattern_at(place), line)
        reads = list(laid.stretches()) if len(line) <= MOST_SYMBOLS else []
        picked = [laid.longest()] if reads else []
        picked += self.several_trails_first(laid, self.chance.sample(reads, min(4 * most, len(reads))))[:most]
        for _ in range(others):
            left = self.chance.randint(0, len(line))
            picked.append((left, self.chance.randint(left, len(line))))
        for ends in dict.fromkeys(picked):
            for ranking in RANKINGS:
                self.split(place, ranking, ends, line, ends[1] - ends[0] + self.chance.choice((0, 0, 2)))


LETTER_TESTS = [b"a", b"b", b"a", b"b", b"a", b"b", b".", b"[a-b]", b"[^a-a]", b"\\b"]
WORD_TESTS = [b"#1;", b"#2;", b"@0;", b"@7;", b".", b"#01;", b"@00007;"]


def random_group(chance, tests, size, tags=True):
    """The bytes of a pattern with about so many tests, lawful but for the limits, and whether it holds a tag."""
    text, tagged, branch_begins = b"", False, True
    while size > 0:
        if not branch_begins and chance.random() < 0.25:
            text += b"|"
        unit, unit_tagged, used = random_unit(chance, tests, size, tags)
        text, tagged, size, branch_begins = text + unit, tagged or unit_tagged, size - used, False
    return text, tagged


def random_unit(chance, tests, size, tags):
    used, tagged = 1, False
    if size > 1 and chance.random() < 0.5:
        used = chance.randint(1, size)
        text, tagged = random_group(chance, tests, used, tags)
        if tags and chance.random() < 0.6:
            text, tagged = b"{" + text + b"}", True
        else:
            text = b"(" + text + b")"
    else:
        text = chance.choice(tests)
    while chance.random() < 0.3:
        text += b"?" if tagged else chance.choice((b"*", b"+", b"?"))
    return text, tagged, used


def random_symbols(chance, node):
    """Symbols that a node reads; where a test admits none, or is hard to meet, any symbol."""
    match node:
        case Test(_, ("within", low, high)):
            return [chance.randint(low, high) if high - low < 40 else chance.choice(b"abcA: ")]
        case Test(_, ("outside", low, _)):
            return [chance.choice((low - 1, low)) % 256]
        case Test(_, ("kind", kind)):
            return [kind * 65_536 + chance.choice((0, 7, 65_535))]
        case Test(_, ("entry", entry)):
            return [chance.choice((1, 2, 3, 65_535)) * 65_536 + entry]
        case Test():
            return [chance.choice((0, 65_536, 131_079))]
        case Join(first, rest):
            return random_symbols(chance, first) + random_symbols(chance, rest)
        case Group(_, _, branches):
            return random_symbols(chance, chance.choice(branches))
        case Repeat(sign, unit):
            times = chance.choice({"*": (0, 1, 2, 3), "+": (1, 1, 2, 3), "?": (0, 1)}[sign])
            return [symbol for _ in range(times) for symbol in random_symbols(chance, unit)]
    raise ValueError(node)


def random_line(cases, place, length):
    """Stretches that the pattern reads, with a few other symbols between them, up to this length."""
    tree, line = cases.pattern_at(place).tree, []
    while len(line) < length:
        line += random_symbols(cases.chance, tree)
        if cases.chance.random() < 0.5 or not line:
            line.append(cases.chance.choice((97, 98, 99) if cases.answerer.notation == "letters" else (65_536, 131_072, 7)))
    return bytes(line[:length]) if cases.answerer.notation == "letters" else tuple(line[:length])


def strings(signs, lengths):
    for length in lengths:
        for one in itertools.product(signs, repeat=length):
            yield "".join(one).encode()


def edited(chance, text, signs):
    """The text with one byte dropped, doubled, changed, added, or swapped with the next."""
    at = chance.randrange(len(text))
    other = bytes([chance.choice(signs)])
    before, byte, after = text[:at], text[at : at + 1], text[at + 1 :]
    return chance.choice(
        (before + after, before + byte + byte + after, before + other + after, before + other + byte + after,
         before + after[:1] + byte + after[1:], before)
    )


def lines_of(symbols, lengths):
    return [bytes(line) for length in lengths for line in itertools.product(symbols, repeat=length)]


def is_lawful(text, notation):
    try:
        read_pattern(text, NOTATIONS[notation])
    except Refused:
        return False
    return True


def many_tests(chance, tests, notation, count):
    """A lawful pattern of so many tests: signs are put into a row of them, each where the pattern stays lawful."""
    text = b"".join(chance.choices(tests, k=count))
    for _ in range(chance.choice((10, 20, 60))):
        left, right = sorted(chance.choices(range(len(text) + 1), k=2))
        before, inside, after = text[:left], text[left:right], text[right:]
        shape = chance.choice((b"(%s)", b"(%s)", b"{%s}", b"{%s}", b"%s*", b"%s+", b"%s?", b"%s?", b"%s|"))
        changed = before + shape.replace(b"%s", inside) + after
        if is_lawful(changed, notation):
            text = changed
    return text


def text_reading(chance, line):
    """The bytes of a pattern that reads this line, with tags around pieces of it and repeats that may take more or nothing."""
    if len(line) == 1:
        text = chance.choice((line, line, line, b".", b"[a-b]", line + b"?", line + b"*", line + line + b"?"))
    else:
        cut = chance.randint(1, len(line) - 1)
        text = text_reading(chance, line[:cut]) + text_reading(chance, line[cut:])
    shape = chance.choice((b"%s", b"%s", b"{%s}", b"{%s}", b"(%s)", b"{%s}?", b"(%s|%s)", b"{%s|b}", b"(a*|%s)"))
    return shape.replace(b"%s", text)
