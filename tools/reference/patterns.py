"""Reading a pattern: its tests by one of two notations, and its signs, from left to right into a syntax tree."""

from dataclasses import dataclass

SIGNS = "|*+?(){}"
MOST_BYTES, MOST_TESTS, MOST_TAGS, MOST_OPEN = 120, 64, 8, 8


class Refused(Exception):
    """A call is turned down: the number, and where there is one the offset and the cause."""

    def __init__(self, number, offset=None, cause=None):
        super().__init__(number)
        self.number, self.offset, self.cause = number, offset, cause

    def __str__(self):
        at = "" if self.offset is None else f" at {self.offset}"
        return f"refused {self.number}{at}" + ("" if self.cause is None else f" cause {self.cause}")


# ---- Notations: how a test is written, and which symbols it admits -------------------------------------------------

CUT_SHORT, OUT_OF_RANGE, UNKNOWN_FORM = 1, 2, 3


class BadForm(Exception):
    """The bytes are no test; `cause` says why."""

    def __init__(self, cause):
        super().__init__(cause)
        self.cause = cause


def byte_at(text, at):
    if at >= len(text):
        raise BadForm(CUT_SHORT)
    return text[at]


def want(text, at, sign):
    if byte_at(text, at) != ord(sign):
        raise BadForm(UNKNOWN_FORM)


def read_letters(text):
    """The test of letters that these bytes begin with, and how many bytes it takes."""
    first = text[0]
    if first == ord("."):
        return ("within", 0, 255), 1
    if first == ord("\\"):
        return ("within", byte_at(text, 1), byte_at(text, 1)), 2
    if first != ord("["):
        return ("within", first, first), 1
    name, at = ("outside", 2) if text[1:2] == b"^" else ("within", 1)
    low = byte_at(text, at)
    want(text, at + 1, "-")
    high = byte_at(text, at + 2)
    want(text, at + 3, "]")
    if low > high:
        raise BadForm(OUT_OF_RANGE)
    return (name, low, high), at + 4


def read_words(text):
    """The test of words that these bytes begin with, and how many bytes it takes."""
    forms = {ord("#"): ("kind", 3, 255), ord("@"): ("entry", 5, 65_535)}
    if text[0] == ord("."):
        return ("every word",), 1
    if text[0] not in forms:
        raise BadForm(UNKNOWN_FORM)
    name, most_digits, most = forms[text[0]]
    digits = ""
    for at in range(1, len(text)):
        byte = chr(text[at])
        if byte == ";":
            if digits == "":
                raise BadForm(UNKNOWN_FORM)
            if int(digits) > most:
                raise BadForm(OUT_OF_RANGE)
            return (name, int(digits)), at + 1
        if byte not in "0123456789":
            raise BadForm(UNKNOWN_FORM)
        if len(digits) == most_digits:
            raise BadForm(OUT_OF_RANGE)
        digits += byte
    raise BadForm(CUT_SHORT)


def admits(form, symbol):
    match form:
        case ("within", low, high):
            return low <= symbol <= high
        case ("outside", low, high):
            return not low <= symbol <= high
        case ("kind", kind):
            return symbol // 65_536 == kind
        case ("entry", entry):
            return symbol % 65_536 == entry
        case ("every word",):
            return True
    raise ValueError(form)


# ---- Reading a pattern into a tree ---------------------------------------------------------------------------------


@dataclass(frozen=True)
class Test:
    number: int
    form: tuple


@dataclass(frozen=True)
class Join:
    """A unit, and what follows it in its branch: a unit or again a Join."""

    first: object
    rest: object


@dataclass(frozen=True)
class Repeat:
    sign: str
    unit: object


@dataclass(frozen=True)
class Group:
    """Branches side by side. The sign is `(` or `{`, or none for the whole pattern; the tag is 0 where it is none."""

    sign: str
    tag: int
    branches: tuple


def parts_of(node):
    """What stands right inside a node."""
    match node:
        case Join(first, rest):
            return (first, rest)
        case Repeat(_, unit):
            return (unit,)
        case Group(_, _, branches):
            return branches
    return ()


def holds_tag(node):
    return getattr(node, "tag", 0) != 0 or any(holds_tag(part) for part in parts_of(node))


def tests_with_tags(node, around=()):
    """Each test of a tree, as it is written, with the tags around it."""
    if isinstance(node, Test):
        yield node, around
    inner = around + (node.tag,) if getattr(node, "tag", 0) else around
    for part in parts_of(node):
        yield from tests_with_tags(part, inner)


class Pattern:
    """A lawful pattern: its tree, how many tests and tags it has, and the tags around each test."""

    def __init__(self, tree, tags):
        self.tree, self.tags = tree, tags
        self.around = {test.number: around for test, around in tests_with_tags(tree)}
        self.tests = len(self.around)


class OpenGroup:
    """A group whose closing sign is still to come: the branches that ended, and the units of the present one."""

    def __init__(self, sign, tag):
        self.sign, self.tag, self.branches, self.units = sign, tag, [], []

    def end_branch(self):
        *before, branch = self.units
        for unit in reversed(before):
            branch = Join(unit, branch)
        self.branches.append(branch)
        self.units = []

    def closed(self):
        self.end_branch()
        return Group(self.sign, self.tag, tuple(self.branches))


class PatternReader:
    """Goes through the bytes once, from left to right, and stops at the first thing wrong."""

    def __init__(self, text, read_test):
        self.text, self.read_test = text, read_test
        self.open = [OpenGroup("", 0)]  # the whole pattern is the outermost
        self.tests = self.tags = 0
        self.unit_wanted = True

    def pattern(self):
        if len(self.text) > MOST_BYTES:
            raise Refused(4)
        at = 0
        while at < len(self.text):
            sign = chr(self.text[at])
            at += self.test(at) if sign not in SIGNS else self.sign(sign, at)
        if self.unit_wanted:
            raise Refused(6, at)
        if len(self.open) > 1:
            raise Refused(7, at)
        return Pattern(self.open[0].closed(), self.tags)

    def test(self, at):
        try:
            form, used = self.read_test(self.text[at:])
        except BadForm as bad:
            raise Refused(5, at, bad.cause) from None
        if self.tests == MOST_TESTS:
            raise Refused(9, at)
        self.tests += 1
        self.unit(Test(self.tests, form))
        return used

    def sign(self, sign, at):
        if sign in "({":
            self.begin_group(sign, at)
        elif self.unit_wanted:
            raise Refused(6, at)
        elif sign in "*+?":
            self.repeat(sign, at)
        elif sign == "|":
            self.open[-1].end_branch()
            self.unit_wanted = True
        else:
            self.close_group(sign, at)
        return 1

    def unit(self, node):
        self.open[-1].units.append(node)
        self.unit_wanted = False

    def begin_group(self, sign, at):
        if len(self.open) - 1 == MOST_OPEN:
            raise Refused(8, at)
        if sign == "{" and self.tags == MOST_TAGS:
            raise Refused(10, at)
        self.tags += sign == "{"
        self.open.append(OpenGroup(sign, self.tags if sign == "{" else 0))
        self.unit_wanted = True

    def close_group(self, sign, at):
        if self.open[-1].sign != {")": "(", "}": "{"}[sign]:
            raise Refused(7, at)
        self.unit(self.open.pop().closed())

    def repeat(self, sign, at):
        unit = self.open[-1].units.pop()
        if sign in "*+" and holds_tag(unit):
            raise Refused(11, at)
        self.unit(Repeat(sign, unit))


def read_pattern(text, read_test):
    return PatternReader(text, read_test).pattern()
