"""What a pattern's tree reads of a line, with the trails of each stretch, and the shelf that answers by it."""

from reference.patterns import MOST_TAGS, Group, Join, Refused, Repeat, Test, admits, read_pattern

MOST_SYMBOLS, LEAST_WORK = 160, 128
MOST_TRAILS = 40_000  # what is listed for one call; a case that needs more is left out


# ---- A tree laid on a line: which stretches read, and the trails of each -------------------------------------------


class TooManyTrails(Exception):
    """There are more trails than are listed here."""


def union(sets):
    """Of sets of ends; a set is kept as the bits of a number."""
    whole = 0
    for one in sets:
        whole |= one
    return whole


def ends_in(bits):
    while bits:
        lowest = bits & -bits
        yield lowest.bit_length() - 1
        bits ^= lowest


class Laid:
    """A pattern laid on a line of symbols."""

    def __init__(self, pattern, symbols):
        self.pattern, self.symbols = pattern, symbols
        self.known_ends, self.known_trails, self.listed = {}, {}, 0

    def ends(self, node):
        """For each left end, the set of the right ends to which the node reads."""
        if id(node) not in self.known_ends:
            self.known_ends[id(node)] = self.find_ends(node)
        return self.known_ends[id(node)]

    def find_ends(self, node):
        lefts = range(len(self.symbols) + 1)
        match node:
            case Test(_, form):
                return [1 << left + 1 if admits(form, symbol) else 0 for left, symbol in enumerate(self.symbols)] + [0]
            case Join(first, rest):
                first, rest = self.ends(first), self.ends(rest)
                return [union(rest[middle] for middle in ends_in(first[left])) for left in lefts]
            case Group(_, _, branches):
                return [union(self.ends(branch)[left] for branch in branches) for left in lefts]
            case Repeat(sign, unit):
                once = self.ends(unit)
                if sign == "?":
                    return [1 << left | once[left] for left in lefts]
                many = [1 << left for left in lefts]
                for left in reversed(lefts):
                    many[left] |= union(many[middle] for middle in ends_in(once[left]) if middle > left)
                if sign == "*":
                    return many
                return [union(many[middle] for middle in ends_in(once[left])) for left in lefts]
        raise ValueError(node)

    def trails(self, node, left, right):
        """All trails by which the node reads the stretch, as tuples of test numbers."""
        key = id(node), left, right
        if key not in self.known_trails:
            reads = self.ends(node)[left] >> right & 1
            self.known_trails[key] = self.find_trails(node, left, right) if reads else set()
            self.count(len(self.known_trails[key]))
        return self.known_trails[key]

    def find_trails(self, node, left, right):
        match node:
            case Test(number, _):
                return {(number,)}
            case Join(first, rest):
                return self.joined(first, rest, left, range(left, right + 1), right)
            case Group(_, _, branches):
                return set().union(*(self.trails(branch, left, right) for branch in branches))
            case Repeat(_, _) if left == right:
                return {()}
            case Repeat("?", unit):
                return self.trails(unit, left, right)
            case Repeat(_, unit):  # a first time that takes symbols, and then the rest; times that take none add nothing
                once = self.trails(unit, left, right)
                return once | self.joined(unit, node, left, range(left + 1, right), right)
        raise ValueError(node)

    def joined(self, first, rest, left, middles, right):
        """Trails of the first up to one of the middles, each with each trail of the rest from there."""
        found = set()
        for middle in middles:
            if self.ends(first)[left] >> middle & 1 and self.ends(rest)[middle] >> right & 1:
                begun, ended = self.trails(first, left, middle), self.trails(rest, middle, right)
                self.count(len(begun) * len(ended))
                found |= {one + other for one in begun for other in ended}
        return found

    def count(self, more):
        self.listed += more
        if self.listed > MOST_TRAILS:
            self.known_trails.clear()  # so that no later case hangs on this one, which is left out
            raise TooManyTrails

    def stretches(self):
        for left, rights in enumerate(self.ends(self.pattern.tree)):
            for right in ends_in(rights):
                yield left, right

    def longest(self):
        found = list(self.stretches())
        if not found:
            raise Refused(15)
        return max(found, key=lambda ends: (ends[1] - ends[0], -ends[0]))

    def marks(self):
        covered = set()
        for left, right in self.stretches():
            covered.update(range(left, right))
        return [int(at in covered) for at in range(len(self.symbols))]

    def all_trails(self, left, right):
        self.listed = 0
        return self.trails(self.pattern.tree, left, right)

    def best_trail(self, ranking, left, right):
        """The highest rank, and of equals the smaller test at the last symbol at which two trails differ."""
        found = self.all_trails(left, right)
        if not found:
            raise Refused(15)
        return max(found, key=lambda trail: (ranking(self.tags_along(trail)), [-test for test in reversed(trail)]))

    def tags_along(self, trail):
        return [self.pattern.around[test] for test in trail]

    def parts(self, trail, left):
        """The eight entries of a sheet: the part of each tag, or None."""
        sheet = []
        for tag in range(1, MOST_TAGS + 1):
            inside = [left + at for at, tags in enumerate(self.tags_along(trail)) if tag in tags]
            sheet.append((inside[0], inside[-1] + 1) if inside else None)
        return sheet


def by_extent(tags_along):
    return sum(len(tags) for tags in tags_along)


def by_tag_order(tags_along):
    return [sum(tag in tags for tags in tags_along) for tag in range(1, MOST_TAGS + 1)]


RANKINGS = {"extent": by_extent, "order": by_tag_order}


# ---- The shelf -----------------------------------------------------------------------------------------------------


class Shelf:
    """Ten places over one notation. Each call checks in the order that its lines have."""

    def __init__(self, read_test):
        self.read_test, self.places = read_test, [None] * 10
        self.last = None  # the pattern and the line of the last report, with what was worked out then

    def file(self, place, text):
        if place > 9:
            raise Refused(1)
        if self.places[place] is not None:
            raise Refused(2)
        self.places[place] = read_pattern(text, self.read_test)
        return self.places[place]

    def standing(self, place):
        if place > 9:
            raise Refused(1)
        if self.places[place] is None:
            raise Refused(3)
        return self.places[place]

    def withdraw(self, place):
        self.standing(place)
        self.places[place] = None

    def laid(self, place, line):
        pattern = self.standing(place)
        if len(line) > MOST_SYMBOLS:
            raise Refused(12)
        if self.last is None or self.last.pattern is not pattern or self.last.symbols != line:
            self.last = Laid(pattern, line)
        return self.last

    def longest(self, place, line):
        return self.laid(place, line).longest()

    def mark(self, place, room, line):
        laid = self.laid(place, line)
        if room < len(line):
            raise Refused(13)
        return laid.marks()

    def split(self, place, ranking, left, right, room, work, line):
        laid = self.laid(place, line)
        if left > right or right > len(line):
            raise Refused(14)
        if room < right - left or work < LEAST_WORK:
            raise Refused(13)
        trail = laid.best_trail(RANKINGS[ranking], left, right)
        return trail, laid.parts(trail, left)


def part_of_line(sheet, tag, line):
    """The tag's own symbols, or None."""
    if not 1 <= tag <= MOST_TAGS or sheet[tag - 1] is None:
        return None
    left, right = sheet[tag - 1]
    if left > right or right > len(line):
        raise Refused(14)
    return line[left:right]
