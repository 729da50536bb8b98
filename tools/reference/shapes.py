"""All lawful patterns of a length, generated from the grammar."""

import itertools
from dataclasses import dataclass


@dataclass(frozen=True)
class Shapes:
    """All patterns over some tests by their length, as shapes: a test is its letter, a repeated unit is a pair of the
    sign and the unit, a group is its opening sign with its branches, which are rows of units."""

    tests: str
    repeats: str = "*+?"

    def __post_init__(self):
        object.__setattr__(self, "known", {})

    def of(self, kind, length):
        if (kind, length) not in self.known:
            self.known[kind, length] = list(getattr(self, kind)(length))
        return self.known[kind, length]

    def units(self, length):
        if length == 1:
            yield from self.tests
        if length >= 2:
            yield from itertools.product(self.repeats, self.of("units", length - 1))
        if length >= 3:
            yield from itertools.product("({", self.of("groups", length - 2))

    def branches(self, length):
        yield from ((unit,) for unit in self.of("units", length))
        for first in range(1, length):
            for unit, rest in itertools.product(self.of("units", first), self.of("branches", length - first)):
                yield (unit, *rest)

    def groups(self, length):
        yield from ((branch,) for branch in self.of("branches", length))
        for first in range(1, length - 1):
            for branch, rest in itertools.product(self.of("branches", first), self.of("groups", length - first - 1)):
                yield (branch, *rest)


def printed(group):
    return "|".join("".join(map(printed_unit, branch)) for branch in group)


def printed_unit(unit):
    if len(unit) == 1:
        return unit
    sign, inner = unit
    if sign in "({":
        return sign + printed(inner) + {"(": ")", "{": "}"}[sign]
    return printed_unit(inner) + sign
