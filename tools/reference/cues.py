"""Cue records: written from marks and a sheet, and read number by number."""

import itertools

from reference.patterns import MOST_TAGS, Refused
from reference.shelf import MOST_SYMBOLS


def number_bytes(number):
    """Groups of seven bits, the lowest first, in as few bytes as there can be."""
    if number < 128:
        return bytes([number])
    return bytes([number % 128 + 128]) + number_bytes(number // 128)


def marked_runs(marks):
    """The gap before each longest run of marked symbols, and its length."""
    gap = 0
    for marked, run in itertools.groupby(marks, key=bool):
        length = len(list(run))
        if marked:
            yield gap, length
        gap = length


def record_of(symbols, room, marks, sheet):
    if symbols > MOST_SYMBOLS:
        raise Refused(12)
    if len(marks) < symbols:
        raise Refused(13)
    if any(part and not part[0] < part[1] <= symbols for part in sheet):
        raise Refused(14)
    runs = list(marked_runs(marks[:symbols]))
    parts = [(tag, *part) for tag, part in enumerate(sheet, 1) if part]
    numbers = [len(runs), *itertools.chain(*runs), len(parts)]
    for tag, left, right in parts:
        numbers += [tag, left, right - left]
    record = b"".join(map(number_bytes, numbers))
    if room < len(record):
        raise Refused(13)
    return record


class RecordReader:
    """Reads a record number by number; each number may break one rule, which is then told with its first byte."""

    def __init__(self, symbols, record):
        self.symbols, self.record, self.at = symbols, record, 0

    def number(self, lawful=lambda number: True):
        start, rest = self.at, self.record[self.at :]
        if len(rest) == 0 or (rest[0] >= 128 and len(rest) == 1):
            raise Refused(16, len(self.record))
        if rest[0] >= 128 and not 1 <= rest[1] <= 127:
            raise Refused(17, start)
        value, self.at = (rest[0], start + 1) if rest[0] < 128 else (rest[0] - 128 + 128 * rest[1], start + 2)
        if not lawful(value):
            raise Refused(18, start)
        return value

    def items(self):
        """The runs, then the parts, each with the offset of its first number, and with its ends in the line."""
        end = 0
        for index in range(self.number()):
            offset = self.at
            gap = self.number(lambda gap: (gap >= 1 or index == 0) and end + gap <= self.symbols)
            length = self.number(lambda length: length >= 1 and end + gap + length <= self.symbols)
            yield "run", offset, end + gap, end + gap + length
            end += gap + length
        last = 0
        for _ in range(self.number()):
            offset = self.at
            tag = self.number(lambda tag: last < tag <= MOST_TAGS)
            start = self.number(lambda start: start <= self.symbols)
            length = self.number(lambda length: length >= 1 and start + length <= self.symbols)
            last = tag
            yield "part", offset, tag, start, start + length
        if self.at < len(self.record):
            raise Refused(18, self.at)


def read_record(symbols, room, record):
    """The marks and the sheet of a record."""
    if symbols > MOST_SYMBOLS:
        raise Refused(12)
    if room < symbols:
        raise Refused(13)
    marks, sheet = [0] * symbols, [None] * MOST_TAGS
    for kind, _, *tag, left, right in RecordReader(symbols, record).items():
        if kind == "run":
            marks[left:right] = [1] * (right - left)
        else:
            sheet[tag[0] - 1] = left, right
    return marks, sheet
