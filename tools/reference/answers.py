"""Answers cases, one line each, and keeps what a case leaves for those after it."""

from reference.cues import RecordReader, read_record, record_of
from reference.patterns import MOST_TAGS, Refused, read_letters, read_words
from reference.shelf import LEAST_WORK, Shelf, part_of_line

NOTATIONS = {"letters": read_letters, "words": read_words}


# ---- The orders of the program `mark` ------------------------------------------------------------------------------


class Marker:
    """A shelf of letters that takes orders, and what is printed in answer."""

    def __init__(self):
        self.shelf = Shelf(read_letters)

    def answer(self, order):
        try:
            return self.carry_out(order)
        except Refused as refused:
            return f"{refused}\n"

    def carry_out(self, order):
        sign, place, space, rest = order[:1], order[1:2], order[2:3], order[3:]
        if len(order) > 200 or not place.isdigit() or (sign, space) not in ((b"+", b" "), (b"-", b""), (b"?", b" ")):
            raise Refused(19)
        if sign == b"+":
            pattern = self.shelf.file(int(place), rest)
            return f"ok {pattern.tests} {pattern.tags}\n"
        if sign == b"-":
            self.shelf.withdraw(int(place))
            return "ok\n"
        return self.report(int(place), rest)

    def report(self, place, line):
        left, right = self.shelf.longest(place, line)
        marks = "".join("#" if mark else "." for mark in self.shelf.mark(place, len(line), line))
        _, sheet = self.shelf.split(place, "extent", left, right, right - left, LEAST_WORK, line)
        tags = self.shelf.standing(place).tags
        parts = "".join(f" {tag}:{shown_part(sheet[tag - 1])}" for tag in range(1, tags + 1))
        return f"longest {left} {right}\nmarks{marks and ' ' + marks}\nparts{parts}\n"


# ---- How a case is answered ----------------------------------------------------------------------------------------


def shown(numbers):
    """Bytes in hexadecimal."""
    return bytes(numbers).hex() or "-"


def shown_part(part):
    return "none" if part is None else f"{part[0]}-{part[1]}"


def shown_sheet(sheet):
    return ",".join(map(shown_part, sheet))


def unshown(text):
    return b"" if text == "-" else bytes.fromhex(text)


def words_shown(codes):
    return "".join(f"{code:08x}" for code in codes) or "-"


def over(answer, room, filler):
    """A buffer of so much room that held the filler, with the answer at its front."""
    return list(answer) + [filler] * (room - len(answer))


class Answerer:
    """Answers cases one after another, by what the cases before have left."""

    def __init__(self):
        self.new_shelf("letters")
        self.marker = Marker()

    def answer(self, case):
        name, *fields = case.split(" ")
        try:
            return getattr(self, f"do_{name}")(*fields)
        except Refused as refused:
            return str(refused)

    def line(self, text):
        """A line of the notation in use, of bytes or of word codes."""
        if text == "-" or self.notation == "letters":
            return unshown(text)
        return tuple(int(text[at : at + 8], 16) for at in range(0, len(text), 8))

    def new_shelf(self, notation):
        self.notation, self.shelf, self.sheet = notation, Shelf(NOTATIONS[notation]), [None] * MOST_TAGS
        return "new"

    def do_letters(self):
        return self.new_shelf("letters")

    def do_words(self):
        return self.new_shelf("words")

    def do_file(self, place, text):
        pattern = self.shelf.file(int(place), unshown(text))
        return f"ok {pattern.tests} {pattern.tags}"

    def do_withdraw(self, place):
        self.shelf.withdraw(int(place))
        return "ok"

    def do_longest(self, place, line):
        left, right = self.shelf.longest(int(place), self.line(line))
        return f"ok {left} {right}"

    def do_mark(self, place, room, line):
        marks = []
        try:
            marks = self.shelf.mark(int(place), int(room), self.line(line))
            said = f"ok {sum(marks)}"
        except Refused as refused:
            said = str(refused)
        return f"{said} {shown(over(marks, int(room), 7))}"

    def do_split(self, place, ranking, left, right, room, work, line):
        said, trail = "ok", ()
        try:
            left, right, line = int(left), int(right), self.line(line)
            trail, self.sheet = self.shelf.split(int(place), ranking, left, right, int(room), int(work), line)
        except Refused as refused:
            said = str(refused)
        buffer = ",".join(map(str, over(trail, int(room), 99))) or "-"
        return f"{said} {buffer} {shown_sheet(self.sheet)}"

    def do_fill(self, tag, *ends):
        known = 1 <= int(tag) <= MOST_TAGS
        if known:
            self.sheet[int(tag) - 1] = None if ends == ("none",) else (int(ends[0]), int(ends[1]))
        return f"{'ok' if known else 'no'} {shown_sheet(self.sheet)}"

    def do_part(self, tag, line):
        part = part_of_line(self.sheet, int(tag), self.line(line))
        if part is None:
            return "none"
        return f"ok {shown(part) if self.notation == 'letters' else words_shown(part)}"

    def do_write(self, symbols, room, marks):
        record = b""
        try:
            record = record_of(int(symbols), int(room), unshown(marks), self.sheet)
            said = f"ok {len(record)}"
        except Refused as refused:
            said = str(refused)
        return f"{said} {shown(over(record, int(room), 165))}"

    def do_read(self, symbols, room, record):
        said, marks = "ok", []
        try:
            marks, self.sheet = read_record(int(symbols), int(room), unshown(record))
        except Refused as refused:
            said = str(refused)
        return f"{said} {shown(over(marks, int(room), 7))} {shown_sheet(self.sheet)}"

    def do_cues(self, symbols, record):
        said = ""
        try:
            for item in RecordReader(int(symbols), unshown(record)).items():
                said += " ".join(map(str, item)) + ";"
        except Refused as refused:
            return f"{said}fault {refused.number} at {refused.offset}"
        return said + "end"

    def do_order(self, order):
        return shown(self.marker.answer(unshown(order)).encode())

    def do_marker(self):
        self.marker = Marker()
        return "new"
