"""The lines of the program `desk`, answered by the second planner; docs/DESK.md says what they are."""

import os
import re
from pathlib import Path

import drawing
import planner
from writing import book_start, written

BUFFERS = [field.replace("_", "-") for field in planner.Labels._fields]

# The most numbers lent of a label buffer or of the route buffer, and the most in a fare table.
ROOM = 4097
MOST_NUMBERS = 65600
LONGEST_BOOK = 65536
LONGEST_LINE = 262144
TWO_BYTES, FOUR_BYTES = 65535, 4294967295

BLANKS = " \t\r"
BETWEEN_WORDS = re.compile(f"[{BLANKS}]+")

# A remark and an expected answer begin with these where a word can begin.
REMARK, SIGN = (re.compile(f"(?<![^{BLANKS}]){letter}") for letter in "#=")

# The questions that can be refused, and how a refusal is said.
REFUSED = "check", "cost", "search", "route", "fare", "edit"
REFUSAL = re.compile(r"[1-9][0-9]* [0-9]+")

# The questions whose answer begins with 0, cost, ride, wait, walk and extra where it is neither a refusal nor words.
SPLIT = "cost", "route", "print", "print-fare"

FILE_QUESTIONS = "open", "save", "same", "print", "print-fare"
BUFFER_QUESTIONS = "alter", "lend"

# For each question but those of a file the fewest numbers, the most, and how large one may be.
NUMBERS = {
    "new": (1, 1, LONGEST_BOOK),
    "length": (1, 1, LONGEST_BOOK),
    "number": (2, MOST_NUMBERS, TWO_BYTES),
    "alter": (2, 2, FOUR_BYTES),
    "lend": (0, 1, ROOM),
    "fares": (3, MOST_NUMBERS, FOUR_BYTES),
    "turn": (1, 1, TWO_BYTES),
    "link": (1, 1, TWO_BYTES),
    "turns": (0, 0, TWO_BYTES),
    "links": (0, 0, TWO_BYTES),
    "room": (0, 0, TWO_BYTES),
    "check": (0, 0, TWO_BYTES),
    "cost": (1, MOST_NUMBERS, TWO_BYTES),
    "search": (1, 1, TWO_BYTES),
    "route": (2, 3, TWO_BYTES),
    "fare": (2, 3, TWO_BYTES),
    "edit": (3, 3, TWO_BYTES),
}


class Fault(Exception):
    """A line that cannot be read or done, in the desk's words."""


def fault_if(found, words):
    if found:
        raise Fault(words)


def kept(labels):
    """Labels are asked for again and again, so each book's are worked out once for each origin."""
    known = {}

    def known_labels(tables, origin):
        # all that the book's bytes say, so that no two books share their labels
        key = origin, tables.counts, *(tuple(table) for table in tables[:4])
        if key not in known:
            known[key] = labels(tables, origin)
        return known[key]
    return known_labels


planner.labels = kept(planner.labels)


# Words and numbers

def first_word(line):
    """And the rest as it stands: the name of a file may have blanks within it."""
    word, *rest = BETWEEN_WORDS.split(line.strip(BLANKS), maxsplit=1)
    return word, rest[0] if rest else ""


def words_of(line):
    return [word for word in BETWEEN_WORDS.split(line) if word]


def number_of(word, limit):
    if word == "closed":
        word = str(planner.CLOSED)
    fault_if(not (word.isascii() and word.isdecimal()), "not a number")
    number = int(word.lstrip("0")[:20] or 0)  # a number of more digits is above every limit too
    fault_if(number > limit, f"number above {limit}")
    return number


def numbers_of(words, fewest, most, limit):
    numbers = [number_of(word, limit) for word in words[:MOST_NUMBERS + 1]]
    fault_if(len(numbers) < fewest, "too few numbers")
    fault_if(len(numbers) > most, "too many numbers")
    return numbers


def said(number, place, *figures):
    """A refusal has no other figures; its meaning in words is left out."""
    return [number, place] if number else [number, *figures]


def too_long(line):
    return len(line.encode(errors="surrogateescape")) > LONGEST_LINE


def table_of(buffer):
    return buffer.split("-")[0] + "s"


class Desk:
    """What lies on the desk; a question's function has its name and gives the words of the answer, if there is one."""

    def __init__(self, folder=".", files=None):
        """Files that are given here need not be in the folder."""
        self.folder = Path(folder)
        self.saved = {self.folder / name: content for name, content in (files or {}).items()}
        self.route_buffer, self.room_lent = [0] * ROOM, ROOM
        self.terms, self.table = [0, 0, 0], []
        self.put(b"")

    def put(self, book):
        """Another book; the route buffer and the fares stay."""
        self.book = bytearray(book)
        self.labels = {buffer: [0] * ROOM for buffer in BUFFERS}
        self.lengths = dict.fromkeys(BUFFERS)

    def answer(self, line):
        try:
            return self.asked(line)
        except Fault as fault:
            return str(fault)

    def asked(self, line):
        """The answer; what cannot be read or done is raised."""
        fault_if(too_long(line), "line too long")
        question, rest = first_word(line)
        words = words_of(rest)
        if question in FILE_QUESTIONS:
            given = [rest]
        elif question in BUFFER_QUESTIONS:
            buffer, *words = words or [""]
            fault_if(buffer not in BUFFERS, "no such buffer")
            given = [buffer, *numbers_of(words, *NUMBERS[question])]
        else:
            fault_if(question not in NUMBERS, "no such question")
            given = numbers_of(words, *NUMBERS[question])
        answer = getattr(self, question.replace("-", "_"))(*given)
        return " ".join(map(str, answer or []))

    # Files

    def content(self, name):
        path = self.folder / name
        try:
            return self.saved[path] if path in self.saved else path.read_bytes()
        except (OSError, ValueError):  # the latter for a name that no file can have
            raise Fault("file cannot be opened") from None

    def open(self, name):
        book = self.content(name)
        fault_if(len(book) > LONGEST_BOOK, f"file longer than {LONGEST_BOOK}")
        self.put(book)

    def save(self, name):
        """Nothing is written: the bytes are kept for the questions that name this file."""
        path = self.folder / name
        fault_if(os.path.isdir(path) or not os.path.isdir(path.parent), "file cannot be written")
        self.saved[path] = bytes(self.book)

    def same(self, name):
        return ["yes" if self.content(name) == self.book else "no"]

    def print(self, name):
        return [planner.sheet(self.content(name)).strip()]

    def print_fare(self, name):
        return [" / ".join(planner.fare_sheet(self.content(name)).splitlines())]

    # The book

    def new(self, length):
        self.put(book_start().ljust(length, b"\0")[:length])

    def length(self, length):
        self.book = self.book[:length].ljust(length, b"\0")

    def number(self, at, *values):
        end = at + 2 * len(values)
        fault_if(end > len(self.book), "past the end of the book")
        self.book[at:end] = written(values)

    def count(self, name):
        """As the header says, which a damaged one does past the limit; none where the book ends before it."""
        return drawing.number_in(self.book, planner.COUNTS_OFFSET + 2 * planner.Counts._fields.index(name))

    def check(self):
        number, place, counts = planner.check(self.book)
        return said(number, place, *counts or [])

    def cost(self, origin, *walk):
        outcome, *figures = planner.cost_of_walk(self.book, origin, walk)
        return {"permitted": [planner.DONE, *figures], "refused": figures}.get(outcome, [outcome])

    # The labels

    def entries(self, table):
        return min(self.count(table), getattr(planner.LIMITS, table))

    def lend(self, buffer, length=None):
        """Without a length as many as the book counts."""
        self.lengths[buffer] = length

    def lent_length(self, buffer):
        length = self.lengths[buffer]
        return self.entries(table_of(buffer)) if length is None else length

    def lent(self):
        return planner.Labels(*(figures[:self.lent_length(buffer)] for buffer, figures in self.labels.items()))

    def alter(self, buffer, at, figure):
        fault_if(at >= self.lent_length(buffer), "no such entry")
        fault_if(figure > TWO_BYTES and not buffer.endswith("cost"), f"number above {TWO_BYTES}")
        self.labels[buffer][at] = figure

    def entry(self, table, number):
        fault_if(number >= self.entries(table), "no such entry")
        return [figures[number] for buffer, figures in self.labels.items() if table_of(buffer) == table]

    def turn(self, number):
        return self.entry("turns", number)

    def link(self, number):
        return self.entry("links", number)

    def turns(self):
        return [figure for number in range(self.entries("turns")) for figure in self.turn(number)]

    def links(self):
        return [figure for number in range(self.entries("links")) for figure in self.link(number)]

    def labelled(self, question, *numbers):
        """What the planner writes in the labels that are lent to it stays on the desk."""
        lent = self.lent()
        answer = question(self.book, *numbers, lent)
        for figures, lent_figures in zip(self.labels.values(), lent):
            figures[:len(lent_figures)] = lent_figures
        return said(*answer)

    def search(self, origin):
        return self.labelled(planner.search, origin)

    def edit(self, origin, turn, walk):
        return self.labelled(planner.edit, origin, turn, walk)

    # Routes and fares

    def room(self):
        return self.route_buffer[:self.room_lent]

    def routed(self, question, origin, destination, room, *fares):
        fault_if(room > ROOM, f"room above {ROOM}")
        self.room_lent = room
        links = self.room()
        number, place, cost, count, *won = question(self.book, origin, destination, self.lent(), links, *fares)
        self.route_buffer[:room] = links
        return said(number, place, *won, cost, count, *links[:count])

    def route(self, origin, destination, room=ROOM):
        """The cost is the labels'; the four figures after it are those of the walk that was found."""
        number, *figures = self.routed(planner.route, origin, destination, room)
        if number != planner.DONE:
            return [number, *figures]
        cost, count, *links = figures
        _, _, *split = planner.cost_of_walk(self.book, origin, links)
        return [number, cost, *split, count, *links]

    def fares(self, *figures):
        fault_if(len(figures) - 3 > ROOM, f"fares more than {ROOM}")
        self.terms, self.table = figures[:3], figures[3:]

    def fare(self, origin, destination, room=ROOM):
        return self.routed(planner.fare, origin, destination, room, self.table, *self.terms)


# Scripts

def parted(line):
    """Question and expected answer, which is None where no sign stands; a line that is too long is not read."""
    if too_long(line):
        return line, None
    text, *_ = REMARK.split(line, maxsplit=1)
    question, *expected = SIGN.split(text, maxsplit=1)
    return question.strip(BLANKS), expected[0].strip(BLANKS) if expected else None


def lines_of(script):
    """Place, question and expected answer, but for blank lines and those that are a remark."""
    lines = enumerate(script.decode(errors="surrogateescape").split("\n"), start=1)
    return [line for line in ((place, *parted(text)) for place, text in lines) if line[1:] != ("", None)]


def tally(name, right, wrong):
    return f"{name}: {right} as expected, {wrong} not"


def fault_unless_costs_add_up(name, script):
    """In a route the cost is the labels' and the four figures after it are the walk's, so that they could differ."""
    for place, question, expected in lines_of(script):
        if first_word(question)[0] in SPLIT and (expected or "").startswith(f"{planner.DONE} "):
            cost, *split = map(int, expected.split()[1:6])
            words = f"{name}, line {place}: ride, wait, walk and extra do not add up to the cost"
            fault_if(len(split) != 4 or sum(split) != cost, words)


def answers_expected(script):
    return sum(expected is not None for _, _, expected in lines_of(script))


def as_expected(question, answer, expected):
    """Words may stand behind the figures of a refusal."""
    refused = first_word(question)[0] in REFUSED and REFUSAL.fullmatch(answer)
    return answer == expected or bool(refused and re.match(f"{answer} [a-z]", expected))


def report(desk, question, expected):
    """None where the answer is as expected, or where none is expected and the line can be done."""
    if expected is None:
        try:
            desk.asked(question)
            return None
        except Fault as fault:
            return str(fault)
    answer = desk.answer(question)
    return None if as_expected(question, answer, expected) else f"{question} = {answer}, expected {expected}"


def held(path):
    """A script held against the second planner: how much is as expected, and reports of what is not."""
    desk, right, reports = Desk(path.parent), 0, []
    for place, question, expected in lines_of(path.read_bytes()):
        found = report(desk, question, expected)
        if found:
            reports.append(f"{path.name}, line {place}: {found}")
        elif expected is not None:
            right += 1
    return right, reports
