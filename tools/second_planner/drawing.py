"""Books drawn from a seed, good and damaged, and what is asked of them; no rule of the planner is decided here."""

from collections import namedtuple

import writing
from planner import CLOSED, FORBIDDEN

SEED = 7

# More than the largest of these books takes.
BOOK_ROOM = 256

MOST_PAIRS = 12

# What is drawn, each of ten as often as the others: few nodes, so that many links join, and many figures of 0, so that many walks cost the same.
NODES_DRAWN = [1, 2, 2, 3, 3, 3, 3, 4, 4, 5]
LINKS_DRAWN = [0, 2, 3, 4, 5, 6, 6, 6, 6, 6]
HEADWAYS = [0, 0, 1, 1, 2, 3, 3, 3, 3, 4]  # mostly above 0, so that a boarding shows, and often the same for two lines
RIDES = [0, 0, 0, 0, 0, 0, 1, 1, 2, 2]
WALKS = [0, 0, 0, 0, 1, 1, 1, 2, 3, CLOSED]
EXTRAS = [0, 0, 1, 1, 2, 3, FORBIDDEN, FORBIDDEN, FORBIDDEN, FORBIDDEN]
TURNS_DRAWN = [5, 5, 5, 5, 5, 12, 12, 12, 12, 12]
NEW_WALKS = [0, 0, 1, 1, 2, 3600, 3601, 65534, CLOSED, CLOSED]

# Book A's shape has four nodes and four links: where the way on past node 2 is forbidden, the loop by node 1 repeats a link.
SHAPE = 4
SHAPED_ENDS = [(0, 1), (1, 2), (2, 3), (2, 1)]

# Bytes of the header and of an entry, where the damage and the questions look.
VERSION, NODES, LINES, LINKS, TURNS, PAIRS = 3, 5, 7, 9, 11, 13
COUNTS_AND_CARRY_OVER = 6
HEADER_BYTES, LINE_BYTES, LINK_BYTES, JOIN_BYTES = 17, 2, 8, 6

OTHER_MARK = 21581
ABOVE_LIMITS = 65534


class Generator:
    """Each state follows from the one before, and a draw is taken from its upper half."""

    STATES = 4294967296

    def __init__(self, seed):
        self.state = seed

    def drawn(self, choices):
        self.state = (self.state * 1664525 + 1013904223) % self.STATES
        return self.state // 65536 % choices % 65535 if choices else 0

    def one_of(self, things):
        return things[self.drawn(len(things))]


# The bytes past the length are kept, since damage may cut a book short.
Book = namedtuple("Book", "room length")

Questions = namedtuple("Questions", "origin turn walk other_origin")


def given(book):
    return bytes(book.room[: book.length])


def number_in(room, at):
    return room[at] + 256 * room[at + 1] if at + 1 < len(room) else 0


def with_number(book, at, value):
    room = bytearray(book.room)
    room[at : at + 2] = writing.written([value])
    return Book(bytes(room), book.length)


def table_place(room, number):
    """The first byte of the table whose bad entries give this number."""
    lines, links, turns = (number_in(room, at) for at in (LINES, LINKS, TURNS))
    past = {6: (0, 0, 0), 7: (lines, 0, 0), 8: (lines, links, 0), 9: (lines, links, turns)}[number]
    return HEADER_BYTES + LINE_BYTES * past[0] + LINK_BYTES * past[1] + JOIN_BYTES * past[2]


def in_room(text):
    return Book(text.ljust(BOOK_ROOM, b"\0"), len(text))


def another(generator, nodes, node):
    """A node other than this one."""
    other = generator.drawn(nodes - 1)
    return other if other < node else other + 1


def drawn_links(generator, shaped, nodes, lines):
    count = generator.one_of(LINKS_DRAWN)
    if shaped:
        count = max(count, SHAPE)
    links = []
    if nodes < 2:
        return links
    for link in range(count):
        # mostly from where the link before it ends
        kind = generator.drawn(4)
        start = generator.drawn(nodes)
        if link and kind:
            start = links[-1][1]
        ends = start, another(generator, nodes, start)
        if shaped and link < SHAPE:
            ends = SHAPED_ENDS[link]
        line = generator.drawn(lines)
        links.append((*ends, line, generator.one_of(RIDES)))
    return links


def drawn_turns(generator, shaped, links):
    """Two links that join, in ascending order, most of them kept, and all of them in book A's shape."""
    most = generator.one_of(TURNS_DRAWN)
    turns = []
    for first in range(len(links)):
        for second in range(len(links)):
            if links[first][1] != links[second][0] or most <= len(turns):
                continue
            if generator.drawn(6) == 0 and not shaped:
                continue
            turns.append((first, second, generator.one_of(WALKS)))
    return turns


def drawn_pairs(generator, turns):
    """Two turns that join, in ascending order, some of them listed."""
    pairs = []
    for first in range(len(turns)):
        for second in range(len(turns)):
            if turns[first][1] != turns[second][0] or MOST_PAIRS <= len(pairs):
                continue
            if generator.drawn(2) == 0:
                continue
            pairs.append((first, second, generator.one_of(EXTRAS)))
    return pairs


def good_book(generator):
    """Every third book has book A's shape."""
    shaped = generator.drawn(3) == 0
    nodes = generator.one_of(NODES_DRAWN)
    if shaped:
        nodes = max(nodes, SHAPE)
    lines = 1 + generator.drawn(3)
    carry_over = generator.drawn(3)
    headways = [generator.one_of(HEADWAYS) for _ in range(lines)]
    links = drawn_links(generator, shaped, nodes, lines)
    turns = drawn_turns(generator, shaped, links)
    pairs = drawn_pairs(generator, turns)
    return in_room(writing.book(nodes, headways, links, turns, pairs, carry_over))


def bad_entry(generator, book, number):
    """One of the first three fields of one entry."""
    entries = number_in(book.room, {6: LINES, 7: LINKS, 8: TURNS, 9: PAIRS}[number])
    entry = generator.drawn(entries)
    field = generator.drawn(3)
    if entries == 0:
        return book
    size = {6: LINE_BYTES, 7: LINK_BYTES, 8: JOIN_BYTES, 9: JOIN_BYTES}[number]
    if number == 6:
        field = 0
    at = table_place(book.room, number) + size * entry + 2 * field
    return with_number(book, at, ABOVE_LIMITS)


def any_byte(generator, book, value):
    room = bytearray(book.room)
    room[generator.drawn(book.length)] = value % 256
    return Book(bytes(room), book.length)


def damaged(generator, book):
    """Kinds 1 to 9 are for the number that check gives; most books stay good."""
    kind = generator.drawn(24)
    choice = generator.drawn(1536)
    if kind == 1:
        return Book(book.room, choice % 17)
    if kind == 2:
        return with_number(book, 0, OTHER_MARK)
    if kind == 3:
        return with_number(book, VERSION, choice // 2 * 2)
    if kind == 4:
        at = NODES + 2 * (choice % COUNTS_AND_CARRY_OVER)
        return with_number(book, at, ABOVE_LIMITS)
    if kind == 5:
        length = book.length + 1 if choice % 2 == 0 else book.length - 1
        return Book(book.room, length)
    if kind in (6, 7, 8, 9):
        return bad_entry(generator, book, kind)
    if kind in (10, 11, 12):
        return any_byte(generator, book, choice)
    return book


def questions(generator, book):
    """What is asked of a book, drawn after it."""
    nodes = number_in(book.room, NODES)
    from_first_link = generator.drawn(2)
    origin = generator.drawn(nodes)
    if from_first_link:
        origin = number_in(book.room, table_place(book.room, 7))
    other = generator.drawn(nodes - 1 if nodes else 0)
    other_origin = origin if nodes < 2 else other if other < origin else other + 1
    # a turn that the book has, or the first that it has not
    turns = number_in(book.room, TURNS)
    turn = generator.drawn(turns + 1 if turns < 65535 else 0)
    walk = generator.one_of(NEW_WALKS)
    return Questions(origin, turn, walk, other_origin)
