"""Files beside the desk's scripts, and two scripts, each built from its description; no rule of the planner is here."""

from planner import CLOSED, FORBIDDEN, NO_BACK, NO_ENTRY
from writing import book, written, written_fares


# Document 01, "Book A"

BOOK_A = book(
    nodes=4, carry_over=100, headways=(0, 5),
    links=((0, 1, 0, 40), (1, 2, 0, 50), (2, 3, 0, 30), (2, 1, 1, 60), (0, 2, 1, 400)),
    turns=((0, 1, 0), (1, 2, 5), (1, 3, 0), (3, 1, 4), (4, 2, 9)),
    pairs=((0, 1, FORBIDDEN),))


# Full-size books

def largest():
    """Every count at its limit, and every figure that is free: link k and link k + 1,024 lead from node k to the next
    one of a ring, each of them changes to the two links that leave there, and every second change is closed."""
    def second_link(turn):
        return (turn // 2 + 1) % 1024 + 1024 * (turn % 2)

    def seconds(number, barred):
        return 3600 if number % 2 == 0 else barred

    return book(
        nodes=1024, carry_over=3600, headways=[7200] * 256,
        links=[(link % 1024, (link + 1) % 1024, link % 256, 36000) for link in range(2048)],
        turns=[(turn // 2, second_link(turn), seconds(turn, CLOSED)) for turn in range(4096)],
        pairs=[(turn, 2 * second_link(turn), seconds(turn, FORBIDDEN)) for turn in range(2048)])


def chain():
    """One walk of 2,048 links: along 1,024 nodes, back to node 1 and on again, so that nothing else leaves node 0."""
    nodes = [*range(1024), *range(1022, 0, -1), *range(2, 5)]
    return book(
        nodes=1024, carry_over=5, headways=(1,),
        links=[(nodes[link], nodes[link + 1], 0, 3) for link in range(2048)],
        turns=[(turn, turn + 1, 2) for turn in range(2047)],
        pairs=[(turn, turn + 1, 9) for turn in range(0, 2046, 2)])


def fan():
    """The most successive turns: one link across and 2,047 back, each a second shorter than the one before it. Whoever
    came by one of them may not leave by it again."""
    across = [(0, link, 4) for link in range(1, 2048)]
    back = [(link, 0, 4) for link in range(1, 2048)]
    return book(
        nodes=2, carry_over=6, headways=(3,),
        links=[(0, 1, 0, 20), *((1, 0, 0, 3000 - link) for link in range(1, 2048))],
        turns=across + back,
        pairs=[(0, 2047, 50), *((2047 + turn, turn, FORBIDDEN) for turn in range(2047))])


# What the printers read: origin, destination, then a book; for a fare also its terms and the book's length before the
# book, and metres per link and basic fare per line after it

def asked(origin, destination, book):
    return written((origin, destination)) + book


def asked_fare(origin, destination, basic_distance, step, premium, book, metres, basic_fares):
    terms = basic_distance, step, premium, len(book)
    return asked(origin, destination, written_fares(terms) + book + written_fares((*metres, *basic_fares)))


# Scripts that are one line over and over, or lines at the desk's limits

def walk_between(length):
    """From node 1 by links 1 and 3 of book A in turn."""
    return " ".join(["cost 1", *("1" if place % 2 == 0 else "3" for place in range(length))])


def fares_of(length):
    """Noughts, but for a step of 1."""
    return " ".join(["fares 0 1 0", *["0"] * length])


LONGEST_WALKS = f"""\
# The cost of a given walk: from node 1 round and round by links 1 and 3 of book A. Each turn from 3 to 1 has the only \
walk.
# Then the most numbers of a line and of a fare table, each with one more, and a line that ends with a carriage return.
open book-a.book
# as many links as the longest chosen walk can have
{walk_between(4097)} = 0 239666 225330 6144 8192 0
{walk_between(65535)} = 0 3833789 3604420 98301 131068 0
# no walk of more links is costed
{walk_between(65536)} = too long
# 65,600 numbers, the origin among them, then one more
{walk_between(65599)} = too long
{walk_between(65600)} = too many numbers

# Fares for book A's seven numbers, which a table that is too long for the desk leaves; one of 4,097 is not book A's
search 1 = 0
{fares_of(7)}
fare 1 1 = 0 0 0 0
{fares_of(4098)} = fares more than 4097
fare 1 1 = 0 0 0 0
{fares_of(4097)}
fare 1 1 = 17 0

# A carriage return before the newline is a blank
check = 0 4 2 5 5 1 100\r
same book-a.book = yes
"""

# Book A's true entries by origin: first the turns', then the links'.
ENTRIES = {
    0: (((90, 2, NO_BACK), (342, 5, 3), (153, 3, 0), (207, 4, 2), (442, 2, NO_BACK)),
        ((40, 1, NO_BACK), (90, 2, 0), (342, 5, 1), (153, 3, 2), (403, 1, NO_BACK))),
    1: ((NO_ENTRY, (85, 2, NO_BACK), (113, 2, NO_BACK), (167, 3, 2), NO_ENTRY),
        (NO_ENTRY, (50, 1, NO_BACK), (85, 2, 1), (113, 2, 2), NO_ENTRY)),
    2: ((NO_ENTRY, (252, 3, 3), (180, 3, 3), (117, 2, NO_BACK), NO_ENTRY),
        (NO_ENTRY, (117, 2, 3), (30, 1, NO_BACK), (63, 1, NO_BACK), NO_ENTRY)),
    3: ((NO_ENTRY,) * 5, (NO_ENTRY,) * 5),
}
FIELDS = ("cost", 2 ** 32), ("links", 2 ** 16), ("back", 2 ** 16)


def all_figures(entries):
    return " ".join(str(figure) for entry in entries for figure in entry)


def altered(origin, more):
    """Each of the 30 numbers in its turn: altered, asked with, shown, and as it was."""
    for name, entries in zip(("turn", "link"), ENTRIES[origin]):
        for field, (field_name, numbers) in enumerate(FIELDS):
            for number, entry in enumerate(entries):
                alter, figure = f"alter {name}-{field_name} {number}", (entry[field] + more) % numbers
                yield f"{alter} {figure}\nroute {origin} 3 5 = 13 0\n"
                yield f"{name} {number} = {all_figures([(*entry[:field], figure, *entry[field + 1:])])}\n"
                yield f"{alter} {entry[field]}\n"


BEFORE_ALTERATIONS = """\
# Document 01, "Run by a program": one altered back gives 13, and so does every other number of the labels. Each of
# book A's 30 is altered by one, round at its limit, asked with, shown with its entry, and put back.
open book-a.book
# a route comes first, so that what a 13 leaves in the route buffer is seen afterwards
search 0 = 0
route 0 3 5 = 0 342 230 3 9 100 5 0 1 3 1 2
"""


def alterations():
    yield BEFORE_ALTERATIONS
    for origin, more in (0, 1), (0, -1), (1, 1), (2, -1), (3, 1):
        turns, links = ENTRIES[origin]
        yield f"\n# from {origin}, one {'more' if more > 0 else 'less'}\nsearch {origin} = 0\n"
        yield from altered(origin, more)
        yield f"turns = {all_figures(turns)}\nlinks = {all_figures(links)}\nroom = 0 1 3 1 2\n"


def files(folder):
    """Name and bytes of each; the folder has the books that are not made here: three papers' books and longest.book."""
    yield "book-a.book", BOOK_A
    yield "largest.book", largest()
    yield "chain.book", chain()
    yield "fan.book", fan()
    yield "book-a.input", asked(0, 3, BOOK_A)
    yield "largest.input", asked(0, 1, largest())
    yield "fares-of-book-a.input", asked_fare(
        0, 3, 10000, 5000, 100, BOOK_A, metres=(4000, 3000, 5000, 2000, 9000), basic_fares=(550, 800))
    for name, destination in ("004-fig10-dummies", 5), ("001-fig2", 11), ("002-fig1", 2):
        yield f"{name}.input", asked(0, destination, (folder / f"{name}.book").read_bytes())
    longest = (folder / "longest.book").read_bytes()
    yield "longest.input", asked(1022, 1023, longest)
    yield "dearest.input", asked_fare(
        1022, 1023, 0, 1, 100000, longest, metres=[200000] * 2048, basic_fares=[100000] * 256)
    yield "longest-walk.desk", LONGEST_WALKS.encode()
    yield "altered.desk", "".join(alterations()).encode()
