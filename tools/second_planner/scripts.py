"""Scripts for the program `desk`, drawn or of full-size books, with the second planner's answers; no rule is here."""

from contextlib import contextmanager

import drawing
import planner
import writing
from desk import ROOM, Desk

# The longest route buffer, and the most entries of a damaged book, that are shown.
SHORT_ROOM = 16

# By the number that check gives.
DAMAGE = ["still good", "too short", "mark", "version", "limit", "length", "line", "link", "turn", "pair"]

# What one number is altered to in the header, in a line, link, turn or pair, and in the fares: a limit, or past it.
ALTERED_HEADER = [[0, 257], [1024, 1025], [256, 257], [2048, 2049], [4096, 4097], [2048, 2049], [3600, 3601]]
ALTERED_ENTRIES = [[7200, 7201], [36000, 36001], [3600, 3601, 65534, 65535], [3600, 3601, 65534, 65535]]
ALTERED_FARES = [0, 1, 100000, 100001, 200000, 200001, 4294967295]

BASIC_DISTANCES = [0, 1000, 1000, 1000, 1500, 2000, 5000, 10000, 10000, 200000]
STEPS = [1, 2, 500, 500, 1000, 1000, 1001, 5000, 5000, 200000]
METRES = [0, 1, 400, 999, 1000, 1001, 4000, 5000, 12000, 200000]
WON = [0, 1, 100, 100, 550, 550, 800, 800, 1350, 100000]

# Headways, rides and walks of larger books: small, so that many walks cost the same, or up to their limits; half of
# the walks are 0, so that passengers often stay in their seat.
SMALL_FIGURES = [0, 1, 1, 2, 3, 3], [0, 1, 1, 2, 2, 3, 3, 4, 5, 8], [0, 0, 0, 0, 1, 2, 3, planner.CLOSED]
ANY_FIGURES = (
    [0, 1, 299, 300, 7200], [0, 60, 90, 120, 240, 600, 3599, 36000], [0, 0, 0, 0, 30, 60, 3600, planner.CLOSED])
LARGER_EXTRAS = [0, 1, 60, 3600, planner.FORBIDDEN, planner.FORBIDDEN, planner.FORBIDDEN]
MOST_LARGER_TURNS, MOST_LARGER_PAIRS = 200, 60


def number_start(at):
    """Where the number begins that has this byte of a book, or two letters of the mark."""
    return at // 2 if at < drawing.VERSION else at - (at - drawing.VERSION) % 2


def walk_word(walk):
    return "closed" if walk == planner.CLOSED else walk


class Script:
    """The lines that are written, and the desk as they leave it."""

    def __init__(self, *remarks, files=None):
        self.desk, self.books, self.lines = Desk(files=files), 0, []
        for remark in remarks:
            self.remark(remark)

    def text(self):
        return "\n".join(self.lines) + "\n"

    def remark(self, remark):
        self.lines.append(f"# {remark}")

    def do(self, *words):
        """A line that has no answer and can be done."""
        line = " ".join(map(str, words))
        self.desk.asked(line)
        self.lines.append(line)

    def ask(self, *words):
        """A line and its answer, the words of which are given back."""
        question = " ".join(map(str, words))
        answer = self.desk.answer(question).split()
        self.lines.append(" ".join([question, "=", *answer]))
        return answer

    def new(self, book, remark):
        """A good book: its length is odd, so that whole numbers follow the mark."""
        self.books += 1
        self.remark(f"book {self.books}: {remark}")
        self.do("new", book.length)
        self.do("number", drawing.VERSION, *planner.numbers(book.room, drawing.VERSION, book.length))

    def become(self, book):
        """The numbers in which this book differs, while the book on the desk has whole numbers, then its length."""
        if len(self.desk.book) < book.length:
            self.do("length", book.length)
        differing = [at for at, byte in enumerate(self.desk.book) if byte != book.room[at]]
        for at in sorted({number_start(at) for at in differing}):
            self.do("number", at, drawing.number_in(book.room, at))
        if book.length < len(self.desk.book):
            self.do("length", book.length)

    def nodes(self):
        return self.desk.count("nodes")

    def turns(self):
        return self.desk.entries("turns")

    def links(self):
        return self.desk.entries("links")

    def show_labels(self):
        self.ask("turns")
        self.ask("links")

    def show_room(self):
        if 0 < self.desk.room_lent <= SHORT_ROOM:
            self.ask("room")

    def edit(self, origin, turn, walk):
        """Whether it is done."""
        number, *_ = self.ask("edit", origin, turn, walk_word(walk))
        return int(number) == planner.DONE

    def route(self, origin, destination):
        """Its links, which stand after seven figures; none where it is refused."""
        return [int(link) for link in self.ask("route", origin, destination)[7:]]

    def route_length(self, origin, destination):
        return planner.route(self.desk.book, origin, destination, self.desk.lent(), [0] * ROOM)[3]


def drawn_book(generator, script, remark):
    book = drawing.good_book(generator)
    script.new(book, remark)
    return drawing.questions(generator, book)


# One thing that questions are asked under, and that is put back after them

@contextmanager
def altered_figure(generator, script):
    desk = script.desk
    buffer = generator.one_of([buffer for buffer in desk.labels if desk.lent_length(buffer)])
    entry = generator.drawn(desk.lent_length(buffer))
    held, past = desk.labels[buffer][entry], 4294967296 if buffer.endswith("cost") else 65536
    other = held + 1 + generator.drawn(65534)
    figures = [figure % past for figure in (held + 1, held + 1, held - 1, held - 1, other, 0, 1, 65534, past - 1)]
    script.do("alter", buffer, entry, generator.one_of([figure for figure in figures if figure != held]))
    yield
    script.ask(buffer.split("-")[0], entry)
    script.do("alter", buffer, entry, held)


@contextmanager
def other_length(generator, script):
    buffer = generator.one_of(list(script.desk.labels))
    count = script.desk.lent_length(buffer)
    script.do("lend", buffer, generator.one_of([0, count - 1, count + 1, ROOM] if count else [1, ROOM]))
    yield
    script.do("lend", buffer)


@contextmanager
def altered_book(generator, script):
    """One number of an entry, so that the labels may be those of another book."""
    at = number_start(drawing.HEADER_BYTES + generator.drawn(len(script.desk.book) - drawing.HEADER_BYTES))
    held = drawing.number_in(script.desk.book, at)
    script.do("number", at, generator.one_of([0, 1, 2, 3, planner.CLOSED]))
    yield
    script.do("number", at, held)


# Good books

def ask_routes(generator, script, question, origin):
    """To every node and to one that is none; half of those that have links are asked with a room of their own too."""
    for destination in range(script.nodes() + 1):
        links = script.route_length(origin, destination)
        if links and generator.drawn(2):
            # before the route is written, since too short a room must keep what it holds
            script.ask(question, origin, destination, links + generator.one_of([-1, -1, -1, 0, 2]))
            script.show_room()
        script.ask(question, origin, destination)


def joined(generator, links, walk):
    """The walk, and links that join it, whether or not the turns between them are in the table."""
    after = [number for number, link in enumerate(links) if link.from_node == links[walk[-1]].to_node]
    if not after or generator.drawn(3) == 0:
        return walk
    return joined(generator, links, [*walk, generator.one_of(after)])


def ask_costs(generator, script, origin, walk):
    """A route, also from any node and with any link, then walks by a closed turn, by a listed pair and by any joins."""
    tables = planner.tables(script.desk.book)
    script.ask("cost", origin, *walk)
    script.ask("cost", generator.drawn(tables.counts.nodes + 1), *walk)
    if walk:
        at = generator.drawn(len(walk))
        script.ask("cost", origin, *walk[:at], generator.drawn(tables.counts.links + 1), *walk[at + 1 :])
    closed = [[turn.first, turn.second] for turn in tables.turns if turn.walk == planner.CLOSED]
    pairs = [[*tables.turns[pair.first][:2], tables.turns[pair.second].second] for pair in tables.pairs]
    for walks in (closed, pairs, [[link] for link in range(tables.counts.links)]):
        if walks:
            walk = joined(generator, tables.links, generator.one_of(walks))
            script.ask("cost", tables.links[walk[0]].from_node, *walk)


def ask_good(generator, script):
    asked = drawn_book(generator, script, "good")
    script.ask("check")
    script.ask("search", asked.origin)
    script.show_labels()
    if generator.drawn(4) == 0:
        script.ask("search", script.nodes())
        script.edit(script.nodes(), asked.turn, asked.walk)
        script.show_labels()
    ask_routes(generator, script, "route", asked.origin)
    ask_costs(generator, script, asked.origin, script.route(asked.origin, asked.other_origin))


# Damaged books

def altered_number(generator, book, damaged):
    """Of the header or of an entry: the last, which has a limit, to a figure about it, or any to one near it."""
    header_starts = range(drawing.VERSION, drawing.HEADER_BYTES, 2)
    header = [(at, at + 2, 2, figures) for at, figures in zip(header_starts, ALTERED_HEADER)]
    bounds = planner.bounds(planner.tables(book.room).counts)
    entries = [part for part in zip(bounds, bounds[1:], planner.ENTRY_LENGTHS, ALTERED_ENTRIES) if part[0] < part[1]]
    start, end, length, figures = generator.one_of(generator.one_of([header, entries, entries]))
    at = start + 2 * generator.drawn((end - start) // 2)
    last = at - (at - start) % length + length - 2
    # numbers that must differ, join or ascend stand no more than three apart
    about = range(max(at - 6, start), min(at + 8, end), 2)
    near = [drawing.number_in(book.room, other) for other in about if other != at]
    altered = generator.one_of([(last, generator.one_of(figures)), (at, generator.one_of(near or figures))])
    return drawing.with_number(damaged, *altered)


def damaged_book(generator, book):
    """As drawn; where the book stayed good, and for some others, one number is altered."""
    damaged = drawing.damaged(generator, book)
    if damaged == book or generator.drawn(6) == 0:
        return altered_number(generator, book, damaged)
    return damaged


def ask_damaged(generator, script):
    book = drawing.good_book(generator)
    asked, damaged = drawing.questions(generator, book), damaged_book(generator, book)
    script.new(book, f"damaged, {DAMAGE[planner.check(drawing.given(damaged))[0]]}")
    script.ask("search", asked.origin)
    walk = script.route(asked.origin, asked.other_origin)
    script.become(damaged)
    script.ask("check")
    # neither no node nor too short a room is found before the damage
    destination = generator.one_of([asked.origin, asked.other_origin, script.nodes()])
    script.ask("route", asked.origin, destination, 2)
    script.show_room()
    script.edit(asked.origin, asked.turn, asked.walk)
    script.ask("cost", asked.origin, *walk)
    script.ask("fare", asked.origin, destination, 2)
    script.ask("search", generator.one_of([asked.origin, asked.origin, script.nodes()]))
    if max(script.turns(), script.links()) <= SHORT_ROOM and generator.drawn(3) == 0:
        script.show_labels()
    # in the book as it was, labels that no refused question altered are true
    if book.length - 2 < len(script.desk.book):
        script.become(book)
        script.route(asked.origin, asked.other_origin)


# Labels

def ask_labels(generator, script):
    asked = drawn_book(generator, script, "good, with labels that are not its own")
    turn, walk = asked.turn % max(script.turns(), 1), generator.one_of(drawing.WALKS)

    def ask_both():
        script.ask("route", asked.origin, generator.drawn(script.nodes()))
        script.edit(asked.origin, turn, walk)

    if generator.drawn(4) == 0:
        ask_both()  # no search yet: all figures are 0
    script.ask("search", asked.origin)
    for _ in range(3 if script.links() else 0):
        with altered_figure(generator, script):
            ask_both()
    script.route(asked.origin, asked.other_origin)
    kind = generator.drawn(3)
    if kind == 0:
        with other_length(generator, script):
            script.ask("search", asked.origin)
            ask_both()
    elif kind == 1:
        with altered_book(generator, script):
            ask_both()
    else:
        script.ask("search", asked.other_origin)
    ask_both()
    if generator.drawn(2):
        script.show_labels()


# Edits

def drawn_edit(generator, script, last_turn):
    """Of the turn edited last, of one that is some entry's back, or of any, the first that is not in the table too."""
    turns, labels = planner.tables(script.desk.book).turns, script.desk.lent()
    backs = [back for back in labels.turn_back + labels.link_back if back < len(turns)]
    turn = generator.one_of([last_turn, generator.one_of(backs or [0]), generator.drawn(len(turns) + 1)])
    return turn, generator.one_of([*drawing.NEW_WALKS, turns[turn].walk if turn < len(turns) else 0])


def run_of_edits(generator, script, origin, edits, show):
    """No search stands between them, so that a refused one must leave what the next one needs."""
    turn, edited = 0, set()
    for _ in range(edits):
        turn, walk = drawn_edit(generator, script, turn)
        kind = generator.drawn(16)
        if kind == 0:
            script.edit(script.nodes(), turn, walk)
        elif kind == 1:
            with other_length(generator, script):
                script.edit(origin, turn, walk)
        elif kind == 2 and script.links():
            with altered_figure(generator, script):
                script.edit(origin, turn, walk)
        elif script.edit(origin, turn, walk):
            edited.add(turn)
            show(turn)
    tables = planner.tables(script.desk.book)
    for turn in sorted(edited):
        first, second, _ = tables.turns[turn]
        onward = [after.second for after in tables.turns if after.first == second][:1]  # so that an extra can show
        script.ask("cost", tables.links[first].from_node, first, second, *onward)  # by the walk that stands in the book


def ask_edits(generator, script):
    asked = drawn_book(generator, script, "good, with a run of edits")
    script.ask("search", asked.origin)
    script.show_labels()

    def show(turn):
        script.show_labels()
        script.ask("check")

    run_of_edits(generator, script, asked.origin, 6 + generator.drawn(7), show)
    script.route(asked.origin, asked.other_origin)
    script.ask("search", asked.origin)
    script.show_labels()


# Fares

def drawn_fares(generator, script):
    terms = [generator.one_of(figures) for figures in (BASIC_DISTANCES, STEPS, WON)]
    metres = [generator.one_of(METRES) for _ in range(script.links())]
    return terms + metres + [generator.one_of(WON) for _ in range(script.desk.count("lines"))]


def altered_fares(generator, fares):
    """A table one entry short or long, or one figure altered, of the three beside the table more often than others."""
    kind = generator.drawn(6)
    if kind < 2:
        return fares + [0] if kind else fares[:-1]
    at = generator.drawn(3 if kind == 2 else len(fares))
    return [*fares[:at], generator.one_of(ALTERED_FARES), *fares[at + 1 :]]


def ask_fares(generator, script):
    asked = drawn_book(generator, script, "good, with fares")
    script.ask("search", asked.origin)
    fares = drawn_fares(generator, script)
    script.do("fares", *fares)
    ask_routes(generator, script, "fare", asked.origin)
    for _ in range(2):
        script.do("fares", *altered_fares(generator, fares))
        # too short a room is found before such fares
        script.ask("fare", asked.origin, generator.drawn(script.nodes() + 1), generator.one_of([0, 1, 2, 3, 5, 8]))
        script.show_room()
        script.ask("fare", asked.origin, asked.other_origin)
    kind = generator.drawn(4)
    if kind == 0:
        with other_length(generator, script):
            script.ask("fare", asked.origin, asked.other_origin)
    elif kind == 1 and script.links():
        with altered_figure(generator, script):
            script.ask("fare", asked.origin, asked.other_origin)


# Larger books

def some_of(generator, things, most):
    """All but a few, and of more than so many about as many."""
    return [thing for thing in things if generator.drawn(max(len(things), most)) < most * 9 // 10][:most]


def joins(ends_and_starts):
    return [(first, second) for first, (end, _) in enumerate(ends_and_starts)
            for second, (_, start) in enumerate(ends_and_starts) if end == start]


def larger_book(generator):
    """At least three links to a node, so that most nodes are reached; 30 to 120 links in all."""
    headways, rides, walks = generator.one_of([SMALL_FIGURES, ANY_FIGURES])
    count = 30 + generator.drawn(91)
    nodes, lines, links = 10 + generator.drawn(count // 3 - 9), 1 + generator.drawn(6), []
    for _ in range(count):
        start = links[-1][1] if links and generator.drawn(4) else generator.drawn(nodes)
        links.append((start, drawing.another(generator, nodes, start), generator.drawn(lines), generator.one_of(rides)))
    turns = some_of(generator, joins([(end, start) for start, end, _, _ in links]), MOST_LARGER_TURNS)
    pairs = some_of(generator, joins([(second, first) for first, second in turns]), MOST_LARGER_PAIRS)
    return drawing.in_room(writing.book(
        nodes, [generator.one_of(headways) for _ in range(lines)], links,
        [(*turn, generator.one_of(walks)) for turn in turns],
        [(*pair, generator.one_of(LARGER_EXTRAS)) for pair in pairs], generator.drawn(4)))


def ask_larger(generator, script):
    script.new(larger_book(generator), "good, larger")
    script.ask("check")
    origin = generator.drawn(script.nodes())
    script.ask("search", origin)
    if generator.drawn(2):
        script.ask("turns")
    script.ask("links")
    walks = [script.route(origin, destination) for destination in range(script.nodes())]
    ask_costs(generator, script, origin, max(walks, key=len))
    run_of_edits(generator, script, origin, 8, lambda turn: script.ask("turn", turn))
    script.ask("links")
    script.route(origin, generator.drawn(script.nodes()))
    script.ask("search", origin)
    script.route(origin, generator.drawn(script.nodes()))


# Full-size books

def search_whole(script, origin, *destinations):
    script.ask("search", origin)
    script.show_labels()
    for destination in destinations:
        script.route(origin, destination)


def edit_whole(script, turn, walk, destination):
    """From 0: its counts, all entries of links unless they stand here already, and a route, which tests all entries."""
    script.edit(0, turn, walk)
    if f"links = {script.desk.asked('links')}" not in script.lines:
        script.ask("links")
    script.route(0, destination)


def put_back(script, name, walks):
    first_turn = drawing.table_place(script.desk.book, planner.TURN)
    for turn, walk in walks:
        script.do("number", first_turn + drawing.JOIN_BYTES * turn + 4, walk_word(walk))
    script.ask("same", name)


def ask_chain(script):
    script.remark("One walk of 2,048 links: along 1,024 nodes, back to node 1 and on again; walks are 2")
    script.do("open", "chain.book")
    search_whole(script, 0, 1023)
    for turn, walk in (0, 3600), (0, planner.CLOSED), (0, 2), (1, 0):
        edit_whole(script, turn, walk, 1023)
    put_back(script, "chain.book", [(1, 2)])
    script.remark("from the far end")
    search_whole(script, 1023, 1)
    script.ask("same", "chain.book")


def ask_fan(script):
    script.remark("The most successive turns: one link across and 2,047 back, and all 4,094 changes")
    script.do("open", "fan.book")
    search_whole(script, 0, 0, 1)
    search_whole(script, 1, 0, 1)
    script.ask("same", "fan.book")


def ask_largest(script):
    script.remark("The largest book: a ring of 1,024 nodes, each left by two links, every other turn closed")
    script.do("open", "largest.book")
    search_whole(script, 0, 1023)
    for turn, walk in (0, 3599), (0, planner.CLOSED), (1, 3600), (4095, 3600):
        edit_whole(script, turn, walk, 1023)
    put_back(script, "largest.book", [(0, 3600), (1, planner.CLOSED), (4095, planner.CLOSED)])


def full_size(files):
    """The files have the books."""
    script = Script("Full-size books: all entries, and long routes; search.desk and edit.desk have some of them.",
                    "After an edit all entries of links, unless the same ones stand above; a route tests all entries.",
                    "Made by tools/second_planner, which also gives the expected answers.", files=files)
    for ask in (ask_chain, ask_fan, ask_largest):
        script.lines.append("")
        ask(script)
    return script.text()


KINDS = [
    ("good", 500, ask_good, "Small good books: labels, every route, rooms too short, and walks, permitted or not."),
    ("damaged", 900, ask_damaged,
     "Small good books, altered after a search. Most are damaged then: each question is refused and changes nothing. "
     "The others stay good, and are answered as they stand then."),
    ("labels", 420, ask_labels, "Labels with a figure altered, or of another length, origin or book."),
    ("edits", 140, ask_edits, "Runs of edits without a search between them, some of them refused."),
    ("fares", 400, ask_fares, "Fares, many of them past their limits or of another length."),
    ("larger", 40, ask_larger, "Larger good books: labels, every route and some edits."),
]


def drawn_scripts():
    """Each from a seed of its own, so that one can be altered without the others."""
    for seed, (kind, books, ask, remark) in enumerate(KINDS, start=drawing.SEED):
        generator = drawing.Generator(seed)
        script = Script(remark, "Drawn from a seed by tools/second_planner, which also gives the expected answers.")
        for _ in range(books):
            ask(generator, script)
        yield f"drawn-{kind}.desk", script.text()


def scripts(files):
    yield from drawn_scripts()
    yield "full-size.desk", full_size(files)
