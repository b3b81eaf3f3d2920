"""The rules of document 01 and of document 02, requests 1, 3 and 5, written a second time from the documents alone."""

from collections import namedtuple
from heapq import heappop, heappush

# Document 01, "Numbers given back", in the order of its table; 17 is document 02's.
(DONE, SHORT_BOOK, MARK, VERSION, LIMIT, LENGTH, LINE, LINK, TURN, PAIR,
 NODE, EDITED, LABEL_LENGTH, LABEL, NO_WALK, ROOM) = range(16)
FARES = 17

Counts = namedtuple("Counts", "nodes lines links turns pairs carry_over")
Link = namedtuple("Link", "from_node to_node line ride")
Turn = namedtuple("Turn", "first second walk")
Pair = namedtuple("Pair", "first second extra")
Tables = namedtuple("Tables", "headways links turns pairs counts turn_numbers listed_extras")
Entry = namedtuple("Entry", "cost links back")
Labels = namedtuple("Labels", "turn_cost turn_links turn_back link_cost link_links link_back")

NUMBER_LENGTH, FARE_NUMBER_LENGTH = 2, 4
LETTERS, KNOWN_VERSION = b"LTB", 1
VERSION_OFFSET, COUNTS_OFFSET, HEADER_LENGTH = 3, 5, 17
ENTRY_LENGTHS = (2, 8, 6, 6)  # line, link, turn, pair
LIMITS = Counts(nodes=1024, lines=256, links=2048, turns=4096, pairs=2048, carry_over=3600)
HEADWAY_LIMIT, RIDE_LIMIT, WALK_LIMIT, EXTRA_LIMIT = 7200, 36000, 3600, 3600
CLOSED, FORBIDDEN = 65535, 65535
NO_BACK = 65534
NO_ENTRY = Entry(cost=4294967295, links=0, back=65535)
LISTING_LIMIT = 8  # with more turns than this there can be too many walks to list
GIVEN_WALK_LIMIT = 65535
METRES_LIMIT, WON_LIMIT, LEAST_STEP = 200000, 100000, 1

class Refused(Exception):
    """Carries the number given back and its place."""

def refuse_if(found, number, place=0):
    if found:
        raise Refused(number, place)

def answers(*other_figures):
    """Number and place stand before the answer; a refusal has the other figures given here."""
    def around(asked):
        def answer(*given, **named):
            try:
                return DONE, 0, *asked(*given, **named)
            except Refused as refused:
                return *refused.args, *other_figures
        return answer
    return around

# The day book

def numbers(given, start, end, length=NUMBER_LENGTH):
    return [int.from_bytes(given[offset:offset + length], "little") for offset in range(start, end, length)]

def bounds(counts):
    """Where each of the four tables begins, then where the book ends."""
    starts = [HEADER_LENGTH]
    for count, length in zip((counts.lines, counts.links, counts.turns, counts.pairs), ENTRY_LENGTHS):
        starts.append(starts[-1] + count * length)
    return starts

def tables(book):
    counts = Counts(*numbers(book, COUNTS_OFFSET, HEADER_LENGTH))
    starts = bounds(counts)
    headways, links, turns, pairs = (
        [shape(*numbers(book, offset, offset + length)) for offset in range(start, end, length)]
        for shape, length, start, end in zip((int, Link, Turn, Pair), ENTRY_LENGTHS, starts, starts[1:]))
    turn_numbers = {(turn.first, turn.second): number for number, turn in enumerate(turns)}
    listed_extras = {(pair.first, pair.second): pair.extra for pair in pairs}
    return Tables(headways, links, turns, pairs, counts, turn_numbers, listed_extras)

# Check

def walk_allowed(walk):
    return walk <= WALK_LIMIT or walk == CLOSED

def ascends(table, place):
    return place == 0 or table[place - 1][:2] < table[place][:2]

def judged_entries(tables):
    """In file order, with whether it is good; a table is looked at only after those before it."""
    counts, links, turns, pairs = tables.counts, tables.links, tables.turns, tables.pairs
    for place, headway in enumerate(tables.headways):
        yield LINE, place, headway <= HEADWAY_LIMIT
    for place, link in enumerate(links):
        yield LINK, place, (link.from_node < counts.nodes and link.to_node < counts.nodes and link.line < counts.lines
                            and link.from_node != link.to_node and link.ride <= RIDE_LIMIT)
    for place, turn in enumerate(turns):
        yield TURN, place, (turn.first < counts.links and turn.second < counts.links
                            and links[turn.first].to_node == links[turn.second].from_node
                            and walk_allowed(turn.walk) and ascends(turns, place))
    for place, pair in enumerate(pairs):
        yield PAIR, place, (pair.first < counts.turns and pair.second < counts.turns
                            and turns[pair.first].second == turns[pair.second].first
                            and (pair.extra <= EXTRA_LIMIT or pair.extra == FORBIDDEN) and ascends(pairs, place))

def good_tables(book, *nodes):
    """Tests 1 to 9, then 10 for the origin and the destination where they are asked for."""
    refuse_if(len(book) < HEADER_LENGTH, SHORT_BOOK)
    refuse_if(book[:VERSION_OFFSET] != LETTERS, MARK)
    refuse_if(numbers(book, VERSION_OFFSET, COUNTS_OFFSET) != [KNOWN_VERSION], VERSION)
    counts = Counts(*numbers(book, COUNTS_OFFSET, HEADER_LENGTH))
    refuse_if(any(count > limit for count, limit in zip(counts, LIMITS)), LIMIT)
    refuse_if(len(book) != bounds(counts)[-1], LENGTH)
    read = tables(book)
    for number, place, good in judged_entries(read):
        refuse_if(not good, number, place)
    refuse_if(any(node >= counts.nodes for node in nodes), NODE)
    return read

@answers(None)
def check(book):
    return (good_tables(book).counts,)

# Permitted walks and their cost

def successive(things):
    return zip(things, things[1:])

def turns_of(tables, walk):
    """None stands for a change that is not in the table."""
    return [tables.turn_numbers.get(change) for change in successive(walk)]

def looked_up(tables, first, second):
    """Which of four cases two successive turns are, and the seconds of that case; a forbidden pair has none."""
    listed = tables.listed_extras.get((first, second))
    if listed == FORBIDDEN:
        return "forbidden", None
    if listed is not None:
        return "listed", listed
    if tables.turns[first].walk > 0 and tables.turns[second].walk > 0:
        return "carried over", tables.counts.carry_over
    return "none", 0

def all_looked_up(tables, turns):
    return (looked_up(tables, *pair) for pair in successive(turns))

def permitted(tables, origin, walk):
    if not all(0 <= link < tables.counts.links for link in walk):
        return False
    turns = turns_of(tables, walk)
    return (all(tables.links[first].from_node == origin for first in walk[:1])
            and all(tables.links[before].to_node == tables.links[after].from_node for before, after in successive(walk))
            and all(turn is not None and tables.turns[turn].walk != CLOSED for turn in turns)
            and all(case != "forbidden" for case, _ in all_looked_up(tables, turns)))

def wait(tables, link):
    """Half the headway of its line, rounded up."""
    return (tables.headways[tables.links[link].line] + 1) // 2

def boarding(tables, turn):
    # Document 02, request 1: who has no walk and stays on the line keeps the seat.
    return turn.walk > 0 or tables.links[turn.first].line != tables.links[turn.second].line

def cost_of_start(tables, link):
    return wait(tables, link) + tables.links[link].ride

def cost_of_turn(tables, turn):
    """Its walk, the wait where it is a boarding, and the ride of the link that it enters."""
    waited = wait(tables, turn.second) if boarding(tables, turn) else 0
    return turn.walk + waited + tables.links[turn.second].ride

def cost_step_by_step(tables, walk):
    """As labels add it up, and not from the four figures below, so that the two can be held against each other."""
    turns = turns_of(tables, walk)
    return (sum(cost_of_start(tables, first) for first in walk[:1])
            + sum(cost_of_turn(tables, tables.turns[turn]) for turn in turns)
            + sum(extra for _, extra in all_looked_up(tables, turns)))

# Where the minutes go (document 02, request 5)

def ride_of(tables, walk):
    return sum(tables.links[link].ride for link in walk)

def wait_of(tables, walk):
    turns = [tables.turns[turn] for turn in turns_of(tables, walk)]
    boarded = [*walk[:1], *(turn.second for turn in turns if boarding(tables, turn))]
    return sum(wait(tables, link) for link in boarded)

def walk_of(tables, walk):
    return sum(tables.turns[turn].walk for turn in turns_of(tables, walk))

def extra_of(tables, walk):
    return sum(extra for _, extra in all_looked_up(tables, turns_of(tables, walk)))

def split_of(tables, walk):
    """Ride, wait, walk and extra; their sum is the walk's cost."""
    return [figure(tables, walk) for figure in (ride_of, wait_of, walk_of, extra_of)]

# Labels

def labels_of(turn_entries, link_entries):
    return Labels(*([entry[field] for entry in table] for table in (turn_entries, link_entries)
                    for field in range(len(Entry._fields))))

def may_follow(tables, walk, link):
    # No rule reaches over more than three successive links.
    last_links = walk[-2:] + (link,)
    return permitted(tables, tables.links[last_links[0]].from_node, last_links)

def listed_walks(tables, origin):
    longest = tables.counts.turns + 1  # no chosen walk uses a turn twice
    walks = [(link,) for link in range(tables.counts.links) if permitted(tables, origin, (link,))]
    while walks:
        yield from walks
        walks = [walk + (turn.second,) for walk in walks if len(walk) < longest
                 for turn in tables.turns if turn.first == walk[-1] and may_follow(tables, walk, turn.second)]

def labels_by_listing(tables, origin):
    none_chosen = (NO_ENTRY.cost, NO_ENTRY.links, (), NO_ENTRY.back)
    turn_chosen = [none_chosen] * tables.counts.turns
    link_chosen = [none_chosen] * tables.counts.links
    for walk in listed_walks(tables, origin):
        order = (cost_step_by_step(tables, walk), len(walk), walk[::-1])
        backs = [NO_BACK, *turns_of(tables, walk)]
        link_chosen[walk[-1]] = min(link_chosen[walk[-1]], (*order, backs[-1]))
        if len(walk) > 1:
            turn_chosen[backs[-1]] = min(turn_chosen[backs[-1]], (*order, backs[-2]))
    return labels_of(*([Entry(total, links, back) for total, links, _, back in chosen]
                       for chosen in (turn_chosen, link_chosen)))

def labels_by_heap(tables, origin):
    """The turn with the least entry left offers its walk, one link longer, to the turns that may follow it."""
    # Equal walks to a turn first differ one link further back, and turns ascend by first link: the smaller back wins.
    link_entries = [Entry(cost_of_start(tables, number), 1, NO_BACK) if link.from_node == origin else NO_ENTRY
                    for number, link in enumerate(tables.links)]
    turn_entries = [NO_ENTRY] * tables.counts.turns
    followers = [[] for _ in tables.links]
    offered = []

    def offer(entry, number):
        if entry < turn_entries[number]:
            turn_entries[number] = entry
            heappush(offered, (entry, number))

    for number, turn in enumerate(tables.turns):
        if turn.walk != CLOSED:
            added = cost_of_turn(tables, turn)
            followers[turn.first].append((number, added))
            if tables.links[turn.first].from_node == origin:
                offer((cost_of_start(tables, turn.first) + added, 2, NO_BACK), number)
    while offered:
        entry, number = heappop(offered)
        if entry != turn_entries[number]:
            continue  # a better walk was found after this one had been put in
        total, links, _ = entry
        last_link = tables.turns[number].second
        link_entries[last_link] = min(link_entries[last_link], (total, links, number))
        for follower, added in followers[last_link]:
            case, extra = looked_up(tables, number, follower)
            if case != "forbidden":
                offer((total + extra + added, links + 1, number), follower)
    return labels_of(turn_entries, link_entries)

def labels(tables, origin):
    method = labels_by_listing if tables.counts.turns <= LISTING_LIMIT else labels_by_heap
    return method(tables, origin)

def refuse_lengths(counts, lent):
    refuse_if([len(buffer) for buffer in lent] != [counts.turns] * 3 + [counts.links] * 3, LABEL_LENGTH)

def write_labels(lent, true_labels):
    for buffer, true_numbers in zip(lent, true_labels):
        buffer[:] = true_numbers

# Search

@answers()
def search(book, origin, lent):
    read = good_tables(book, origin)
    refuse_lengths(read.counts, lent)
    write_labels(lent, labels(read, origin))
    return ()

# Route

def chosen_route(tables, origin, destination, true_labels):
    if origin == destination:
        return 0, []
    entering = [(true_labels.link_cost[number], true_labels.link_links[number], number)
                for number, link in enumerate(tables.links) if link.to_node == destination]
    total, _, last_link = min(entering, default=(NO_ENTRY.cost, 0, 0))  # links are compared from the last one
    refuse_if(total == NO_ENTRY.cost, NO_WALK)
    walk = [last_link]
    back = true_labels.link_back[last_link]
    while back != NO_BACK:
        walk.insert(0, tables.turns[back].first)
        back = true_labels.turn_back[back]
    return total, walk

def tested_route(book, origin, destination, lent, room):
    read = good_tables(book, origin, destination)
    refuse_lengths(read.counts, lent)
    true_labels = labels(read, origin)
    refuse_if([*lent] != [*true_labels], LABEL)
    total, walk = chosen_route(read, origin, destination, true_labels)
    refuse_if(len(room) < len(walk), ROOM)
    return read, total, walk

@answers(0, 0)
def route(book, origin, destination, lent, room):
    _, total, walk = tested_route(book, origin, destination, lent, room)
    room[:len(walk)] = walk
    return total, len(walk)

# Edit

def altered(before, after):
    return sum(old != new for old, new in zip(zip(*before), zip(*after)))

@answers(0, 0)
def edit(book, origin, turn, walk, lent):
    read = good_tables(book, origin)
    refuse_if(turn >= read.counts.turns or not walk_allowed(walk), EDITED)
    refuse_lengths(read.counts, lent)
    before = labels(read, origin)
    refuse_if([*lent] != [*before], LABEL)
    (_, _, turns_start, _, _), (_, _, turn_length, _) = bounds(read.counts), ENTRY_LENGTHS
    turn_end = turns_start + (turn + 1) * turn_length
    book[turn_end - NUMBER_LENGTH:turn_end] = walk.to_bytes(NUMBER_LENGTH, "little")
    after = labels(tables(book), origin)
    write_labels(lent, after)
    return altered(before[:3], after[:3]), altered(before[3:], after[3:])

# The cost of a given walk

def cost_of_walk(book, origin, walk):
    try:
        read = good_tables(book, origin)
    except Refused as refused:
        return "refused", *refused.args
    if len(walk) > GIVEN_WALK_LIMIT:
        return ("too long",)
    if not permitted(read, origin, walk):
        return ("not permitted",)
    return "permitted", cost_step_by_step(read, walk), *split_of(read, walk)

# The fare (document 02, request 3)

def fare_of(tables, walk, table, basic_distance, step, premium):
    counts = tables.counts
    metres, basic_fares = table[:counts.links], table[counts.links:]
    refuse_if(len(table) != counts.links + counts.lines or step < LEAST_STEP
              or any(distance > METRES_LIMIT for distance in (*metres, basic_distance, step))
              or any(amount > WON_LIMIT for amount in (*basic_fares, premium)), FARES)
    if not walk:
        return 0
    beyond = max(0, sum(metres[link] for link in walk) - basic_distance)
    started_steps = (beyond + step - 1) // step
    return max(basic_fares[tables.links[link].line] for link in walk) + premium * started_steps

@answers(0, 0, 0)
def fare(book, origin, destination, lent, room, table, basic_distance, step, premium):
    read, total, walk = tested_route(book, origin, destination, lent, room)
    won = fare_of(read, walk, table, basic_distance, step, premium)
    room[:len(walk)] = walk
    return total, len(walk), won

# The two printers' lines

def printed(*figures):
    return " ".join(str(figure) for figure in figures) + "\n"

def printed_route(book, origin, destination):
    """The printers lend true labels and enough room, so 12, 13 and 15 cannot arise."""
    read = good_tables(book, origin, destination)
    total, walk = chosen_route(read, origin, destination, labels(read, origin))
    return read, walk, printed(DONE, total, *split_of(read, walk), len(walk), *walk)

def sheet(given):
    book_start = 2 * NUMBER_LENGTH
    try:
        refuse_if(len(given) < book_start, SHORT_BOOK)
        _, _, line = printed_route(given[book_start:], *numbers(given, 0, book_start))
        return line
    except Refused as refused:
        return printed(*refused.args)

def fare_sheet(given):
    figures_start = 2 * NUMBER_LENGTH
    book_start = figures_start + 4 * FARE_NUMBER_LENGTH
    try:
        refuse_if(len(given) < book_start, SHORT_BOOK)
        *fare_figures, book_length = numbers(given, figures_start, book_start, FARE_NUMBER_LENGTH)
        book, rest = given[book_start:book_start + book_length], given[book_start + book_length:]
        read, walk, line = printed_route(book, *numbers(given, 0, figures_start))
        refuse_if(len(rest) % FARE_NUMBER_LENGTH != 0, FARES)
        table = numbers(rest, 0, len(rest), FARE_NUMBER_LENGTH)
        return line + printed(fare_of(read, walk, table, *fare_figures))
    except Refused as refused:
        return printed(*refused.args)
