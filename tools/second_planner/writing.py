"""Numbers and day books as bytes, low byte first; no rule of the planner is here."""

from planner import FARE_NUMBER_LENGTH, KNOWN_VERSION, LETTERS, NUMBER_LENGTH


def written(numbers, length=NUMBER_LENGTH):
    return b"".join(number.to_bytes(length, "little") for number in numbers)


def written_fares(numbers):
    return written(numbers, FARE_NUMBER_LENGTH)


def book_start():
    return LETTERS + written([KNOWN_VERSION])


def book(nodes, headways, links, turns, pairs, carry_over):
    tables = links, turns, pairs
    counts = nodes, len(headways), *(len(table) for table in tables), carry_over
    entries = (number for table in tables for entry in table for number in entry)
    return book_start() + written((*counts, *headways, *entries))
