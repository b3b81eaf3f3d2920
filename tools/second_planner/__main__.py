"""The second planner's answers, asked from the command line; `--help` lists the questions."""

import sys
from inspect import signature
from pathlib import Path

import planner
from desk import TWO_BYTES, Desk, Fault, answers_expected, fault_unless_costs_add_up, held, number_of, tally
from files import files
from scripts import scripts
from writing import written, written_fares

DESK = Path(__file__).resolve().parents[2] / "crates" / "desk"

# The scripts of data that are made; the others are written by hand.
MADE_SCRIPTS = "drawn-*.desk", "full-size.desk", "altered.desk", "longest-walk.desk"

USAGE = """usage: python3 tools/second_planner QUESTION

check BOOK                                  number and place, or 0 and nodes, lines, links, turns, pairs, carry-over
labels BOOK ORIGIN                          0, then each turn's entry and each link's: cost, links, back
cost BOOK ORIGIN LINK..                     0, cost, ride, wait, walk and extra of a given walk, or 'not permitted'
route BOOK ORIGIN DESTINATION               the route printer's line: 0, the same five figures, number of links, links
fare BOOK ORIGIN DESTINATION FARES          the fare printer's lines; FARES as for ./plan
edit BOOK ORIGIN TURN WALK                  0 and two counts, then the labels of the edited book; WALK may be 'closed'
sheet [FILE], fare-sheet [FILE]             what the printers print for such an input, or for standard input
data [FOLDER]                               writes what is made for the program `desk`: in crates/desk, or in FOLDER,
                                            args, stdout, and the made scripts and files of data
data-same                                   whether crates/desk has what it makes, and no such script besides
desk SCRIPT..                               holds scripts for the program `desk` against the second planner"""


def given(name):
    return sys.stdin.buffer.read() if name is None else Path(name).read_bytes()


# A book's answers

def desk_with(name):
    desk = Desk()
    desk.put(Path(name).read_bytes())
    return desk


def print_labels(desk):
    for table in ("turn", "link"):
        for number in range(desk.entries(table + "s")):
            print(table, number, desk.asked(f"{table} {number}"))


def check(name):
    print(desk_with(name).asked("check"))


def labels(name, origin):
    desk = desk_with(name)
    answer = desk.asked(f"search {origin}")
    print(answer)
    if answer == "0":
        print_labels(desk)


def cost(name, origin, *links):
    print(desk_with(name).asked(" ".join(["cost", origin, *links])))


def edit(name, origin, turn, walk):
    desk = desk_with(name)
    desk.asked(f"search {origin}")
    answer = desk.asked(f"edit {origin} {turn} {walk}")
    print(answer)
    if answer.startswith("0 "):
        print_labels(desk)


# The printers' lines

def nodes_asked(*words):
    return written(number_of(word, TWO_BYTES) for word in words)


def route(name, origin, destination):
    print(planner.sheet(nodes_asked(origin, destination) + Path(name).read_bytes()), end="")


def fare(name, origin, destination, fares):
    book, table = Path(name).read_bytes(), Path(fares).read_bytes()
    if len(table) < 12:
        sys.exit(f"{fares}: a fare file has twelve bytes or more")
    terms = table[:12] + written_fares([len(book)])
    print(planner.fare_sheet(nodes_asked(origin, destination) + terms + book + table[12:]), end="")


def sheet(name=None):
    print(planner.sheet(given(name)), end="")


def fare_sheet(name=None):
    print(planner.fare_sheet(given(name)), end="")


# What the program `desk` reads and prints

def made_before():
    """Names of the scripts in data that are made, or were."""
    return {path.name for pattern in MADE_SCRIPTS for path in (DESK / "data").glob(pattern)}


def made():
    """By name in crates/desk; args and stdout are for all scripts of data, those written by hand too."""
    data = dict(files(DESK / "data"))
    data.update((name, text.encode()) for name, text in scripts(data))
    not_by_hand = made_before()
    by_hand = {path.name: path.read_bytes() for path in (DESK / "data").glob("*.desk") if path.name not in not_by_hand}
    all_scripts = {name: script for name, script in sorted({**by_hand, **data}.items()) if name.endswith(".desk")}
    for name, script in all_scripts.items():
        fault_unless_costs_add_up(name, script)
    tallies = [tally(name, answers_expected(script), 0) for name, script in all_scripts.items()]
    return {
        "args": "".join(f"{name}\n" for name in all_scripts).encode(),
        "stdout": "".join(f"{line}\n" for line in tallies).encode(),
        **{f"data/{name}": content for name, content in data.items()},
    }


def write_data(folder=DESK):
    Path(folder, "data").mkdir(parents=True, exist_ok=True)
    for name, content in made().items():
        Path(folder, name).write_bytes(content)


def compare_data():
    expected = made()
    differ = [name for name, content in expected.items()
              if not (DESK / name).is_file() or (DESK / name).read_bytes() != content]
    no_longer = [f"data/{name}" for name in sorted(made_before()) if f"data/{name}" not in expected]
    if differ or no_longer:
        sys.exit(f"not what the second planner makes, in crates/desk: {' '.join(differ + no_longer)}")
    print(f"crates/desk has what the second planner makes, {len(expected)} files")


def hold(script, *more_scripts):
    status = 0
    for path in map(Path, (script, *more_scripts)):
        right, reports = held(path)
        print(*reports, tally(path.name, right, len(reports)), sep="\n", flush=True)
        status = 1 if reports else status
    sys.exit(status)


QUESTIONS = {
    "check": check,
    "labels": labels,
    "cost": cost,
    "route": route,
    "fare": fare,
    "edit": edit,
    "sheet": sheet,
    "fare-sheet": fare_sheet,
    "data": write_data,
    "data-same": compare_data,
    "desk": hold,
}


def main(words):
    sys.stdout.reconfigure(errors="backslashreplace")  # a file's name can have bytes that are no text
    if not words or words[0] in ("-h", "--help"):
        print(USAGE)
        return
    question = QUESTIONS.get(words[0])
    if question is None:
        sys.exit(f"no such question: {words[0]}\n{USAGE}")
    try:
        signature(question).bind(*words[1:])
    except TypeError:
        sys.exit(f"{words[0]} takes other words\n{USAGE}")
    try:
        question(*words[1:])
    except OSError as error:
        sys.exit(f"{error.filename or 'output'}: {error.strerror}")
    except Fault as fault:
        sys.exit(f"{words[0]}: {fault}")


main(sys.argv[1:])
