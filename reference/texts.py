"""The drawer program's text, as document 01 has it."""
import os
import re
from itertools import count

from cases import CRATES, MOST
from rings import opened, period, step

NAMES = b"stations holes kind limit\n"
HEADER = "number row period trials\n"
NUMBERS = {"Stations": 1, "Symbol": 3, "Text": 10, "Unfit": 22}


def read_drawer(text, room):
    """ "drawer" with the stations, holes, kind and limit; or "refused" with the number and the place."""
    if len(text) > 256 or not text.startswith(NAMES):
        return "refused", 10, 1
    number = rb"(0|[1-9][0-9]{0,2})"
    line = re.match(number + b" " + number + b" " + number + rb" ([^ \n]+)\n", text[len(NAMES) :])
    if not line:
        return "refused", 10, 2
    if len(NAMES) + line.end() < len(text):
        return "refused", 10, 3
    if room < len(line[4]):
        return "refused", 9, 0
    return "drawer", int(line[1]), int(line[2]), int(line[3]), tuple({48: 0, 49: 1}.get(b, 2) for b in line[4])


def ring_line(number, row, period, trials):
    return f"{number} {''.join(map(str, row))} {period} {trials}\n"


def end_line(trials):
    return f"end - - {trials}\n"


def refusal_text(number, place):
    return f"refused place\n{number} {place}\n"


def drawer(text):
    """What the drawer program prints."""
    r = read_drawer(text, 256)
    if r[0] == "refused":
        return refusal_text(*r[1:])
    no, walk = opened(*r[1:])
    if no:
        return refusal_text(*no)
    printed = HEADER
    for number in count(1):
        walk, answer, _, trials = step(walk, MOST)
        if answer == "none":
            return printed + end_line(trials)
        row = walk[3][: walk[0]]
        printed += ring_line(number, row, period(row), trials)


def stored_input(crate):
    """What a program is run on; a crate without the file is run on an empty input."""
    path = os.path.join(CRATES, crate, "stdin")
    if not os.path.exists(path):
        return b""
    with open(path, "rb") as file:
        return file.read()
