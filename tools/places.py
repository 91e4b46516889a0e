"""Places in files: a line with its number, what is shown of it, and the mark below it."""
import os
import unicodedata

WIDTH = 100  # of what is shown of a line
FURTHEST = 1_000_000  # a line with a greater number isn't looked for
PIECE = 4096


class Place:
    """A line of a file, from 1, what is shown of it, and the column in that, from 0, at which something stands, or None for the line
    as a whole; and a note on what is odd of the place."""

    def __init__(self, line, column=None, text="", note=""):
        self.line, self.column, self.text, self.note = line, column, text, note


def place_at(path, offset):
    """Where a byte of a file stands, or the file's end, or None. Columns are counted in characters."""
    with open(path, "rb") as file:
        front, behind = file.read(offset), file.read(PIECE)
    if len(front) < offset:
        return None
    before = shown(front[front.rfind(b"\n") + 1 :])
    text = before + shown(behind.partition(b"\n")[0].rstrip(b"\r"))
    return Place(front.count(b"\n") + 1, len(before), text, "" if behind else "the end of the file")


def line_at(path, number):
    """A line of a file, or None where it isn't looked for."""
    if not 1 <= number <= FURTHEST:
        return None
    with open(path, "rb") as file:
        for _ in range(number - 1):
            while (piece := file.readline(PIECE)) and not piece.endswith(b"\n"):
                pass
        line = file.readline(PIECE)
    return Place(number, None, shown(line.rstrip(b"\r\n")), "" if line else "there is no such line")


def shown(data):
    """Bytes as characters, each of which takes its own columns on a screen: others are shown as `?`."""
    return "".join(mark if mark == "\t" or is_seen(mark) else "?" for mark in data.decode("utf-8", "replace"))


def is_seen(mark):
    return mark.isprintable() and not unicodedata.combining(mark)


def name_of(word):
    """A word of the command line as it is shown."""
    return shown(os.fsencode(word))


def cut(text, column):
    """At most WIDTH characters of a line, among them the column, and the column in them."""
    start = max(0, column - WIDTH // 2) if len(text) > WIDTH else 0
    front = ".. " if start else ""
    back = " .." if len(text) > start + WIDTH else ""
    return front + text[start : start + WIDTH] + back, column - start + len(front)


def below(text):
    """Blanks as wide as a text on a screen."""
    return "".join(mark if mark == "\t" else "  " if unicodedata.east_asian_width(mark) in "WF" else " " for mark in text)


def excerpt(place):
    """The line of a place, and the mark below it."""
    if place is None or not place.text.strip():
        return []
    text, column = cut(place.text, place.column or 0)
    if place.column is None:
        start = len(text) - len(text.lstrip())
        return ["  " + text, "  " + below(text[:start]) + "^" * len(text.strip())]
    return ["  " + text, "  " + below(text[:column]) + "^"]


def line_of(path, offset):
    """The line of a byte of a file with its number, as `FILE:LINE: TEXT`."""
    place = place_at(path, offset)
    return f"{name_of(path)}:{place.line}: {cut(place.text.strip(), 0)[0]}"
