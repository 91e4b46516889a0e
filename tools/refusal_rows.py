"""The rows of the tables of codes in docs/REFUSALS.md: what a code's values are called, its cause, and what to do."""
import pathlib
import re

PAGE = pathlib.Path(__file__).resolve().parent.parent / "docs/REFUSALS.md"
HEAD = re.compile(r"\| code \| cause \|.*\| what to do \|$")


class Entry:
    """A row of the tables: its code with the names of the values, the cause, and what to do."""

    def __init__(self, head, cause, remedy):
        self.head, self.cause, self.remedy = head, cause, remedy
        self.code = head.split()[0]
        self.form, self.names = form_of(head.split()[1:])

    def values(self, said):
        """The values that a line has behind its code, by their names, or None where it is no line of this row."""
        found = self.form.fullmatch(said)
        return dict(zip(self.names, found.groups())) if found else None


def form_of(words):
    """The form of the values behind a code, and their names: words in capitals stand for values, others for themselves. A file and
    a key may have blanks in them, and the last name is said any number of times where `..` stands behind it."""
    repeats = words[-1:] == [".."]
    words = list(dict.fromkeys(words[:-1])) if repeats else words
    form, names = "", []
    for at, word in enumerate(words):
        if not word.isupper():
            form += " " + re.escape(word)
            continue
        names.append(word)
        is_long = word in ("FILE", "KEY") or (repeats and at == len(words) - 1)
        form += r" (.+)" if is_long else r" (\S+)"
    return re.compile(form, re.S), names


def plain(cell):
    """A cell of a table as text: a link to a page is the page's path."""
    return re.sub(r"\[([^]]*)\]\((\w+\.md)\)", r"docs/\2", cell)


def entries(page=PAGE):
    """The rows of the page's tables of codes, in its order. A remedy that is the same as the one before is that one."""
    found, inside, before = [], False, ""
    for line in page.read_text(encoding="utf-8").splitlines():
        inside = bool(HEAD.match(line)) or (inside and line.startswith("|"))
        cells = line.strip("| ").split(" | ")
        if inside and len(cells) == 4 and cells[0].startswith("`"):
            remedy = re.sub(r"^the same\b", lambda _: before, cells[3])
            found.append(Entry(cells[0].strip("`"), plain(cells[1]), plain(remedy)))
            before = remedy
    return found


def entry_of(line, page=PAGE):
    """The row of a line `refused CODE ..` and its values, or None."""
    _, code, *_ = line.split(" ", 2)
    said = line[len("refused ") + len(code) :]
    for entry in entries(page):
        if entry.code == code and entry.values(said) is not None:
            return entry, entry.values(said)
    return None
