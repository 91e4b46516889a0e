#!/usr/bin/env python3
"""Says for a person what a command of the program said: for a line `refused CODE ..` the place in the file that is refused, the line
that stands there with a mark below it, which cause of the code holds and what to do; for `unguarded` and `unbalanced` the node or the
link; and where a command said nothing, which file it could not open, or what was short.

    tools/explain.py STATUS SAID WORD ..     the status, what was said, and the words of the command that said it

All goes to standard error, and the status is 0. What can't be told, as of a file that has changed since, is left out: then the cause
and the remedy are those of docs/REFUSALS.md.
"""
import importlib
import os
import pathlib
import re
import signal
import sys
import textwrap

sys.path.insert(0, str(pathlib.Path(__file__).resolve().parent))

from places import WIDTH, excerpt, line_at, name_of, place_at
from refusal_rows import PAGE, entry_of

# the files that each command names, in the order of its words
FILES = {
    "compile": ("SRC", "TABLE", "OUT", "REPORT"),
    "simulate": ("TEXT", "RUN"),
    "expect": ("SRC", "TABLE", "REPORT", "RUN"),
    "check": ("SRC", "TABLE", "REPORT"),
}
# the file that a code is about, by its first letter; F1, U3 and U4 name theirs
ABOUT = {**dict.fromkeys("SEGPCBL", "SRC"), "T": "TABLE", "V": "TEXT", **dict.fromkeys("UX", "RUN"), "Q": "REPORT"}
# where what is found out about a code is looked for
MODULES = {**dict.fromkeys("SE", "source_finders"), **dict.fromkeys("GLCBPQ", "project_faults"), **dict.fromkeys("FTUX", "file_faults"), "V": "text_faults"}
SECONDS, LONGEST = 10, 60  # of the processor, and of the clock, after which no more is looked for
OUTCOME = re.compile(r"(?:guarded|unguarded kernel (\w+) node (\d+) tick (\d+))\n(?:balanced|unbalanced link (\d+) (dry|full) (\d+))")


class Case:
    """A command with what it said: what the finders look at."""

    def __init__(self, said, words, code="", values=None):
        self.line_said, self.words, self.code, self.values = said, words, code, values or {}
        self.line = said.partition(" ")[2]
        self.command = words[0] if words else ""
        self.files = FILES.get(self.command, ())
        self._project = self._ports = None

    def file(self, name):
        """The file of a command's word, or None."""
        return dict(zip(self.files, self.words[1:])).get(name)

    def shown(self, name):
        return name_of(self.file(name) or name)

    @property
    def project(self):
        """What the source builds."""
        if self._project is None:
            self._project = importlib.import_module("kernel_nodes").Project(self.file("SRC"))
        return self._project

    @property
    def ports(self):
        """The ports of the run, by the text or by the source."""
        if self._ports is None:
            faults = importlib.import_module("text_faults")
            text = self.file("TEXT")
            self._ports = faults.ports_of_text(pathlib.Path(text).read_text("latin-1")) if text else faults.ports_of_project(self.project)
        return self._ports


def file_of(code, values, words):
    """The name of the file that a refusal is about, or None."""
    if "FILE" in values:
        return values["FILE"]
    return dict(zip(FILES.get(words[0], ()), words[1:])).get(ABOUT.get(code[0])) if words else None


def place_of(path, values, found):
    """The place in a file that was found out, or else the one that the values tell, if they do."""
    path = found.path if found and found.path else path
    if not path or not os.path.isfile(path):
        return None
    if found and found.offset is not None:
        return place_at(path, found.offset)
    if found and found.line is not None:
        return line_at(path, found.line)
    if "PLACE" in values:
        return place_at(path, int(values["PLACE"]))
    if "LINE" in values:
        return line_at(path, int(values["LINE"]))
    return None


# What is told


def heading(code, path, place, values):
    """The file with line and column, as editors and other compilers have them, and the code."""
    parts, note = [name_of(path)] if path else [], place.note if place else ""
    if place:
        parts += [str(place.line), str((indent(place.text) if place.column is None else place.column) + 1)]
    elif path and "LINE" in values:
        parts.append(values["LINE"])
    elif "PLACE" in values:
        note = f"byte {values['PLACE']}"
    note = f" ({note})" if note else ""
    return ["".join(part + ":" for part in parts) + f" refused {code}"[not parts :] + note]


def indent(text):
    """Where a line begins behind its blanks."""
    return len(text) - len(text.lstrip()) if text.strip() else 0


def sentence(text):
    """A text as a sentence, in lines."""
    text = text if text.startswith("`") else text[:1].upper() + text[1:]
    return textwrap.wrap(text if text.endswith((".", ";`")) else text + ".", WIDTH, break_long_words=False, break_on_hyphens=False)


def meaning(entry, values, found):
    """The cause that holds, nodes and the like, the remedy and a hint; or else the cause of the row, and the values that the heading
    doesn't have."""
    lines = []
    if found and found.cause:
        lines += sentence(found.cause) + [name_of(line) for line in found.more]
    elif entry:
        lines += sentence(entry.cause)
        told = [f"{name} is {name_of(value)}" for name, value in values.items() if name not in ("PLACE", "FILE", "LINE")]
        lines += sentence("Here " + ", ".join(told)) if told else []
    hint = attempt(hint_for, found) if found and found.keys else None
    remedy = found.remedy if found and found.remedy else entry.remedy if entry and not hint else None
    lines += sentence("What to do: " + remedy) if remedy else []
    return lines + (sentence("What to do: " + hint) if hint else [])


def hint_for(found):
    return importlib.import_module("maxj_hints").hint_of(found.keys)


class TooLong(Exception):
    """Finding out takes too long."""


def too_long(*_):
    raise TooLong


def attempt(call, *arguments, otherwise=None):
    """What a call gives, or else what is given instead, whatever happens in it."""
    try:
        return call(*arguments)
    except Exception:  # what can't be told is left out
        return otherwise


def is_odd(word):
    """Whether a word names what isn't a file, and may have no end."""
    return os.path.exists(word) and not os.path.isfile(word)


def looked_for(case):
    """What the finder of a code finds out, if there is one."""
    if not case.words or case.code[:1] not in MODULES or any(map(is_odd, case.words[1:])):
        return None
    finders = importlib.import_module(MODULES[case.code[0]]).FINDERS
    return finders[case.code](case) if case.code in finders else None


def explained(line, words, page=PAGE):
    """The lines that are told of a refusal; none of what isn't one."""
    line = line.rstrip("\n")
    if not re.match(r"refused [A-Z]\d+( |$)", line):
        return []
    code = line.split(" ")[1]
    entry, values = attempt(entry_of, line, page) or (None, {})
    path = attempt(file_of, code, values, words)
    found = attempt(looked_for, Case(line, words, code, values))
    place = attempt(place_of, path, values, found)
    path = found.path if found and found.path else path
    lines = attempt(heading, code, path, place, values, otherwise=[])
    lines += attempt(excerpt, place, otherwise=[])
    return lines + attempt(meaning, entry, values, found, otherwise=[])


def outcome(said, words):
    """What `unguarded` and `unbalanced` mean, as `expect` says them."""
    match = OUTCOME.fullmatch(said.rstrip("\n"))
    if not match:
        return []
    case, faults = Case(said, words), importlib.import_module("project_faults")
    lines = []
    for name, found in (("unguarded", match[1] and faults.unguarded(case, match[1], int(match[2]), match[3])),
                        ("unbalanced", match[4] and faults.unbalanced(case, int(match[4]), match[5], match[6]))):
        if found:
            place = place_of(None, {}, found)
            lines += [f"{name_of(found.path)}:{place.line}:{place.column + 1}: {name}", *excerpt(place), *meaning(None, {}, found)]
    return lines


def ended(status, words):
    """What can be told of a status without a refusal."""
    statuses = importlib.import_module("stopped").STATUSES
    lines = statuses[status](Case("", words)) if status in statuses else []
    return [f"maxjc: {lines[0]}", *lines[1:]] if lines else []


def told(status, said, words):
    if status == 1:
        return explained(said, words) if "\n" not in said.rstrip("\n") else []
    return outcome(said, words) if status == 0 else ended(status, words)


def main():
    status, said, *words = sys.argv[1:] if len(sys.argv) > 2 else ["", ""]
    signal.signal(signal.SIGALRM, too_long)
    signal.signal(signal.SIGPROF, too_long)
    signal.alarm(LONGEST)
    signal.setitimer(signal.ITIMER_PROF, SECONDS)
    for line in attempt(told, int(status), said, words, otherwise=[]):
        print(line, file=sys.stderr)


if __name__ == "__main__":
    attempt(main)
