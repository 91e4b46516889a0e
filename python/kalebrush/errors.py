"""What can go wrong, as exceptions."""
from __future__ import annotations

import re

HEADING = re.compile(r"^(?:(?P<file>.*?):)?(?:(?P<line>\d+):)?(?:(?P<column>\d+):)? ?refused [A-Z]\d+\b")
REMEDY = re.compile(r"\b(?:What to do|Remedy|Hint): ?", re.I)


class KalebrushError(Exception):
    """The base of all exceptions of this package."""


class ValueRefused(KalebrushError, ValueError):
    """A value that isn't a word of its port's type, or an input that doesn't fit the design."""


class ProgramError(KalebrushError):
    """The program ended with another status than 0, 1 or 6: a file can't be read or written, or memory was short."""

    REASONS = {
        2: "the words are no command",
        3: "a file can't be read",
        4: "a file can't be written",
        5: "no memory was left",
    }

    def __init__(self, status: int, words: list[str], told: str) -> None:
        reason = self.REASONS.get(status, f"status {status}")
        super().__init__("\n".join(filter(None, [f"maxjc {words[0] if words else ''}: {reason}", told.strip()])))
        self.status, self.words, self.told = status, words, told

    def __reduce__(self) -> tuple:
        return ProgramError, (self.status, self.words, self.told)


class Refusal(KalebrushError):
    """The program refused a source, a table, a text, a run or a report.

    `code` and `values` are those of the line that the program said. `file`, `line` and `column` say where, from 1, or
    are None. `cause` and `remedy` are for people, and `explanation` is all that was told.
    """

    def __init__(self, line: str, explanation: str = "", file: str | None = None) -> None:
        _, self.code, *self.values = line.split()
        self.said, self.explanation, self.file = line, explanation.strip(), file
        self.line: int | None = None
        self.column: int | None = None
        self.cause, self.remedy = "", ""
        self._read()
        super().__init__(f"{line}\n{self.explanation}".strip())

    def __reduce__(self) -> tuple:
        return Refusal, (self.said, self.explanation, self.file)

    def _read(self) -> None:
        """Takes the place, the cause and the remedy from the explanation, which may have other lines before it."""
        lines = self.explanation.splitlines()
        at = next((number for number, line in enumerate(lines) if HEADING.match(line)), None)
        if at is None:
            return
        place = HEADING.match(lines[at])
        self.file = place["file"] or self.file
        self.line, self.column = (int(place[part]) if place[part] else None for part in ("line", "column"))
        self.explanation = "\n".join(lines[at:])
        prose = [line for line in lines[at + 1 :] if line.strip() and not line.startswith("  ")]
        cause, *remedy = REMEDY.split(" ".join(prose), maxsplit=1)
        self.cause, self.remedy = cause.strip(), (remedy or [""])[0].strip()
