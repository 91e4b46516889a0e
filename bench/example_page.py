"""What the pages of the examples show: commands with the lines that they say, and parts of sources."""
import pathlib
import re
from dataclasses import dataclass

TOP = pathlib.Path(__file__).resolve().parent.parent
PAGES = sorted((TOP / "examples").glob("*/README.md"))
BLOCK = re.compile(r"^```(\w*)\n(.*?)^```$", re.M | re.S)
PROGRAM = "./maxjc "


@dataclass
class Command:
    """The words behind the program's name, and the lines that are shown behind it."""

    words: list
    lines: list


def commands():
    """The commands of the pages, page by page, in order."""
    found = []
    for kind, text in blocks():
        if kind:
            continue
        for line in text.splitlines():
            if line.startswith(PROGRAM):
                found.append(Command(line.split()[1:], []))
            elif found:
                found[-1].lines.append(line)
    return found


def blocks():
    """The blocks of the pages, each with the word at its head; commands have none."""
    for page in PAGES:
        yield from BLOCK.findall(page.read_text())


def tables():
    """The latency table by which each example is compiled, the first one where there are some, by the example's name."""
    compiled = [command.words for command in commands() if command.words[0] == "compile"]
    return {pathlib.Path(words[1]).parent.name: TOP / words[2] for words in reversed(compiled)}


def strange_excerpts():
    """The parts of sources that stand in no source, by their first line; the depth of lines is left out."""

    def plain(text):
        return "\n".join(line.strip() for line in text.splitlines() if line.strip())

    sources = [plain(path.read_text()) for path in TOP.glob("examples/*/*.maxj")]
    for kind, text in blocks():
        if kind == "java" and not any(plain(text) in source for source in sources):
            yield text.strip().splitlines()[0]
