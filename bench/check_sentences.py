#!/usr/bin/env python3
"""Counts the words of the sentences of the pages that users read.

A page's prose is its paragraphs and items of lists; its tables are looked at cell by cell. Code blocks, headings and
pictures don't count; what stands in backquotes and a link's target are one word. The mean of a page's prose is below 20
words, and no sentence, in prose or in a cell, has more than 40.

    bench/check_sentences.py [PAGE ..]     --long lists the sentences with more than 30 words
"""
import pathlib
import re
import sys

TOP = pathlib.Path(__file__).resolve().parent.parent
PAGES = ["README.md", "docs/LANGUAGE.md", "docs/REFUSALS.md", "docs/HARDWARE.md", "docs/FORMATS.md"]
MEAN, MOST, LONG = 20, 40, 30
ITEM = re.compile(r"^\s*(?:[-*+]|\d+\.)\s+")


def blocks_of(text):
    """The blocks of a page outside of code: whether a block is a table's cell, and its text."""
    text = re.sub(r"^(```|~~~).*?^\1[^\n]*$", "", text, flags=re.S | re.M)
    block = []
    for line in [*text.split("\n"), ""]:
        is_row = line.lstrip().startswith("|")
        if is_row or not line.strip() or ITEM.match(line) or line.startswith(("#", "!", "    ", "<")):
            if block:
                yield False, " ".join(block)
            block = []
        if is_row:
            cells = re.split(r"(?<!\\)\|", line.strip().strip("|"))
            yield from ((True, cell.strip()) for cell in cells if re.search(r"\w", cell))
        elif line.strip() and not line.startswith(("#", "!", "    ", "<")):
            block.append(ITEM.sub("", line).strip())


def plain(text):
    """A block's text where code and links are one word each."""
    text = re.sub(r"`` .*? ``|`[^`]*`", "code", text)
    text = re.sub(r"!?\[([^\]]*)\]\([^)]*\)", r"\1", text)
    return re.sub(r"[*_]{1,2}", "", text)


def sentences_of(text):
    for part in re.split(r"(?<=[.?!:])(?:[)\"]*)\s+(?=[\"(]?[A-Z0-9]|code)", plain(text)):
        words = re.findall(r"[\w^'/+-]+", part)
        if words:
            yield words, part


def looked_at(page):
    """A page's sentences of prose and of tables."""
    prose, cells = [], []
    for is_cell, text in blocks_of((TOP / page).read_text()):
        (cells if is_cell else prose).extend(sentences_of(text))
    return prose, cells


def main():
    pages = [word for word in sys.argv[1:] if word != "--long"] or PAGES
    wrong = 0
    for page in pages:
        prose, cells = looked_at(page)
        mean = sum(len(words) for words, _ in prose) / max(1, len(prose))
        longest = max((len(words) for words, _ in prose + cells), default=0)
        wrong += mean >= MEAN or longest > MOST
        print(f"{page}: {len(prose)} sentences, {mean:.1f} words in the mean, the longest {longest}")
        limit = LONG if "--long" in sys.argv else MOST
        for words, part in prose + cells:
            if len(words) > limit:
                print(f"  {len(words)}: {part}")
    return 1 if wrong else 0


if __name__ == "__main__":
    sys.exit(main())
