#!/usr/bin/env python3
"""Whether the pages' links lead somewhere: each relative link to a file that is there, and behind a `#` to a heading of it; and each
path in backticks that begins with a folder of the repository and ends in a file's name.

    bench/check_links.py     ends with status 1 where one doesn't
"""
import pathlib
import re
import sys

TOP = pathlib.Path(__file__).resolve().parent.parent
LINK = re.compile(r"\[[^\]]*\]\(([^)\s]+)\)")
PATH = re.compile(r"`((?:crates|docs|bench|examples|tools)/[\w./-]+\.\w+)`")
BLOCK = re.compile(r"^```.*?^```$", re.M | re.S)


def pages():
    """The pages of the repository, but for what the toolchain writes."""
    return sorted(page for page in TOP.rglob("*.md") if "out" not in page.relative_to(TOP).parts)


def headings(page):
    """The names by which a page's headings are linked."""
    heads = re.findall(r"^#+ (.*)$", BLOCK.sub("", page.read_text()), re.M)
    return {re.sub(r"[^\w -]", "", head.lower()).replace(" ", "-") for head in heads}


def wrong(page):
    """The links and paths of a page that lead nowhere."""
    text = BLOCK.sub("", page.read_text())
    for target in LINK.findall(text):
        name, _, heading = target.partition("#")
        file = page.parent / name if name else page
        if re.match(r"\w+:", target):
            continue
        if not file.exists() or (heading and heading not in headings(file)):
            yield target
    yield from (path for path in PATH.findall(text) if not (TOP / path).exists())


def main():
    found = [f"{page.relative_to(TOP)}: {target} isn't there" for page in pages() for target in wrong(page)]
    for line in found:
        print(line)
    print(f"check_links: {len(pages())} pages, {len(found)} links that lead nowhere")
    return 1 if found else 0


if __name__ == "__main__":
    sys.exit(main())
