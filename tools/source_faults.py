"""Which of the causes of a code S holds: what stands at the place of a source that is refused.

A cause is a sentence, with keys for a hint: names and forms of tools/maxj_hints.py. Sources are texts of one character a byte.
"""
import pathlib
import re
import sys

sys.path.insert(0, str(pathlib.Path(__file__).resolve().parent.parent / "bench"))

import source_tree
from places import shown

TYPES = {"int", "boolean", "String", "DFEVar", "DFEType", "CounterChain", "KernelBlock", "DFELink"}
STARTS = {"for", "while", "if"}
FAR = 2_000  # tokens between two neighbours among `;`, `{` and `}`


class Reader(source_tree.Parser):
    """A parser that notes which tokens it looked for at the token where it stands."""

    def __init__(self, source, tokens):
        self.source, self.tokens, self.at = source, tokens, 0
        self.wanted = {}

    def note(self, *texts):
        self.wanted.setdefault(self.at, {}).update(dict.fromkeys(texts))

    def is_next(self, *texts):
        self.note(*texts)
        return super().is_next(*texts)

    def name(self):
        self.note("a name")
        return super().name()


def tokens_to(source, place):
    """The tokens of a source up to a place and the one that begins there, as far as they are tokens."""
    found, at = [], 0
    while at < len(source):
        skipped = source_tree.SKIPPED.match(source, at)
        if skipped:
            at = skipped.end()
            continue
        token = source_tree.TOKEN.match(source, at)
        if not token:
            break
        found.append(source_tree.Token(token.lastgroup, token.group(), at))
        at = token.end()
    return found + [source_tree.Token("end", "", len(source))]


# Bytes and tokens


def stray_byte(source, place):
    byte = ord(source[place])
    if byte > 126:
        return f"the byte {byte} here is no character of the language; outside comments all are ASCII", []
    return f"the control character {byte} stands here; of those there are tab, line feed, form feed and carriage return alone", []


def no_token(source, place):
    """What begins no token, or stands behind a number."""
    mark, rest = source[place], source[place:]
    number = re.search(r"0x[0-9a-fA-F]*$|[0-9]+(\.[0-9]+)?[Ll]?$", source[:place])
    if number and re.match(r"\w", mark):
        return behind_number(number[0], mark)
    if rest.startswith("/*"):
        return "the comment that begins here doesn't end", ["open comment"]
    if mark == '"':
        line = rest.split("\n")[0]
        if "\\" in line:
            return "the string that begins here has a `\\` in it", ["\\"]
        return "the string that begins here doesn't end in its line", ["open string"]
    if mark == "0" and rest[1:2] == "x":
        return "behind `0x` stand hexadecimal digits, and here none does", []
    return f"no token begins with `{shown(mark.encode('latin-1'))}`", [mark]


def behind_number(number, mark):
    said = f"`{mark}` stands directly behind the number `{number}`"
    if number == "0" and mark in "bB":
        return said + ": there are no binary numbers", ["0b"]
    if number == "0" and mark.isdigit():
        return said + ": a number of several digits doesn't begin with 0", ["0 before digits"]
    if mark == "_":
        return said, ["_ in number"]
    return said, ["f behind number" if mark in "fFdD" else "exponent" if mark in "eE" else ""]


def outside(source, place):
    token = source_tree.TOKEN.match(source, place)
    if token.lastgroup == "word":
        return f"`{token.group()}` is a word of Java, and none of the language", [token.group()]
    if token.lastgroup == "whole":
        return f"the integer has {len(token.group())} characters and is above 2^128 - 1", []
    return f"the decimal has {len(token.group()) - 1} digits, and at most 30", []


def excess(source, place):
    tokens = [token for token in tokens_to(source, place) if token.place <= place]
    if tokens[-1].text in (";", "{", "}"):
        return f"over {FAR:,} tokens stand between this `{tokens[-1].text}` and the `;`, `{{` or `}}` before it", ["long sum"]
    return "over 200 of `(`, `[` and `{` are open here at once", []


# Syntax


def misplaced(source, place):
    """What can't stand where it does, and what could."""
    tokens = tokens_to(source, place)
    at = next(k for k, token in enumerate(tokens) if token.place == place)
    found, before = tokens[at], tokens[at - 1] if at else None
    key = form_at(source, tokens, at)
    here = "the source ends here" if found.kind == "end" else f"`{shown(found.text.encode('latin-1'))}` can't stand here"
    where = f", behind `{shown(before.text.encode('latin-1'))}`" if before else ", at the start"
    wanted = wanted_at(source, tokens, place)
    could = f"; expected {wanted}" if wanted else ""
    return here + where + could, [key or ("open end" if found.kind == "end" else "")]


def wanted_at(source, tokens, place):
    """The tokens that could stand at a place, as the parser of bench/source_tree.py looked for them; a few of them."""
    reader = Reader(source, tokens)
    try:
        reader.file()
    except (source_tree.NoFile, IndexError, RecursionError):
        pass
    if reader.at >= len(tokens) or tokens[reader.at].place != place:
        return ""
    texts = [text for text in reader.wanted.get(reader.at, {}) if may_stand(text, [token.text for token in tokens], reader.at)]
    operators = [text for text in texts if text in OPERATORS]
    if len(operators) > 4:
        texts = [text for text in texts if text not in OPERATORS] + ["an operator"]
    words = [text for text in texts if text not in STARTS and text not in ("true", "false", "this", "new", "package", "import")]
    if len(words) > 12:
        return ""
    words = [text if " " in text else f"`{text}`" for text in words]
    return ", ".join(words[:-1]) + " or " * (len(words) > 1) + "".join(words[-1:])


def may_stand(text, texts, at):
    """Whether a token that the parser looked for may stand there indeed: a constructor's head is narrower than that of a method."""
    before = texts[max(0, at - 2) : at]
    if before == [")", "{"] and opens_constructor(texts, at - 2):
        return text == "super"
    if text == "super" or (text == "[" and before[-1:] in (["KernelParameters"], ["EngineParameters"])):
        return False
    return not (text == "," and before[:1] == ["EngineParameters"] or text in ("=", ";") and before[:1] == ["void"])


def opens_constructor(texts, at):
    """Whether a closing parenthesis ends the parameters of a constructor."""
    start = max((k for k in range(at) if texts[k] == "("), default=0)
    return start > 0 and texts[start - 1] in class_names(texts) and texts[start - 2] != "new"


OPERATORS = {sign for level in source_tree.LEVELS for sign in level} | {"?", ".", "[", "=", "+=", "-=", "*=", "++", "--", "<=="}


def form_at(source, tokens, at):
    """The form of Java or MaxJ that stands at a token, by its key among the hints, or None."""
    texts = [token.text for token in tokens]
    here, before, behind = texts[at], texts[at - 1] if at else "", texts[at + 1] if at + 1 < len(texts) else ""
    checks = [
        ("++i", here in ("++", "--") and before in ("(", ";", "{", "}", ")", "=", ",", "[")),
        ("for each", here == ":" and "for" in texts[max(0, at - 6) : at]),
        ("body", here in STARTS and before in (")", "else")),
        ("no extends", here == "{" and at > 1 and texts[at - 2] == "class"),
        (here, at > 0 and before == "extends"),
        ("two constructors", here == "(" and before in class_names(texts) and texts[at - 2] in ("}", ";", "public", "private", "protected")),
        ("super", here == "super"),
        ("open size", here == "]" and before == "[" and "new" in texts[max(0, at - 8) : at]),
        ("array behind name", here == "[" and behind == "]" and at > 1 and texts[at - 2] in TYPES),
        ("two declared", here == "," and is_declaring(texts, at)),
        ("compound", here == "=" and before in ("/", "%", "&", "|", "^", "<<", ">>")),
        (">>>", here == ">" and before == ">>"),
        ("->", here == ">" and before == "-"),
        ("(type)", before == ")" and at > 2 and texts[at - 2] in TYPES and texts[at - 3] == "("),
        ("(type)", here in ("int", "boolean") and before == "("),
    ]
    for key, holds in checks:
        if holds:
            return key
    return generic_or_end(source, tokens, at)


def class_names(texts):
    return {texts[k + 1] for k, text in enumerate(texts[:-1]) if text == "class"}


def is_declaring(texts, at):
    """Whether the statement that a token stands in is a declaration without a call that is open."""
    start = max((k for k in range(at) if texts[k] in (";", "{", "}")), default=-1) + 1
    words = texts[start:at]
    return words.count("(") == words.count(")") and words.count("{") == words.count("}") and words[:1] != [] and words[0] in TYPES | {"final"}


def generic_or_end(source, tokens, at):
    """A type with a parameter, a name of MaxJ, or a line whose `;` is missing."""
    found, before = tokens[at], tokens[at - 1] if at else None
    line = source[: found.place].rfind("\n") + 1
    end = source.find("\n", found.place)
    words = source_tree.WORD.findall(source[line : end if end >= 0 else len(source)])
    for word in words:
        if word in ("DFEVectorType", "DFEVector", "DFEStruct", "DFEStructType", "Count", "Accumulator", "List", "ArrayList", "Map"):
            return word
    if found.text == "<" and before and before.kind == "word":
        return "generics"
    if before and before.place < line and before.text not in (";", "{", "}") and (found.kind == "word" or found.text == "}"):
        return "semicolon"
    return None


def no_project(source):
    """Which of the causes of S6 holds, with the class where it does and keys for a hint."""
    classes = source_tree.classes_of(source)
    kernels = [class_ for class_ in classes if not class_.manager]
    managers = [class_ for class_ in classes if class_.manager]
    names = [class_.name for class_ in classes]
    twice = next((class_ for k, class_ in enumerate(classes) if class_.name in names[:k]), None)
    if not kernels:
        return "the source has no kernel", classes[0].place, ["no kernel"]
    if len(managers) > 1:
        return f"the source has {len(managers)} managers, and may have one", managers[1].place, ["two managers"]
    if twice:
        return f"two classes have the name `{twice.name}`", twice.place, ["two names"]
    return f"the source has {len(kernels)} kernels and no manager that joins them", kernels[1].place, ["two kernels"]


CAUSES = {"S1": stray_byte, "S2": no_token, "S3": misplaced, "S4": outside, "S5": excess}


def cause_of(code, source, place):
    """The cause of a refusal by a code S with its place, and keys for a hint."""
    return CAUSES[code](source, place)
