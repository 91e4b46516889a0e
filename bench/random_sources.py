#!/usr/bin/env python3
"""Compares the parser with the grammar of docs/LANGUAGE.md on random sources.

The grammar is read from that page as it stands. Random sources are derived from it, and in most of
them some tokens are then left out, put in, turned round or written as others. Earley's algorithm
says for each whether its tokens are a file, and if not, which token is the first that no file has
after those before it. `maxjc compile` is to say `refused S3` with that place (or the source's size,
where it ends too early) exactly for those that are no file.

    bench/random_sources.py [COUNT [SEED]]
"""
import random
import re
import subprocess
import sys

import trials
from trials import PROGRAM, TOP

PAGE = (TOP / "docs/LANGUAGE.md").read_text()
PARENTS = {"Kernel": "KernelParameters", "CustomManager": "EngineParameters"}
LITERALS = ["0", "7", "0x1fL", "12l", "2.5", '"a b"']
NAMES = ["K", "M", "p", "x", "io", "Memory", "DFEVar", "Kernel", "KernelParameters", "EngineParameters", "CustomManager"]
WORD = re.compile(r"[A-Za-z_][A-Za-z0-9_]*$")


def listed(before, behind):
    """The words or signs that the page lists between two phrases."""
    text = PAGE[PAGE.index(before) + len(before) :]
    return text[: text.index(behind)]


RESERVED = set(listed("The words `", "` are reserved").split()) | {"super"}
SIGNS = listed("The signs are `", "`.").split()
LEVELS = [re.search(r"`(.*)`", part).group(1).split() for part in listed("the loosest first, are ", ". Tighter are").split(";")]
PREFIXES = listed("the prefixes `", "`").split()


class Grammar:
    """A context-free grammar. A symbol is a rule's name, ("is", text), ("name",) or ("literal",)."""

    def __init__(self):
        self.rules = {}

    def add(self, head, body):
        self.rules.setdefault(head, []).append(tuple(body))

    def fresh(self, *bodies):
        head = f"#{len(self.rules)}"
        self.rules[head] = [tuple(body) for body in bodies]
        return head

    def star(self, body):
        head = self.fresh([])
        self.rules[head].append((head, *body))
        return head

    def maybe(self, body):
        return self.fresh([], body)


def is_(text):
    return [("is", sign) for sign in ([".", "*"] if text == ".*" else [text])]


def choices(grammar, words):
    """The bodies that words of the page's notation say, up to a `)` or their end."""
    bodies, body = [], []
    while words and words[0] != ")":
        word = words.pop(0)
        if word == "|":
            bodies.append(body)
            body = []
            continue
        if word == "(":
            inner = [grammar.fresh(*choices(grammar, words))]
            words.pop(0)
        elif word.startswith('"'):
            inner = is_(word[1:-1])
        else:
            inner = [("name",)] if word == "name" else [word]
        mark = words[0] if words else ""
        if mark in ("?", "*"):
            words.pop(0)
            inner = [grammar.star(inner) if mark == "*" else grammar.maybe(inner)]
        body += inner
    return bodies + [body]


def page_grammar():
    """The grammar of the page, but classes and constructors."""
    grammar = Grammar()
    block = PAGE[PAGE.index("```\nfile") + 4 :]
    text = block[: block.index("```")]
    heads = list(re.finditer(r"(\w+)\s*:=", text))
    for head, behind in zip(heads, heads[1:] + [None]):
        said = text[head.end() : behind.start() if behind else len(text)]
        words = re.findall(r'"[^"]*"|\w+|[()|?*]', said)
        if head.group(1) not in ("class", "member", "ctor"):
            for body in choices(grammar, words):
                grammar.add(head.group(1), body)
    add_expressions(grammar)
    return grammar


def add_expressions(grammar):
    tighter = ["prefixed", *(f"level{k}" for k in range(len(LEVELS) - 1, 0, -1)), "or"]
    for signs, inner, head in zip(reversed(LEVELS), tighter, tighter[1:]):
        grammar.add(head, [inner, grammar.star([grammar.fresh(*(is_(sign) for sign in signs)), inner])])
    for prefix in PREFIXES:
        grammar.add("prefixed", [*is_(prefix), "prefixed"])
    grammar.add("prefixed", ["postfix"])
    arguments = grammar.maybe(["expr", grammar.star([*is_(","), "expr"])])
    called = [*is_("("), arguments, *is_(")")]
    index = [*is_("["), "expr", *is_("]")]
    dot = [*is_("."), ("name",)]
    grammar.add("postfix", ["primary"])
    for behind in (dot, dot + called, index):
        grammar.add("postfix", ["postfix", *behind])
    new = is_("new")
    for primary in ([("literal",)], is_("true"), is_("false"), is_("this"), [("name",)], [("name",), *called], [*is_("("), "expr", *is_(")")]):
        grammar.add("primary", primary)
    grammar.add("primary", [*new, ("name",), *called])
    grammar.add("primary", [*new, "base", *index, grammar.star(index)])
    for call in ([("name",), *called], [*new, ("name",), *called], ["postfix", *dot, *called]):
        grammar.add("call", call)


def add_classes(grammar, classes, parameters):
    """Classes of these names, whose constructors' first parameters have these names."""
    for name in classes:
        for parent, first in PARENTS.items():
            members = grammar.star([grammar.fresh(["field"], ["method"])])
            ctor = grammar.fresh(*(constructor(grammar, name, parent, first, parameter) for parameter in parameters))
            head = ["mods", *is_("class"), *is_(name), *is_("extends"), *is_(parent)]
            grammar.add("class", [*head, *is_("{"), members, ctor, members, *is_("}")])


def constructor(grammar, name, parent, first, parameter):
    more = [grammar.star([*is_(","), "param"])] if parent == "Kernel" else []
    head = ["mods", *is_(name), *is_("("), grammar.maybe(is_("final")), *is_(first), *is_(parameter), *more, *is_(")")]
    return [*head, *is_("{"), *is_("super"), *is_("("), *is_(parameter), *is_(")"), *is_(";"), grammar.star(["stmt"]), *is_("}")]


def matches(symbol, token):
    if symbol[0] == "is":
        return token == symbol[1]
    is_word = WORD.match(token) is not None
    if symbol[0] == "name":
        return is_word and token not in RESERVED
    return not is_word and token not in SIGNS


def first_bad(grammar, tokens):
    """The number of the first token that no file has after those before it, the number of tokens where they only begin a
    file, or None for a file (Earley 1970)."""
    rules = grammar.rules
    empties = set()
    while True:
        more = {head for head, bodies in rules.items() if any(all(part in empties for part in body) for body in bodies)}
        if more <= empties:
            break
        empties |= more
    sets = [{}]
    start = [("file", body, 0, 0) for body in rules["file"]]
    for place in range(len(tokens) + 1):
        now = sets[place]
        work = list(now) if place else start
        for item in work:
            now[item] = True
        behind = {}
        while work:
            head, body, dot, origin = work.pop()
            found = []
            if dot == len(body):
                found = [(h, b, d + 1, o) for (h, b, d, o) in list(sets[origin]) if d < len(b) and b[d] == head]
            elif isinstance(body[dot], tuple):
                if place < len(tokens) and matches(body[dot], tokens[place]):
                    behind[(head, body, dot + 1, origin)] = True
            else:
                found = [(body[dot], b, 0, place) for b in rules[body[dot]]]
                if body[dot] in empties:
                    found.append((head, body, dot + 1, origin))
            for item in found:
                if item not in now:
                    now[item] = True
                    work.append(item)
        if place < len(tokens):
            if not behind:
                return place
            sets.append(behind)
    whole = any(head == "file" and dot == len(body) and origin == 0 for head, body, dot, origin in sets[-1])
    return None if whole else len(tokens)


def shortest(grammar):
    """The fewest tokens of each rule."""
    sizes = {}

    def size(body):
        return sum(1 if isinstance(part, tuple) else sizes.get(part, 10**6) for part in body)

    changed = True
    while changed:
        changed = False
        for head, bodies in grammar.rules.items():
            least = min(map(size, bodies))
            if least < sizes.get(head, 10**6):
                sizes[head] = least
                changed = True
    return size


def derive(grammar, size, symbol, depth):
    """Random tokens of a symbol; the shortest ones where the depth is used up. What may be absent mostly is."""
    if isinstance(symbol, tuple):
        if symbol[0] == "is":
            return [symbol[1]]
        return [random.choice(NAMES if symbol[0] == "name" else LITERALS)]
    bodies = grammar.rules[symbol]
    if depth <= 0:
        body = min(bodies, key=size)
    elif () in bodies and random.random() < 0.6:
        body = ()
    else:
        body = random.choice(bodies)
    return [token for part in body for token in derive(grammar, size, part, depth - 1)]


def changed(tokens):
    tokens = list(tokens)
    for _ in range(random.choice([0, 1, 1, 1, 2, 3])):
        at = random.randrange(len(tokens))
        kind = random.randrange(5)
        if kind == 0:
            del tokens[at]
        elif kind == 1:
            tokens.insert(at, any_token())
        elif kind == 2:
            tokens[at] = any_token()
        elif kind == 3:
            tokens.insert(at, random.choice(tokens))
        else:
            other = min(at + 1, len(tokens) - 1)
            tokens[at], tokens[other] = tokens[other], tokens[at]
        if not tokens:
            return [any_token()]
    return tokens[: random.randrange(len(tokens))] or tokens if random.random() < 0.1 else tokens


def any_token():
    return random.choice([*SIGNS, *sorted(RESERVED), *NAMES, *NAMES, *LITERALS])


HEAD = "class K extends Kernel { K ( KernelParameters p ) { super ( p ) ;".split()


def random_tokens(grammar, size):
    """A file, mostly of one constructor with a few statements, some tokens of it changed."""
    while True:
        if random.random() < 0.4:
            tokens = derive(grammar, size, "file", random.choice([12, 30, 50]))
        else:
            statements = [derive(grammar, size, "stmt", random.choice([12, 24, 40])) for _ in range(random.randrange(1, 4))]
            tokens = HEAD + sum(statements, []) + ["}", "}"]
        if len(tokens) <= 120:
            return changed(tokens)


def written(tokens):
    """The source of the tokens, with white space or a comment between them, and the place of each."""
    source, places = "", []
    for token in tokens:
        places.append(len(source))
        source += token + random.choice([" ", " ", "\n", " /* x */", " // y\n"])
    return source, places


def behind(tokens, words):
    """The names that stand directly behind one of the words; some name, where there is none."""
    return sorted({token for before, token in zip(tokens, tokens[1:]) if before in words and matches(("name",), token)}) or ["_"]


def disagrees(folder, tokens):
    """What is wrong of a source, and whether it is a file."""
    grammar = page_grammar()
    add_classes(grammar, behind(tokens, ["class"]), behind(tokens, list(PARENTS.values())))
    bad = first_bad(grammar, tokens)
    source, places = written(tokens)
    wanted = None if bad is None else f"refused S3 {places[bad] if bad < len(places) else len(source)}"
    (folder / "source.maxj").write_text(source)
    words = [PROGRAM, "compile", "source.maxj", str(TOP / "examples/tables/zero.json"), "out.v", "out.report"]
    said = subprocess.run(words, cwd=folder, capture_output=True, text=True).stdout.strip()
    fits = said == wanted if wanted else not re.match(r"refused S[1-5]", said)
    return (None if fits else f"{said}, and not {wanted or 'a file'}:\n{source}"), bad is None


def main():
    grammar = page_grammar()
    add_classes(grammar, ["K", "M"], ["p", "x"])
    size = shortest(grammar)
    files = []

    def trial(folder):
        wrong, is_file = disagrees(folder, random_tokens(grammar, size))
        files.append(is_file)
        return wrong

    count = trials.run(400, trial)
    if count:
        print(f"{count} random sources, {sum(files)} of them files of the grammar: the parser says the same")
    return 1 if count is None else 0


if __name__ == "__main__":
    sys.exit(main())
