#!/usr/bin/env python3
"""Checks the productions of crates/rtl_text/specs/Productions.antt against texts.

It reads the productions from that file as they stand, makes a context-free grammar of them (the
trees that parts carry are left out), and says of each text given whether its tokens are a file of
that grammar, and if not, at which token the first fault stands (Earley's algorithm).

    bench/check_definitions.py TEXT ..      with no TEXT: the texts in bench/texts
"""
import pathlib
import re
import sys

TOP = pathlib.Path(__file__).resolve().parent.parent
RESERVED = "module endmodule input output wire reg assign always posedge begin end if".split()
BINARY = ["+", "-", "*", "/", "&", "|", "^", "==", "<"]
TOKEN = re.compile(
    r"(?P<gap>[ \t\n\f\r]+|//[^\n]*|/\*.*?\*/)"
    r"|(?P<literal>[0-9]+'h[0-9a-fA-F]+)|(?P<number>[0-9]+)"
    r"|(?P<word>[A-Za-z_][A-Za-z0-9_$]*)|(?P<sign><=|==|[()\[\]{};:,.@?=<~+\-*/&|^])",
    re.S,
)


def productions():
    """The choices of each part: a list of (head, [part, ..]) with parts as hashable terms."""
    text = (TOP / "crates/rtl_text/specs/Productions.antt").read_text()
    text = text[text.index("pub data Choice") :]
    lines = re.split(r"\n  (?=[a-z_']+ :)", text)[1:]
    rules = []
    for line in lines:
        line = re.sub(r"--.*", "", line)
        flat = " ".join(line.split())
        match = re.search(r"Choice \((\w+)[^→]*?\) (\[\]|\(.*∷ \[\]\))$", flat) or re.search(
            r"Choice \((\w+).*?\)\)* (\[\]|\((?:Reserved|Sign_|Id|Module|Port|Item|Update|Connected|Number|Literal|Ports).*∷ \[\]\))$", flat
        )
        if not match:
            sys.exit("not understood: " + flat)
        head, body = match.groups()
        parts = [] if body == "[]" else [term(p) for p in body[1:-1].split(" ∷ ") if p != "[]"]
        rules.append((head, parts))
    return rules


def term(part):
    part = part.strip()
    fixed = re.match(r'(Reserved|Sign_) \(codes "(.*)"\)$', part)
    if fixed:
        return (fixed.group(1), fixed.group(2))
    if part.startswith("Sign_ (sign_bytes"):
        return ("Binary",)
    if part == "Number 0":
        return ("Number", 0)
    name = part.split()[0]
    return (name,)


def is_token(part, token):
    kind, text = token
    if part[0] == "Reserved":
        return kind == "word" and text == part[1]
    if part[0] == "Sign_":
        return kind == "sign" and text == part[1]
    if part[0] == "Binary":
        return kind == "sign" and text in BINARY
    if part[0] == "Clock":
        return token == ("word", "clk")
    if part[0] == "Id":
        return kind == "word" and text not in RESERVED
    if part[0] == "Number":
        return kind == "number" and (len(part) == 1 or int(text) == part[1])
    if part[0] == "Literal":
        if kind != "literal":
            return False
        width, digits = text.split("'h")
        return 1 <= int(width) <= 128 and int(digits, 16) < 2 ** int(width)
    return False


TERMINALS = {"Reserved", "Sign_", "Binary", "Clock", "Id", "Number", "Literal"}


def tokens_of(text):
    at, tokens = 0, []
    while at < len(text):
        match = TOKEN.match(text, at)
        if not match:
            return tokens, at
        if match.lastgroup != "gap":
            tokens.append((match.lastgroup, match.group()))
        at = match.end()
    return tokens, None


def first_fault(rules, tokens):
    """None where the tokens are a file, else the number of the first token with which they begin none."""
    by_head = {}
    for number, (head, parts) in enumerate(rules):
        by_head.setdefault(head, []).append((number, parts))
    empties = {head for head, parts in rules if not parts}
    sets = [set() for _ in range(len(tokens) + 1)]
    start = {(n, 0, 0) for n, _ in by_head["File"]}
    sets[0] |= start
    for i in range(len(tokens) + 1):
        work = list(sets[i])
        while work:
            number, dot, origin = work.pop()
            head, parts = rules[number]
            new = []
            if dot == len(parts):
                for other in list(sets[origin]):
                    o_parts = rules[other[0]][1]
                    if other[1] < len(o_parts) and o_parts[other[1]] == (head,):
                        new.append((other[0], other[1] + 1, other[2]))
            elif parts[dot][0] in TERMINALS:
                if i < len(tokens) and is_token(parts[dot], tokens[i]):
                    sets[i + 1].add((number, dot + 1, origin))
            else:
                name = parts[dot][0]
                new += [(n, 0, i) for n, _ in by_head[name]]
                if name in empties:
                    new.append((number, dot + 1, origin))
            for item in new:
                if item not in sets[i]:
                    sets[i].add(item)
                    work.append(item)
        if i < len(tokens) and not sets[i + 1]:
            return i
    done = any(rules[n][0] == "File" and dot == len(rules[n][1]) and o == 0 for n, dot, o in sets[-1])
    return None if done else len(tokens)


def main():
    rules = productions()
    names = sys.argv[1:] or sorted(str(p) for p in (TOP / "bench/texts").glob("*.v"))
    bad = False
    for name in names:
        tokens, stuck = tokens_of(pathlib.Path(name).read_text())
        fault = first_fault(rules, tokens)
        wants_fault = ".bad." in name
        said = f"no token at byte {stuck}" if stuck is not None else ("a text" if fault is None else f"fault at token {fault} of {len(tokens)}")
        is_bad = stuck is not None or fault is not None
        bad |= is_bad != wants_fault
        print(f"{name}: {said}")
    print(f"{len(rules)} productions")
    sys.exit(1 if bad else 0)


main()
