#!/usr/bin/env python3
"""Writes whatever the parser of sources needs of the grammar, from the one table that a person
writes, tools/source_grammar.txt, which says how it is read: the choices of each rule, in code and
in definitions, what follows from them (first sets, guards, ranks and the like), and the proofs that
go through rules or choices one by one.

    tools/source_grammar.py             writes what is made, formatted by `rattle fmt`
    tools/source_grammar.py --check     says where other tokens stand than it would write, and ends
                                        with status 1 then; passed over where rattle is missing

Whole files are made, and parts of files between a line `Made by tools/source_grammar.py ..: NAME.`
and a line `By hand again.`; the rest of such a file is left as it is. Where a part has no such lines
yet, it is found by its text, and they are set.
"""
import difflib
import pathlib
import re
import shutil
import subprocess
import sys
import tempfile

from grammar_table import EFFECTS, STEPS, SYNTAX, TABLE, VALUES, Grammar, Lookahead, Value
from grammar_table import fail, read, snake

LONGEST = 160  # columns of a line in code and definitions
LONGEST_PROOF = 200  # of a line in proofs
SYMBOLS = 96  # where a list of symbols is broken that is too long for a line
SETS = 152  # where a set of tokens is
UNRANKED = 99  # the rank of a rule that has none, as `is_ranked` of proofs/Ranks.antt knows it


# How it is written in definitions and proofs


def applied(*words):
    """A name with what it is applied to, in parentheses where there is such."""
    words = [word for word in words if word]
    return f"({' '.join(words)})" if len(words) > 1 else words[0]


def defined(value):
    return value.defined() if value else ""


def class_defined(one):
    return applied(f"C.{one[0]}", defined(one[1]))


def rule_defined(at):
    return applied(f"R.{at[0]}", defined(at[1]))


def symbol_defined(one, is_short=True):
    """A symbol; `sign` and `word` are short for one that is passed over."""
    if one.sort == "token":
        if is_short and one.effect == "Skip" and one.name in ("Sign", "Word"):
            return f"{one.name.lower()} {one.value.defined()}"
        return f"Mark {class_defined(one[1:3])} {applied(one.effect, defined(one.node))}"
    if one.sort == "step":
        return f"Act {applied(one.name, defined(one.value))}"
    if one.sort == "rule":
        return f"Sub {rule_defined(one[1:3])}"
    if one.sort == "named":
        return f"Call {applied(f'Y.{one.name}', defined(one.value))}"
    return f"{one.name} {defined(one.value)}".rstrip()


def cons(items):
    """A list in pieces; before each but the first a line may be broken."""
    return [*items[:1], *(f"∷ {item}" for item in items[1:]), "∷ []"] if items else ["[]"]


def bracketed(pieces):
    """The pieces in parentheses, but for the empty list."""
    if pieces == ["[]"]:
        return pieces
    front = [f"({pieces[0]}", *pieces[1:]]
    return [*front[:-1], f"{front[-1]})"]


def symbols_defined(symbols, is_short=True):
    """Symbols in pieces. Lists with a name stand at their end."""
    plain = [one for one in symbols if one.sort != "list"]
    lists = [symbol_defined(one) for one in symbols if one.sort == "list"]
    if any(one.sort == "list" for one in symbols[: len(plain)]):
        fail(f"the list {lists[0]} stands before other symbols, which no definition can say")
    pieces = cons([symbol_defined(one, is_short) for one in plain])
    if not lists:
        return pieces
    end = " ++ ".join(lists)
    return [*pieces[:-1], f"∷ {end}"] if plain else [end]


def sets(classes):
    return bracketed(cons([f"C.{name} {defined(value)}".rstrip() for name, value in classes]))


def filled(start, pieces, depth, width):
    """Lines of the pieces, as long as the width allows, the first one behind a start."""
    lines = [start]
    for piece in pieces:
        if len(lines[-1]) + 1 + len(piece) > width:
            lines.append(" " * depth + piece)
        else:
            lines[-1] += f" {piece}"
    return lines


def on_a_line(start, pieces, depth, longest, width):
    """The start and the pieces on a line, or filled where that is too long."""
    line = " ".join([start, *pieces])
    return [line] if len(line) <= longest else filled(start, pieces, depth, width)


def equation(left, pieces, longest, width):
    """An equation on a line, or with its right side on lines below."""
    line = f"{left} = {' '.join(pieces)}"
    if len(line) <= longest:
        return [line]
    return [f"{left} =", *filled(f"    {pieces[0]}", pieces[1:], 4, width)]


def grouped(groups):
    """A list of lists of pieces, with `∷` between them and the end behind the last one."""
    rows = [groups[0], *([f"∷ {group[0]}", *group[1:]] for group in groups[1:])]
    return [*rows[:-1], [*rows[-1], "∷ []"]]


def choices_equation(look, at):
    """The choices of a rule, on a line or each on its own. One that is a list with a name in the
    code stands without parentheses."""
    grammar, groups = look.grammar, []
    for taken in grammar.taken[at]:
        pieces = symbols_defined(grammar.spelled(taken.symbols))
        groups.append(pieces if grammar.constant(taken.symbols) else bracketed(pieces))
    groups = grouped(groups)
    left = f"choices {rule_defined(at)} ="
    line = " ".join([left, *(piece for group in groups for piece in group)])
    if len(line) <= LONGEST:
        return [line]
    rows = [on_a_line(f"    {group[0]}", group[1:], 4, LONGEST, SYMBOLS) for group in groups]
    return [left, *(row for group in rows for row in group)]


def guards_equation(look, at):
    groups = grouped([sets(guard) for guard in look.guards[at]])
    pieces = [piece for group in groups for piece in group]
    return equation(f"guards {rule_defined(at)}", pieces, LONGEST, SETS)


def first_equation(look, at):
    return equation(f"first {rule_defined(at)}", sets(look.first[at]), LONGEST, SETS)


def peek_equation(look, at):
    return equation(f"peek {rule_defined(at)}", sets(look.peek[at]), LONGEST, SETS)


def nullable_equation(look, at):
    return [f"nullable {rule_defined(at)} = {'true' if look.nullable[at] else 'false'}"]


def weight_equation(look, at):
    return [f"weight {rule_defined(at)} = {look.weight[at]}"]


def rank_equation(look, at):
    return [f"rank {rule_defined(at)} = {look.rank.get(at, UNRANKED)}"]


def lowest_equation(look, at):
    symbols = look.rows[at][look.lowest[at]] if at in look.lowest else []
    pieces = bracketed(symbols_defined(symbols, is_short=False))
    return equation(f"lowest {rule_defined(at)}", pieces, LONGEST_PROOF, SYMBOLS)


def among(number):
    """That a choice is this one of its rule, from 0."""
    return "inr (" * number + "inl refl" + ")" * number


def lowest_among_equation(look, at):
    text = among(look.lowest[at]) if at in look.lowest else "absurd (cc)"
    return [f"lowest_among {rule_defined(at)} e = {text}"]


def sub_list_equation(look, at):
    """That a rule has a list of tokens, where it has a rank."""
    rule = rule_defined(at)
    return [f"sub_list {rule} = ranked {rule} refl"] if at in look.rank else []


def of_rules(look, equation_of):
    """A function of rules, by its equation for each of them."""
    return [line for at in look.rows for line in equation_of(look, at)]


def by_sorts(look, function, answer):
    """A function of rules with one answer for all, which is computed for the first rule, for those
    with a value, of them first for the first value, and for all others."""
    lines = [f"{function} {rule_defined(next(iter(look.rows)))} = {answer}"]
    for rule, kind in look.grammar.rules.items():
        if kind:
            first = rule_defined((rule, Value(kind, VALUES[kind][0])))
            lines += [f"{function} {first} = {answer}", f"{function} (R.{rule} _) = {answer}"]
    return [*lines, f"{function} _ = {answer}"]


# Moves: the choices as a family


def lists_defined(grammar):
    """The lists of symbols that have a name."""
    lines = []
    for name in grammar.list_names:
        values = [value for other, value in grammar.lists if other == name]
        of = f"{values[0].type} → " if values[0] else ""
        lines += [f"-- {grammar.remarks[name]}", f"abbrev pub {name} : {of}List Symbol"]
        for value in values:
            pieces = symbols_defined(grammar.expanded(grammar.lists[name, value]))
            lines += equation(f"{name} {defined(value)}".rstrip(), pieces, SYMBOLS, SYMBOLS)
        lines.append("")
    return lines


def move_lines(choice):
    """A choice as a constructor of the family."""
    of = ""
    if choice.is_above:
        of = "{l k : Level} → Above l k → "
    elif choice.has_variable():
        of = f"{{{choice.value.name} : {choice.value.type}}} → "
    pieces = symbols_defined(choice.symbols)
    if any(one.sort != "list" for one in choice.symbols):
        pieces = bracketed(pieces)
    rule = rule_defined((choice.rule, choice.value))
    start = f"  {choice.name} : {of}Move {rule} {pieces[0]}"
    return on_a_line(start, pieces[1:], 6, LONGEST, SYMBOLS)


def moves(look):
    """The lists with a name, and the family."""
    lines = [*lists_defined(look.grammar), "pub data Move : Rule → List Symbol → Type 0 where"]
    section = ""
    for choice in look.grammar.choices:
        if choice.section != section:
            section = choice.section
            lines.append(f"  -- {section}")
        lines += move_lines(choice)
    return lines


def move(choice, value):
    """The move that a choice is at one value of its rule."""
    if choice.is_above:
        return f"(Move.{choice.name} Above.{snake(value.name)})"
    if choice.has_variable():
        return f"(Move.{choice.name} {{{choice.value.name} = {value.defined()}}})"
    return f"Move.{choice.name}"


def from_move(look):
    """That each move is among the choices of its rule, in the order of the moves."""
    lines = {choice.name: [] for choice in look.grammar.choices}
    for row in look.grammar.taken.values():
        for number, taken in enumerate(row):
            text = f"from_move {move(taken.choice, taken.value)} = {among(number)}"
            lines[taken.choice.name].append(text)
    return [line for row in lines.values() for line in row]


def elim_text(tests, number):
    """Which of the tests holds, from the number on, on a line."""
    if number == len(tests):
        return f"absurd a{number - 1}"
    test = f"inl e{number} ↦ {tests[number]}"
    return f"elim {elim_of(number)} [ {test} | inr a{number} ↦ {elim_text(tests, number + 1)} ]"


def elim_of(number):
    return f"a{number - 1}" if number else "a"


def elim_lines(start, tests, number):
    """The same behind a start, on lines of their own where it is too long for one."""
    line = start + elim_text(tests, number)
    if len(line) <= LONGEST_PROOF:
        return [line]
    depth = " " * (len(start) - len(start.lstrip()))
    return [
        f"{start}elim {elim_of(number)} [",
        f"{depth}  | inl e{number} ↦ {tests[number]}",
        *elim_lines(f"{depth}  | inr a{number} ↦ ", tests, number + 1),
        f"{depth}]",
    ]


def to_move_equation(look, at):
    """That each choice of a rule is a move."""
    rule = rule_defined(at)
    tests = [
        f"subst (λ l. Move {rule} l) e{number} {move(taken.choice, taken.value)}"
        for number, taken in enumerate(look.grammar.taken[at])
    ]
    return elim_lines(f"to_move {rule} qs a = ", tests, 0)


def hangs_on_value(choice):
    """Whether the symbols are others at each value, by a list that is."""
    return choice.has_variable() and any(one.sort == "list" and one.value for one in choice.symbols)


def moved(look):
    """What each move leaves known. Where its symbols hang on a value, it is computed at each."""
    lines = []
    for choice in look.grammar.choices:
        found = [f"Move.{choice.name}"]
        if choice.is_above:
            found = [f"(Move.{choice.name} u)"]
        elif hangs_on_value(choice):
            kind = choice.value.type
            found = [move(choice, Value(kind, name)) for name in VALUES[kind]]
        lines += [f"moved {one} fs = refl" for one in found]
    return lines


# How it is written in code


def call(name, *words):
    words = [word for word in words if word]
    return f"{name}({', '.join(words)})" if words else name


def coded(value):
    return value.coded() if value else ""


def class_coded(one):
    return call(f"TokenClass::{one[0]}", coded(one[1]))


def rule_coded(at):
    return call(f"Rule::{at[0]}", coded(at[1]))


def symbol_coded(one):
    """A symbol, by its name in src/alphabet.rt where it has one."""
    if one.sort == "token":
        effect = call(f"Effect::{one.effect}", coded(one.node))
        text = f"Fixed::Mark({class_coded(one[1:3])}, {effect})"
    elif one.sort == "step":
        text = f"Fixed::Act({call(f'Action::{one.name}', coded(one.value))})"
    elif one.sort == "rule":
        text = f"Fixed::Sub({rule_coded(one[1:3])})"
    else:
        text = call(f"Fixed::{one.name}", coded(one.value))
    return CODE_NAMES.get(squeezed(text), text)


def squeezed(text):
    return re.sub(r"\s", "", text).replace(",)", ")")


CODE_NAMES = {
    squeezed(text): name
    for name, text in re.findall(
        r"^pub const (\w+): Fixed = (.*?);$", read(SYNTAX / "src/alphabet.rt"), re.M | re.S
    )
}


def symbols_coded(look, symbols):
    return f"&[{', '.join(symbol_coded(one) for one in look.grammar.expanded(symbols))}]"


def choices_arm(look, at):
    """The choices of a rule; one that is a list with a name in the code stands by it."""
    rows = [
        look.grammar.constant(taken.symbols) or symbols_coded(look, taken.symbols)
        for taken in look.grammar.taken[at]
    ]
    return f"{rule_coded(at)} => &[{', '.join(rows)}],"


def guards_arm(look, at):
    rows = [f"&[{', '.join(class_coded(one) for one in guard)}]" for guard in look.guards[at]]
    return f"{rule_coded(at)} => &[{', '.join(rows)}],"


def constants(look):
    """The lists of symbols that have a name in the code."""
    lines = []
    for name in look.grammar.constants:
        symbols = symbols_coded(look, look.grammar.lists[name, None])
        lines.append(f"/// {sentence(look.grammar.remarks[name])}")
        lines.append(f"pub const {name.upper()}: &[Fixed] = {symbols};")
    return lines


def sentence(text):
    return f"{text[0].upper()}{text[1:]}."


def rules_coded(look):
    """The rules as an enum."""
    lines = ["#[derive(Clone, Copy)]", "pub enum Rule {"]
    sections = {choice.rule: choice.section for choice in reversed(look.grammar.choices)}
    section = ""
    for rule, kind in look.grammar.rules.items():
        if sections[rule] != section:
            section = sections[rule]
            lines.append(f"// {sentence(section)}")
        if rule in look.grammar.docs:
            lines.append(f"/// {look.grammar.docs[rule]}")
        lines.append(f"{call(rule, kind)},")
    return [*lines, "}"]


# The files


MADE = "Made by tools/source_grammar.py from tools/source_grammar.txt"
IMPORTS = {
    "crate::kind": ["Word"],
    "crate::level": ["Level"],
    "crate::symbol": ["Action", "ClassKind", "Effect", "Fixed", "Form", "Rule", "Site", "TokenClass"],
    "crate::tree": ["NodeKind"],
    "maxj_tokens": ["Sign"],
}


def uses(text, imports, is_grouped):
    """Lines that import what a text names, by name or by path."""
    lines = []
    for path, names in imports.items():
        found = [name for name in names if re.search(rf"(?<![\w:.]){name}\b", text)]
        if is_grouped and len(found) > 1:
            found = [f"{{{', '.join(found)}}}"]
        lines += [f"use {path}::{name};" for name in found]
    return lines


def code_file(look, about, ghosts, remark, head, arm, is_grouped):
    """A file of one function of rules, by its arm for each of them."""
    body = [head, "{", "match rule {", *(arm(look, at) for at in look.rows), "}", "}"]
    names = [*CODE_NAMES.values(), *(name.upper() for name in look.grammar.constants)]
    imports = uses("\n".join(body), {"crate::alphabet": names, **IMPORTS}, is_grouped)
    front = [f"// {MADE}.", f"// {about}", "", *ghosts, "", *imports, "", f"/// {remark}"]
    return [*front, *body]


def choices_file(look):
    return code_file(
        look,
        "The choices of each rule, as the parser reads them.",
        [
            "ghost use Rattle.std.specs.Prelude.{◌≡◌, map};",
            "ghost use Rattle.maxj_syntax.specs.Symbols.{fixed_view};",
            "ghost use Rattle.maxj_syntax.specs.Table.{choices};",
        ],
        "The choices of a rule. Each begins with tokens of its own, but the last, which is taken "
        "otherwise.",
        "pub fn choices_of(rule: Rule) -> &'static [&'static [Fixed]]\n"
        "    ensures { map (λ c. map fixed_view c.now) result.now ≡ choices rule }",
        choices_arm,
        is_grouped=False,
    )


def guards_file(look):
    return code_file(
        look,
        "The tokens with which each choice of a rule is taken.",
        [
            "ghost use Rattle.std.specs.Prelude.{◌≡◌, map};",
            "ghost use Rattle.maxj_syntax.specs.Table.{guards};",
        ],
        "The classes of tokens with which each choice of a rule is taken; none at all says that it "
        "is taken otherwise.",
        "pub fn guards_of(rule: Rule) -> &'static [&'static [TokenClass]]\n"
        "    ensures { map (λ g. g.now) result.now ≡ guards rule }",
        guards_arm,
        is_grouped=True,
    )


DECLARED = "Rattle.maxj_syntax.specs.declared"
SYMBOL = f"{DECLARED}.symbol"
RULES = [
    f"use {SYMBOL}.ClassKind.{{ClassKind}}",
    f"use {SYMBOL}.Form.{{Form}}",
    f"use {SYMBOL}.Site.{{Site}}",
    f"use {SYMBOL}.Rule.{{Rule}}",
    f"use {SYMBOL}.Rule.TheVariants as R",
]
TOKEN_CLASSES = [
    f"use {SYMBOL}.TokenClass.{{TokenClass}}",
    f"use {SYMBOL}.TokenClass.TheVariants as C",
]
SIGNS_AND_WORDS = [
    f"use {DECLARED}.level.Level.{{Level}}",
    "use Rattle.maxj_tokens.specs.declared.sign.Sign.TheVariants as S",
    f"use {DECLARED}.kind.Word.TheVariants as W",
]


def variants_used(kind, names, text):
    found = [name for name in names if re.search(rf"(?<![\w.]){name}\b", text)]
    return f"use {SYMBOL}.{kind}.TheVariants.{{{', '.join(found)}}}"


def table_file(look):
    choices = of_rules(look, choices_equation)
    text = "\n".join(choices)
    lists = [name for name in look.grammar.list_names if re.search(rf"\b{name}\b", text)]
    lists.sort(key=lambda name: ((name, None) not in look.grammar.lists, text.index(f" {name}")))
    return [
        f"-- {MADE}.",
        "-- The table of the parser: the choices of each rule, and the tokens with which each is "
        "taken.",
        "use Rattle.std.specs.Prelude.{List, [], ◌∷◌, ◌++◌}",
        *SIGNS_AND_WORDS,
        f"use {DECLARED}.tree.NodeKind.TheVariants as N",
        *TOKEN_CLASSES,
        variants_used("Effect", EFFECTS.values(), text),
        variants_used("Action", STEPS.values(), text),
        *RULES,
        "use Rattle.maxj_syntax.specs.Symbols.{Inside, Symbol, Mark, Name, Sub, Call, Act}",
        "use Rattle.maxj_syntax.specs.Symbols as Y",
        f"use Rattle.maxj_syntax.specs.Moves.{{sign, word, {', '.join(lists)}}}",
        "",
        "-- the choices of a rule; the last one is taken where no other is",
        "abbrev pub choices : Rule → List (List Symbol)",
        *choices,
        "",
        "-- the classes of tokens with which each of them is taken; none says that it is taken "
        "otherwise",
        "abbrev pub guards : Rule → List (List TokenClass)",
        *of_rules(look, guards_equation),
    ]


def lookahead_file(look):
    return [
        f"-- {MADE}.",
        "-- What the parser knows of a rule: the tokens with which it may begin and go on, and "
        "whether it may be empty.",
        "use Rattle.std.specs.Prelude.{List, [], ◌∷◌, ℕ, Bool, true, false}",
        *SIGNS_AND_WORDS,
        *TOKEN_CLASSES,
        *RULES,
        "",
        "-- the classes of tokens with which a rule may begin",
        "abbrev pub first : Rule → List TokenClass",
        *of_rules(look, first_equation),
        "",
        "-- whether it may be empty",
        "abbrev pub nullable : Rule → Bool",
        *of_rules(look, nullable_equation),
        "",
        "-- the classes of tokens with which it may go on where it could end",
        "abbrev pub peek : Rule → List TokenClass",
        *of_rules(look, peek_equation),
        "",
        "-- more than what may come before the next token in each of its choices",
        "abbrev pub weight : Rule → ℕ",
        *of_rules(look, weight_equation),
    ]


def move_lemmas_file(look):
    return [
        f"-- {MADE}.",
        "-- The table holds the family of moves, and no more.",
        "use Rattle.std.proofs.Common.{List, inl, inr, refl, subst}",
        SIGNS_AND_WORDS[0],
        *RULES,
        "use Rattle.maxj_syntax.specs.Symbols.{Symbol}",
        "use Rattle.maxj_syntax.specs.Productions.{Above}",
        "use Rattle.maxj_syntax.specs.Moves.{Move}",
        "use Rattle.maxj_syntax.specs.Choosing.{Among}",
        "use Rattle.maxj_syntax.specs.Table.{choices}",
        "",
        "pub from_move : {r : Rule} {qs : List Symbol} → Move r qs → Among qs (choices r)",
        *from_move(look),
        "",
        "pub to_move : (r : Rule) (qs : List Symbol) → Among qs (choices r) → Move r qs",
        *of_rules(look, to_move_equation),
    ]


def ranks_part(look):
    if max(look.rank.values()) >= UNRANKED:
        fail(f"a rule has the rank {UNRANKED} or more, which stands for none")
    return [
        "abbrev pub rank : Rule → ℕ",
        *of_rules(look, rank_equation),
        "",
        "-- a choice whose rules have smaller ranks",
        "abbrev pub lowest : Rule → List Symbol",
        *of_rules(look, lowest_equation),
    ]


WHOLE = {
    "src/choices.rt": choices_file,
    "src/guards.rt": guards_file,
    "specs/Table.antt": table_file,
    "specs/Lookahead.antt": lookahead_file,
    "proofs/MoveLemmas.antt": move_lemmas_file,
}
# the parts of other files, by the names that stand there
PARTS = {
    "src/symbol.rt": {"the rules": rules_coded},
    "src/alphabet.rt": {"the lists that have a name": constants},
    "specs/Moves.antt": {"the choices as a family": moves},
    "proofs/Ranks.antt": {
        "ranks and lowest choices": ranks_part,
        "the lowest choice is a choice": lambda look: [
            "pub lowest_among : (r : Rule) → is_ranked r ≡ true → Among (lowest r) (choices r)",
            *of_rules(look, lowest_among_equation),
        ],
        "its rules have smaller ranks": lambda look: [
            "pub lowest_small : (r : Rule) → small (rank r) (lowest r) ≡ true",
            *by_sorts(look, "lowest_small", "refl"),
        ],
    },
    "proofs/Fits.antt": {
        "each rule passes the test": lambda look: [
            "pub rule_fits : (r : Rule) → Fits r",
            *by_sorts(look, "rule_fits", "(refl, refl, refl)"),
        ],
    },
    "proofs/Productive.antt": {
        "the rules that have a rank": lambda look: of_rules(look, sub_list_equation),
        "the choices speak of no name": lambda look: [
            "rules_plain : (r : Rule) → all_plain (choices r) ≡ true",
            *by_sorts(look, "rules_plain", "refl"),
        ],
    },
    "proofs/PlainMoves.antt": {
        "what each move leaves known": lambda look: [
            "pub moved : {r : Rule} {qs : List Symbol} → Move r qs → (fs : List Bool)",
            "    → after_all qs (Some (wants r ++ fs)) ≡ Some (gives r ++ fs)",
            *moved(look),
        ],
    },
}


def is_comment(line):
    return re.match(r" *(--|///?) ", line) is not None


def solid(lines):
    """The lines without comments and white space as one word, and the line of each of its letters. A
    comma before a closing bracket is left out, as in `tokens_of`."""
    letters = []
    for number, line in enumerate(lines):
        for letter in re.sub(r"(--|///?) .*$|\s", "", line):
            if letter in "])}" and letters and letters[-1][0] == ",":
                letters.pop()
            letters.append((letter, number))
    return "".join(letter for letter, _ in letters), [number for _, number in letters]


def marked(text, name, part, path):
    """A file with lines around a part that had none."""
    lines = text.splitlines()
    word, places = solid(lines)
    wanted, _ = solid(part)
    at = word.find(wanted)
    if at < 0:
        fail(f"{path} has no part `{name}`")
    first, last = places[at], places[at + len(wanted) - 1]
    while is_comment(part[0]) and is_comment(lines[first - 1]):
        first -= 1
    comment = "//" if path.endswith(".rt") else "--"
    around = [f"{comment} {MADE}: {name}.", *lines[first : last + 1], f"{comment} By hand again."]
    return "\n".join([*lines[:first], *around, *lines[last + 1 :]]) + "\n"


def with_parts(text, parts, look, path):
    """A file with its parts made anew."""
    for name, lines_of in parts.items():
        part = lines_of(look)
        mark = rf"^( *)(--|//) {re.escape(MADE)}: {re.escape(name)}\.\n"
        whole = mark + r"(.*?)^ *(--|//) By hand again\.$"
        if not re.search(whole, text, re.M | re.S):
            text = marked(text, name, part, path)
        found = re.search(whole, text, re.M | re.S)
        new = "".join(f"{line}\n" for line in part)
        text = text[: found.start(3)] + new + text[found.end(3) :]
    return text


def made(look):
    """The files as they are to stand, by their paths, before they are formatted."""
    texts = {path: "\n".join(lines_of(look)) + "\n" for path, lines_of in WHOLE.items()}
    for path, parts in PARTS.items():
        texts[path] = with_parts(read(SYNTAX / path), parts, look, path)
    return texts


def formatted(texts):
    """The texts, formatted."""
    with tempfile.TemporaryDirectory() as folder:
        paths = {path: pathlib.Path(folder) / path for path in texts}
        for path, place in paths.items():
            place.parent.mkdir(exist_ok=True)
            place.write_text(texts[path], encoding="utf-8")
        words = ["rattle", "fmt", "--write", *map(str, paths.values())]
        done = subprocess.run(words, capture_output=True, text=True)
        if done.returncode != 0:
            fail(f"rattle fmt: {done.stdout}{done.stderr}")
        return {path: read(place) for path, place in paths.items()}


def differences(path, text):
    """The lines of a file that aren't as the text has them, and those that are to stand there."""
    old, new = read(SYNTAX / path).splitlines(), text.splitlines()
    for tag, a, b, c, d in difflib.SequenceMatcher(None, old, new, autojunk=False).get_opcodes():
        if tag != "equal":
            yield f"crates/maxj_syntax/{path}:{a + 1}", old[a:b], new[c:d]


def tokens_of(text, ending):
    """The tokens of a text. A comma or semicolon before a closing bracket stands where a list is
    broken, and nowhere else, so it is left out."""
    with tempfile.NamedTemporaryFile("w", suffix=ending, encoding="utf-8") as file:
        file.write(text)
        file.flush()
        done = subprocess.run(["rattle", "fmt", "--tokens", file.name], capture_output=True, text=True)
    rows = [line.split(" ", 3)[3] for line in done.stdout.splitlines() if line.count(" ") > 2]
    after = [*rows[1:], ""]
    return [
        row
        for row, other in zip(rows, after)
        if not (row.endswith(('","', '";"')) and other.endswith(('"}"', '")"', '"]"')))
    ]


def has_tokens(path, text):
    """Whether a file has the tokens of the text."""
    ending = pathlib.Path(path).suffix
    return tokens_of(read(SYNTAX / path), ending) == tokens_of(text, ending)


def check(texts):
    """Says what doesn't stand as it is to, and answers the status."""
    wrong = 0
    for path, text in texts.items():
        if text == read(SYNTAX / path) or has_tokens(path, text):
            continue
        wrong += 1
        for place, old, new in differences(path, text):
            print(f"{place}: is not what tools/source_grammar.txt says")
            print("\n".join([*(f"  - {line}" for line in old), *(f"  + {line}" for line in new)]))
    print(f"source_grammar: {len(texts)} files, {wrong} not as the table has them")
    return 1 if wrong else 0


def main():
    is_check = sys.argv[1:] == ["--check"]
    if sys.argv[1:] and not is_check:
        fail("the only word that it takes is --check")
    look = Lookahead(Grammar(TABLE))
    if not shutil.which("rattle"):
        print("source_grammar: rattle isn't installed here, passed over")
        return 0 if is_check else 1
    texts = formatted(made(look))
    if is_check:
        return check(texts)
    for path, text in texts.items():
        if text != read(SYNTAX / path):
            (SYNTAX / path).write_text(text, encoding="utf-8")
            print(f"crates/maxj_syntax/{path}")
    return 0


if __name__ == "__main__":
    sys.exit(main())
