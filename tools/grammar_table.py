"""The table of the source grammar, tools/source_grammar.txt, read, and what follows from it.
tools/source_grammar.py writes the files of the parser from this."""
import pathlib
import re
import sys
from typing import NamedTuple

TOP = pathlib.Path(__file__).resolve().parent.parent
TABLE = TOP / "tools/source_grammar.txt"
SYNTAX = TOP / "crates/maxj_syntax"
HEAVIEST = 1000  # no weight is greater, unless a rule begins with itself


def read(path):
    return path.read_text(encoding="utf-8")


def fail(message):
    sys.exit(f"tools/source_grammar.py: {message}")


# What the words of the table are in the code


def variants(path, name):
    """The variants of an enum in the code, in their order."""
    body = re.search(rf"^pub enum {name}\b.*?\{{(.*?)^\}}", read(path), re.M | re.S)[1]
    return re.findall(r"^    (\w+)", body, re.M)


def texts(path, function):
    """The names of signs or words, by their texts."""
    rows = re.findall(rf'^{function} \w\.(\w+) = codes "(.*)"$', read(path), re.M)
    return {text: name for name, text in rows}


def snake(name):
    return re.sub(r"(?<!^)(?=[A-Z])", "_", name).lower()


def by_snake(names):
    return {snake(name): name for name in names}


ENUMS = SYNTAX / "src/symbol.rt"
SIGNS = texts(TOP / "crates/maxj_tokens/specs/Reading.antt", "sign_bytes")
WORDS = texts(SYNTAX / "specs/Kinds.antt", "word_bytes")
CLASSES = by_snake(variants(ENUMS, "TokenClass"))
EFFECTS = by_snake(variants(ENUMS, "Effect"))
STEPS = by_snake(variants(ENUMS, "Action"))
NAMED = set(variants(ENUMS, "Fixed")) - {"Mark", "Sub", "Act"}  # the rules that speak of names
VALUES = {
    "Level": variants(SYNTAX / "src/level.rt", "Level"),
    "Form": variants(ENUMS, "Form"),
    "Site": variants(ENUMS, "Site"),
    "ClassKind": variants(ENUMS, "ClassKind"),
}
VARIABLES = {"k": "Level", "l": "Level", "d": "Site"}
TYPES = {name: kind for kind, names in VALUES.items() for name in names} | VARIABLES
# with what definitions name a value of a type
FRONTS = {"Sign": "S.", "Word": "W.", "NodeKind": "N."}


class Value(NamedTuple):
    """What a rule, a class of tokens or a step is of, by its type; or a variable of the table."""

    type: str
    name: str

    def defined(self):
        if self.name in VARIABLES:
            return self.name
        return FRONTS.get(self.type, f"{self.type}.") + self.name

    def coded(self):
        return f"{self.type}::{self.name}"


class Symbol(NamedTuple):
    """The sort is token, step, rule, named or list. A token has the name of its class, and an
    effect, which may be with a kind of node."""

    sort: str
    name: str
    value: Value | None = None
    effect: str = ""
    node: Value | None = None


class Choice(NamedTuple):
    """A choice as the table has it; is_above where it is one of each level k above a level l."""

    name: str
    rule: str
    value: Value | None
    is_above: bool
    symbols: tuple
    section: str

    def has_variable(self):
        return self.value is not None and self.value.name in VARIABLES


class Taken(NamedTuple):
    """A choice at one value of its rule."""

    choice: Choice
    value: Value | None
    symbols: tuple


# The table


def terms(text):
    """The words of a text, each with those in parentheses behind it."""
    rows = [[]]
    for word in re.findall(r'"[^"]*"|\w+|[(),]', text):
        if word == "(":
            rows.append([])
        elif word == ")":
            inner = rows.pop()
            rows[-1][-1] = (rows[-1][-1][0], inner)
        elif word != ",":
            rows[-1].append((word, []))
    return rows[0]


def value_of(inner):
    """The value in the parentheses behind a word, or none."""
    if not inner:
        return None
    name = inner[0][0]
    return text_value(name) if name.startswith('"') else Value(TYPES[name], name)


def text_value(quoted):
    """The sign or word that is written so."""
    text = quoted.strip('"')
    return Value("Sign", SIGNS[text]) if text in SIGNS else Value("Word", WORDS[text])


def token(term):
    """A token that is passed over."""
    word, inner = term
    if word.startswith('"'):
        value = text_value(word)
        return Symbol("token", value.type, value, "Skip")
    return Symbol("token", CLASSES[word], value_of(inner), "Skip")


def symbol(term, lists):
    """A symbol of the table, which has these lists."""
    word, inner = term
    node = Value("NodeKind", inner[-1][0]) if inner else None
    if word in EFFECTS:
        node = node if len(inner) > 1 else None
        return token(inner[0])._replace(effect=EFFECTS[word], node=node)
    if word in lists:
        return Symbol("list", word, value_of(inner))
    if word in STEPS:
        return Symbol("step", STEPS[word], node)
    if word[0].isupper():
        return Symbol("named" if word in NAMED else "rule", word, value_of(inner))
    return token(term)


def whole_lines(path):
    """The numbered lines of the table, each with those that go on with it; without remarks."""
    rows = []
    for number, line in enumerate(read(path).splitlines(), 1):
        depth = len(line) - len(line.lstrip())
        is_list = bool(rows) and rows[-1][1].startswith(("list ", "constant "))
        if depth > 4 or (depth == 4 and is_list):
            rows[-1] = (rows[-1][0], f"{rows[-1][1]} {line.strip()}")
        elif line and not line.startswith("#"):
            rows.append((number, line))
    return rows


class Grammar:
    """The table: its choices, its lists of symbols, at each of their values, and its rules with the
    types of their values, in the order in which they are met first. `taken` has the choices of each
    rule at each of its values."""

    def __init__(self, path):
        self.choices, self.rules, self.docs = [], {}, {}
        self.lists, self.list_names, self.constants, self.remarks = {}, [], [], {}
        self.remark, self.section, self.head = "", "", None
        for number, line in whole_lines(path):
            try:
                self.take(line)
            except (AttributeError, IndexError, KeyError, TypeError, ValueError):
                fail(f"line {number} of the table isn't understood: {line.strip()}")
        self.taken = {at: self.choices_at(*at) for at in self.places()}
        self.test()

    def take(self, line):
        if line.startswith("-- "):
            self.remark = f"{self.remark} {line[3:]}".strip()
        elif line.startswith("== "):
            is_more = bool(self.section) and self.head is None
            self.section = f"{self.section} {line[3:]}" if is_more else line[3:]
            self.head = None
        elif line.startswith(("list ", "constant ")):
            self.take_list(*re.fullmatch(r"(list|constant) (\S+) = (.*)", line).groups())
        elif line.startswith(" "):
            name, text = line.strip().split(" = ")
            self.choices.append(Choice(name, *self.head, self.symbols_of(text), self.section))
        else:
            self.take_head(line)

    def take_list(self, sort, head, text):
        [(name, inner)] = terms(head)
        if name not in self.list_names:
            self.list_names.append(name)
            self.remarks[name], self.remark = self.remark, ""
            self.constants += [name] * (sort == "constant")
        self.lists[name, value_of(inner)] = self.symbols_of(text)

    def take_head(self, line):
        head, _, doc = (part.strip() for part in line.partition(" -- "))
        head, _, above = (part.strip() for part in head.partition(","))
        [(rule, inner)] = terms(head)
        value = value_of(inner)
        kind = value and value.type
        if above not in ("", "k above l") or self.rules.setdefault(rule, kind) != kind:
            raise ValueError
        if doc:
            self.docs[rule] = doc
        self.head = (rule, value, bool(above))

    def symbols_of(self, text):
        words = [] if text == "nothing" else terms(text)
        return tuple(symbol(term, self.list_names) for term in words)

    def places(self):
        """The rules, each at all of its values."""
        for rule, kind in self.rules.items():
            values = [Value(kind, name) for name in VALUES[kind]] if kind else [None]
            yield from ((rule, value) for value in values)

    def choices_at(self, rule, value):
        rows = [at_value(choice, value) for choice in self.choices if choice.rule == rule]
        return [taken for taken in rows if taken]

    def test(self):
        """Names of choices differ, and each rule that is named has a choice."""
        names = [choice.name for choice in self.choices]
        for name in names:
            if names.count(name) > 1:
                fail(f"two choices are named {name}")
        for at, row in self.taken.items():
            if not row:
                fail(f"{named(at)} has no choice")
            for taken in row:
                for one in self.expanded(taken.symbols):
                    if one.sort == "rule" and (one.name, one.value) not in self.taken:
                        fail(f"{taken.choice.name} names {named(one[1:3])}, which is no rule")

    def expanded(self, symbols):
        """The symbols, with those of a list in its place."""
        found = []
        for one in symbols:
            is_list = one.sort == "list"
            found += self.expanded(self.lists[one.name, one.value]) if is_list else [one]
        return found

    def spelled(self, symbols):
        """The symbols as the table of definitions has them: those of a list with a value stand in
        its place, unless it is behind another list, where no more can be put before it by `∷`."""
        found = []
        for one in symbols:
            is_behind = bool(found) and found[-1].sort == "list" and bool(self.expanded([one]))
            is_kept = one.sort != "list" or one.value is None or is_behind
            found += [one] if is_kept else self.expanded([one])
        return found

    def constant(self, symbols):
        """The name in the code of the list that the symbols are, or nothing."""
        is_named = len(symbols) == 1 and symbols[0].name in self.constants
        return symbols[0].name.upper() if is_named else ""


def at_value(choice, value):
    """The choice at a value of its rule, or none where it is no choice there."""
    if choice.value == value:
        return Taken(choice, value, choice.symbols)
    if not choice.has_variable():
        return None
    values = {choice.value: value}
    if choice.is_above:
        place = VALUES["Level"].index(value.name)
        if place == 0:
            return None
        values[Value("Level", "l")] = Value("Level", VALUES["Level"][place - 1])
    symbols = [one._replace(value=values.get(one.value, one.value)) for one in choice.symbols]
    return Taken(choice, value, tuple(symbols))


def named(at):
    """A rule with its value, as the table has it."""
    rule, value = at
    return f"{rule}({value.name})" if value else rule


# What follows from the choices


def kind_rows():
    """The lists of kinds of tokens in specs/TokenClasses.antt, by what they are of."""
    rows = re.findall(
        r"^(names|operators Level\.\w+|kinds_in C\.\w+) = (K\..*) ∷ \[\]$",
        read(SYNTAX / "specs/TokenClasses.antt"),
        re.M,
    )
    return {of: set(kinds.split(" ∷ ")) for of, kinds in rows}


KINDS = kind_rows()
NAME = ("Name", None)
ORDER = ("Operator", Value("Level", "Orders"))


def kinds(one):
    """The kinds of the tokens of a class."""
    name, value = one
    if name in ("Sign", "Word"):
        return {f"K.{name} {value.defined()}"}
    if name == "NameBut":
        return KINDS["names"] - {f"K.Word {value.defined()}"}
    if name == "OrderBut":
        return kinds(ORDER) - {f"K.Sign {value.defined()}"}
    if name == "Operator":
        return KINDS[f"operators {value.defined()}"]
    return KINDS["names"] if one == NAME else KINDS[f"kinds_in C.{name}"]


def all_kinds(classes):
    return set().union(*(kinds(one) for one in classes))


def add(found, classes):
    """Adds classes of tokens to a list, and says whether any was new. Two that together are all
    names or all orders become that one."""
    is_new = False
    for one in classes:
        if any(kinds(one) <= kinds(other) for other in found):
            continue
        unions = [kinds(one) | kinds(other) for other in found]
        one = next((whole for whole in (NAME, ORDER) if kinds(whole) in unions), one)
        found[:] = [other for other in found if not kinds(other) <= kinds(one)] + [one]
        is_new = True
    return is_new


class Lookahead:
    """What the parser must know of each rule, as the head of the table says it."""

    def __init__(self, grammar):
        self.grammar = grammar
        self.rows = {
            at: [grammar.expanded(taken.symbols) for taken in row]
            for at, row in grammar.taken.items()
        }
        self.first = {at: [] for at in self.rows}
        self.nullable = dict.fromkeys(self.rows, False)
        self.peek = {at: [] for at in self.rows}
        self.weight = dict.fromkeys(self.rows, 1)
        self.rank, self.lowest = {}, {}
        self.repeat(self.widen_first)
        self.guards = {
            at: [*(self.begin(one) for one in row[:-1]), []] for at, row in self.rows.items()
        }
        self.repeat(self.widen_peek)
        self.test()
        self.repeat(self.raise_weight)
        self.repeat(self.find_rank)

    def repeat(self, step):
        """Goes through the rules, choice by choice, until nothing is new."""
        places = [(at, number) for at, row in self.rows.items() for number in range(len(row))]
        while any([step(at, number) for at, number in places]):
            pass

    def is_empty(self, symbols):
        """Whether all of them may be empty."""
        return all(one.sort == "step" or self.nullable.get(one[1:3], False) for one in symbols)

    def first_of(self, one):
        """With what a symbol begins. A rule that speaks of a name begins with one."""
        if one.sort == "token":
            return [(one.name, one.value)]
        return [NAME] if one.sort == "named" else self.first.get(one[1:3], [])

    def front(self, symbols):
        """The symbols up to the first that may not be empty."""
        for number, one in enumerate(symbols):
            if not self.is_empty([one]):
                return symbols[: number + 1]
        return symbols

    def begin(self, symbols):
        found = []
        for one in self.front(symbols):
            add(found, self.first_of(one))
        return found

    def widen_first(self, at, number):
        symbols = self.rows[at][number]
        was = self.nullable[at]
        is_new = [add(self.first[at], self.first_of(one)) for one in self.front(symbols)]
        self.nullable[at] = was or self.is_empty(symbols)
        return any(is_new) or self.nullable[at] != was

    def widen_peek(self, at, number):
        symbols = self.rows[at][number]
        ends = [one for place, one in enumerate(symbols) if self.is_empty(symbols[place + 1 :])]
        is_new = [add(self.peek[at], self.peek.get(one[1:3], [])) for one in ends]
        if self.is_empty(symbols):
            is_new += [add(self.peek[at], guard) for guard in self.guards[at][:number]]
        return any(is_new)

    def raise_weight(self, at, number):
        front = self.front(self.rows[at][number])
        weight = 1 + sum(self.weight.get(one[1:3], int(one.sort != "token")) for one in front)
        if weight > HEAVIEST:
            fail(f"{named(at)} begins with itself")
        is_new = weight > self.weight[at]
        self.weight[at] = max(weight, self.weight[at])
        return is_new

    def find_rank(self, at, number):
        rules = [one for one in self.rows[at][number] if one.sort in ("rule", "named")]
        if at in self.rank or not all(one[1:3] in self.rank for one in rules):
            return False
        self.rank[at] = 1 + max((self.rank[one[1:3]] for one in rules), default=0)
        self.lowest[at] = number
        return True

    def test(self):
        """The next token tells each choice."""
        for at, row in self.rows.items():
            before = set()
            for number, symbols in enumerate(row):
                name = self.grammar.taken[at][number].choice.name
                begin = all_kinds(self.begin(symbols))
                if begin & before:
                    fail(f"{name} begins as a choice before it does: {told(begin & before)}")
                if self.is_empty(symbols) and number < len(row) - 1:
                    fail(f"{name} may be empty, and isn't the last choice of {named(at)}")
                before |= begin
                self.test_ends(name, symbols)

    def test_ends(self, name, symbols):
        """No symbol may go on with what the symbols behind it begin with."""
        for place, one in enumerate(symbols):
            behind = all_kinds(self.begin(symbols[place + 1 :]))
            both = all_kinds(self.peek.get(one[1:3], [])) & behind
            if both:
                fail(f"{name}: {named(one[1:3])} may go on as what stands behind it: {told(both)}")


def told(found):
    return ", ".join(sorted(kind.removeprefix("K.") for kind in found))
