"""The tree of a source, by the tokens and the grammar of docs/LANGUAGE.md, with places.

It reads sources that are files of the grammar. Whether a source is one is judged elsewhere
(bench/random_sources.py); here a source that isn't raises an error.
"""
import re
from dataclasses import dataclass

SIGNS = "( ) { } [ ] ; , . = + - * / % & | ^ ~ ! ? : < > <= >= == != === !== << >> && || ++ -- += -= *= <==".split()
LEVELS = [["||"], ["&&"], ["|"], ["^"], ["&"], ["===", "!==", "==", "!="], ["<", "<=", ">", ">="], ["<<", ">>"], ["+", "-"], ["*", "/", "%"]]
RESERVED = set(
    "package import static public private protected final class extends void return if else while for new this true false int boolean".split()
)
MODIFIERS = {"public", "private", "protected", "static", "final"}
SKIPPED = re.compile(r"(?:[ \t\n\f\r]+|//[^\n]*|/\*.*?\*/)+", re.S)
WORD = re.compile(r"[A-Za-z_][A-Za-z0-9_]*")
TOKEN = re.compile(
    r'(?P<word>[A-Za-z_][A-Za-z0-9_]*)|(?P<decimal>[0-9]+\.[0-9]+)|(?P<whole>0x[0-9a-fA-F]+[Ll]?|[0-9]+[Ll]?)|(?P<string>"[ !#-\[\]-~]*")|(?P<sign>'
    + "|".join(re.escape(sign) for sign in sorted(SIGNS, key=len, reverse=True))
    + ")"
)


@dataclass
class Token:
    kind: str
    text: str
    place: int


@dataclass
class Node:
    """A part of a source: what it is, its word, the byte where it begins, and its parts in order."""

    kind: str
    word: str
    place: int
    parts: list


@dataclass
class Class:
    name: str
    manager: bool
    place: int
    members: list


class NoFile(Exception):
    """The source is no file of the grammar."""


def tokens_of(source):
    found, at = [], 0
    while at < len(source):
        skipped = SKIPPED.match(source, at)
        if skipped:
            at = skipped.end()
            continue
        token = TOKEN.match(source, at)
        if not token:
            raise NoFile(at)
        found.append(Token(token.lastgroup, token.group(), at))
        at = token.end()
    return found + [Token("end", "", len(source))]


class Parser:
    def __init__(self, source):
        self.tokens = tokens_of(source)
        self.at = 0

    def peek(self, ahead=0):
        return self.tokens[min(self.at + ahead, len(self.tokens) - 1)]

    def is_next(self, *texts):
        return self.peek().kind in ("word", "sign") and self.peek().text in texts

    def take(self):
        self.at += 1
        return self.tokens[self.at - 1]

    def skip(self, *texts):
        if not self.is_next(*texts):
            raise NoFile(self.peek().place)
        return self.take()

    def may_skip(self, *texts):
        return self.take() if self.is_next(*texts) else None

    def is_name(self, ahead=0):
        token = self.peek(ahead)
        return token.kind == "word" and token.text not in RESERVED

    def name(self):
        if not self.is_name():
            raise NoFile(self.peek().place)
        return self.take()

    def listed(self, part, close):
        """Parts between commas, up to the closing sign."""
        found = []
        if not self.is_next(close):
            found.append(part())
            while self.may_skip(","):
                found.append(part())
        self.skip(close)
        return found

    # files and classes

    def file(self):
        while self.is_next("package", "import"):
            while not self.may_skip(";"):
                self.take()
        classes = [self.class_()]
        while self.peek().kind != "end":
            classes.append(self.class_())
        return classes

    def modifiers(self):
        """The place where the modifiers, or what is behind them, begin."""
        place = self.peek().place
        while self.is_next(*MODIFIERS):
            self.take()
        return place

    def class_(self):
        place = self.modifiers()
        self.skip("class")
        name = self.name().text
        self.skip("extends")
        parent = self.skip("Kernel", "CustomManager").text
        self.skip("{")
        members = []
        while not self.may_skip("}"):
            members.append(self.member(name))
        return Class(name, parent == "CustomManager", place, members)

    def member(self, class_name):
        place = self.modifiers()
        if self.peek().text == class_name and self.peek(1).text == "(":
            self.take()
            params = self.params()
            block = self.block()
            return Node("Ctor", class_name, place, params + [Node("Block", "", block.place, block.parts[1:])])
        if self.is_next("void"):
            result = Node("Void", "void", self.take().place, [])
        else:
            result = self.type()
        name = self.name().text
        if self.is_next("("):
            return Node("Method", name, place, [result, *self.params(), self.block()])
        parts = [result] + ([self.init()] if self.may_skip("=") else [])
        self.skip(";")
        return Node("Field", name, place, parts)

    def params(self):
        self.skip("(")
        return self.listed(self.param, ")")

    def param(self):
        place = self.peek().place
        self.may_skip("final")
        type_ = self.type()
        return Node("Param", self.name().text, place, [type_])

    def base(self):
        token = self.take()
        if token.kind != "word" or (token.text in RESERVED and token.text not in ("int", "boolean")):
            raise NoFile(token.place)
        if token.text == "Memory" and self.is_next("<"):
            for text in ("<", "DFEVar", ">"):
                self.skip(text)
        return Node("Plain", token.text, token.place, [])

    def type(self):
        type_ = self.base()
        while self.may_skip("["):
            self.skip("]")
            type_ = Node("ArrayOf", "", type_.place, [type_])
        return type_

    # statements

    def begins_local(self):
        """Whether a declaration begins here, which ends as no expression does."""
        if self.is_next("final", "int", "boolean"):
            return True
        if not self.is_name():
            return False
        ahead = 1
        if [self.peek(k).text for k in range(4)] == ["Memory", "<", "DFEVar", ">"]:
            return self.is_name(4) and self.peek(5).text in ("=", ";")
        while self.peek(ahead).text == "[" and self.peek(ahead + 1).text == "]":
            ahead += 2
        return self.is_name(ahead)

    def block(self):
        place = self.skip("{").place
        parts = []
        while not self.may_skip("}"):
            parts.append(self.statement())
        return Node("Block", "", place, parts)

    def statement(self):
        place = self.peek().place
        if self.is_next("{"):
            return self.block()
        if self.may_skip(";"):
            return Node("Empty", "", place, [])
        if self.may_skip("if"):
            return self.if_(place)
        if self.may_skip("while"):
            condition = self.condition()
            return Node("While", "", place, [condition, self.body()])
        if self.may_skip("for"):
            return self.for_(place)
        if self.begins_local():
            found = self.local(self.init)
            self.skip(";")
            return found
        return self.body()

    def local(self, init):
        place = self.peek().place
        self.may_skip("final")
        type_ = self.type()
        name = self.name().text
        return Node("Local", name, place, [type_] + ([init()] if self.may_skip("=") else []))

    def body(self):
        place = self.peek().place
        if self.is_next("{"):
            return self.block()
        if self.may_skip("return"):
            found = Node("Return", "", place, [] if self.is_next(";") else [self.expr()])
        else:
            found = self.simple()
        self.skip(";")
        return found

    def condition(self):
        self.skip("(")
        found = self.expr()
        self.skip(")")
        return found

    def if_(self, place):
        parts = [self.condition(), self.body()]
        while self.may_skip("else"):
            if self.may_skip("if"):
                parts += [self.condition(), self.body()]
            else:
                parts.append(self.body())
                break
        return Node("If", "", place, parts)

    def for_(self, place):
        self.skip("(")
        first = None if self.is_next(";") else self.local(self.expr) if self.begins_local() else self.simple()
        self.skip(";")
        condition = None if self.is_next(";") else self.expr()
        self.skip(";")
        step = None if self.is_next(")") else self.simple()
        self.skip(")")
        return Node("For", "", place, [first, condition, step, self.body()])

    def simple(self):
        place = self.peek().place
        if self.is_next("super"):
            self.take()
            self.skip("(")
            self.name()
            self.skip(")")
            return Node("Super", "", place, [])
        left = self.expr()
        sign = self.peek().text
        if self.may_skip("=", "+=", "-=", "*="):
            return Node("Set", sign, place, [left, self.expr()])
        if self.may_skip("++", "--"):
            return Node("Set", sign, place, [left])
        if self.may_skip("<=="):
            return Node("Connect", "", place, [left, self.expr()])
        if left.kind not in ("Call", "DotCall", "New"):
            raise NoFile(self.peek().place)
        return Node("Run", "", place, [left])

    def init(self):
        if not self.is_next("{"):
            return self.expr()
        place = self.take().place
        return Node("Braces", "", place, self.listed(self.init, "}"))

    # expressions; what begins with a parenthesis begins at it

    def expr(self):
        place = self.peek().place
        test = self.level(0)
        if not self.may_skip("?"):
            return test
        first = self.expr()
        self.skip(":")
        return Node("Cond", "", place, [test, first, self.expr()])

    def level(self, number):
        if number == len(LEVELS):
            return self.prefixed()
        place = self.peek().place
        left = self.level(number + 1)
        while self.is_next(*LEVELS[number]):
            sign = self.take().text
            left = Node("Binary", sign, place, [left, self.level(number + 1)])
        return left

    def prefixed(self):
        if self.is_next("-", "~", "!"):
            sign = self.take()
            return Node("Prefix", sign.text, sign.place, [self.prefixed()])
        return self.postfix()

    def postfix(self):
        place = self.peek().place
        base = self.primary()
        while True:
            if self.may_skip("."):
                name = self.name().text
                if self.may_skip("("):
                    base = Node("DotCall", name, place, [base, *self.listed(self.expr, ")")])
                else:
                    base = Node("Dot", name, place, [base])
            elif self.may_skip("["):
                base = Node("Index", "", place, [base, self.expr()])
                self.skip("]")
            else:
                return base

    def primary(self):
        token = self.peek()
        if self.may_skip("("):
            found = self.expr()
            self.skip(")")
            return found
        if self.may_skip("new"):
            return self.new(token.place)
        if token.kind in ("whole", "decimal", "string"):
            self.take()
            return Node(token.kind.capitalize(), token.text, token.place, [])
        if self.is_next("true", "false", "this"):
            return Node("Name", self.take().text, token.place, [])
        self.name()
        if self.may_skip("("):
            return Node("Call", token.text, token.place, self.listed(self.expr, ")"))
        return Node("Name", token.text, token.place, [])

    def new(self, place):
        if self.is_name() and self.peek(1).text == "(":
            name = self.take().text
            self.take()
            return Node("New", name, place, self.listed(self.expr, ")"))
        parts = [self.base()]
        self.skip("[")
        while True:
            parts.append(self.expr())
            self.skip("]")
            if not self.may_skip("["):
                return Node("NewArray", "", place, parts)


def classes_of(source):
    """The classes of a source that is a file of the grammar."""
    return Parser(source).file()
