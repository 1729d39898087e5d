"""The items of a file, by docs/COMMANDS.md: what the tools here share.

Texts are bytes read as Latin-1, so a place in a text is a place in its file.
"""
import os
import re
import shutil
import sys
from collections.abc import Callable, Iterator
from pathlib import Path
from typing import NamedTuple

sys.setrecursionlimit(10_000)

MOST_OPEN_BRACKETS = 512
LANGUAGES = ("fof", "tff", "thf", "tcf", "tpi")
BLANKS = re.compile(r"(?:[\t\n\f\r ]+|%[^\n]*|/\*.*?\*/)*", re.DOTALL)
TOKEN = re.compile(
    r"""(?:[\t\n\f\r ]+|%[^\n]*|/\*.*?\*/)*
    (?:(?P<lower>[a-z][A-Za-z0-9_]*)
    |(?P<upper>[A-Z][A-Za-z0-9_]*)
    |(?P<dollar>\$\$?[a-z][A-Za-z0-9_]*)
    |(?P<integer>[+-]?(?:0|[1-9][0-9]*))
    |(?P<single>'(?:[\x20-\x26\x28-\x5b\x5d-\x7e]|\\['\\])+')
    |(?P<double>"(?:[\x20\x21\x23-\x5b\x5d-\x7e]|\\["\\])*")
    |(?P<mark>!=|/(?!\*)|[][(),.=~|!?&<>@*+^;:\#{}-]))?""",
    re.DOTALL | re.VERBOSE,
)
BARE = re.compile(r"[a-z][A-Za-z0-9_]*")
BLANKS_OR_QUOTES = re.compile(
    r"""((?:'(?:[^'\\]|\\.)*'|"(?:[^"\\]|\\.)*")+)|(?:[\t\n\f\r ]+|%[^\n]*|/\*.*?\*/)+""", re.DOTALL
)
NUMBER = re.compile(
    r"""'(?:[^'\\\n]|\\.)*'|"(?:[^"\\\n]|\\.)*"|[A-Za-z_$][A-Za-z0-9_]*
    |(?P<unread>[0-9]+(?:/[0-9]+|\.[0-9]+(?:[Ee][+-]?[0-9]+)?|[Ee][+-]?[0-9]+))|[0-9]+""",
    re.VERBOSE,
)
WORDS = ("lower", "dollar", "single")


class Unread(Exception):
    """No item goes on at this place of the text."""

    def __init__(self, place: int):
        super().__init__(place)
        self.place = place


class Symbol(NamedTuple):
    """A symbol where it stands, written as in replies."""
    text: str
    shape: str
    place: int


class Clause(NamedTuple):
    start: int
    end: int
    name: str  # as in replies
    role: str
    formula: str  # on one line
    notes: str  # the annotations on one line, or nothing
    symbols: list[Symbol]


class Include(NamedTuple):
    start: int
    end: int
    file: str  # without quotes
    names: list[str] | None  # the selection, if there is one


def plain(token: str) -> str:
    """The text between quotes."""
    return re.sub(r"\\(.)", r"\1", token[1:-1])


def quoted(text: str) -> str:
    return "'" + re.sub(r"(['\\])", r"\\\1", text) + "'"


def word(text: str) -> str:
    """A word as in replies: in quotes where it needs them."""
    return text if BARE.fullmatch(text) else quoted(text)


def written(kind: str, token: str) -> str:
    """A name or a symbol as in replies."""
    return word(plain(token)) if kind == "single" else token


def one_line(text: str) -> str:
    """A text in which blanks, comments among them, became single spaces."""
    return BLANKS_OR_QUOTES.sub(lambda found: found[1] or " ", text).strip()


class Reader:
    """Reads the item at the front of a text, token by token."""

    def __init__(self, text: str, start: int = 0):
        self.text = text
        self.end = start  # of the last token that was taken
        self.open = 0
        self.symbols: list[Symbol] = []
        self.formula_end = 0  # once annotations begin after the formula
        self.look()
        self.first = self.start

    def look(self) -> None:
        """Finds the next token after blanks; none at the end, or where no token stands."""
        found = TOKEN.match(self.text, self.end)
        self.kind = found.lastgroup or ""
        self.token = found[self.kind] if self.kind else ""
        self.start = found.end() - len(self.token)

    def pass_token(self) -> str:
        token = self.token
        if token in ("(", "[", ")", "]"):
            self.open += 1 if token in ("(", "[") else -1
            if self.open > MOST_OPEN_BRACKETS:
                raise Unread(self.start)
        self.end = self.start + len(token)
        self.look()
        return token

    def take(self, *texts: str) -> str:
        """The next token, which is to be one of these."""
        if self.token not in texts:
            raise Unread(self.start)
        return self.pass_token()

    def take_kind(self, *kinds: str) -> str:
        """The next token, which is to be of one of these kinds."""
        if self.kind not in kinds:
            raise Unread(self.start)
        return self.pass_token()

    def row(self, part: Callable, mark: str = ",") -> list:
        """One part or more, with the mark between them."""
        parts = [part()]
        while self.token == mark:
            self.pass_token()
            parts.append(part())
        return parts

    def name(self) -> str:
        kind = self.kind
        return written(kind, self.take_kind("lower", "single", "integer"))

    def term(self) -> None:
        kind, place = self.kind, self.start
        token = self.take_kind("upper", "integer", "double", *WORDS)
        if kind == "upper":
            return
        number, arguments = len(self.symbols), 0
        self.symbols.append(Symbol("", "", place))
        if kind in WORDS and self.token == "(":
            self.pass_token()
            arguments = len(self.row(self.term))
            self.take(")")
        self.symbols[number] = Symbol(written(kind, token), f"function/{arguments}", place)

    def atom(self, *equalities: str) -> None:
        kind, number = self.kind, len(self.symbols)
        self.term()
        if self.token in equalities:
            self.pass_token()
            self.term()
        elif kind in WORDS:
            head = self.symbols[number]
            self.symbols[number] = head._replace(shape=head.shape.replace("function", "predicate"))
        else:
            raise Unread(self.start)

    def literal(self) -> None:
        if self.token != "~":
            return self.atom("=", "!=")
        self.pass_token()
        if self.token != "(":
            return self.atom("=")
        self.pass_token()
        self.atom("=")
        self.take(")")

    def formula(self) -> None:
        wrapped = 0
        while self.token == "(":
            self.pass_token()
            wrapped += 1
        self.row(self.literal, "|")
        for _ in range(wrapped):
            self.take(")")

    def notes(self) -> None:
        """One token or more of any kind, whose brackets match."""
        closers: list[str] = []
        started = False
        while closers or not started or self.token != ")":
            started = True
            if self.token in (")", "]") and (not closers or self.token != closers.pop()):
                raise Unread(self.start)
            if self.token in ("(", "["):
                closers.append(")" if self.token == "(" else "]")
            if not self.kind:
                raise Unread(self.start)
            self.pass_token()

    def clause(self) -> Clause:
        name = self.name()
        self.take(",")
        role = self.take_kind("lower")
        self.take(",")
        start = self.start
        self.formula()
        formula, notes = one_line(self.text[start:self.end]), ""
        if self.token == ",":
            self.formula_end = self.end
            self.pass_token()
            start = self.start
            self.notes()
            notes = one_line(self.text[start:self.end])
        self.take(")")
        self.take(".")
        return Clause(self.first, self.end, name, role, formula, notes, self.symbols)

    def include(self) -> Include:
        file, names = plain(self.take_kind("single")), None
        if self.token == ",":
            self.pass_token()
            self.take("[")
            names = self.row(self.name)
            self.take("]")
        self.take(")")
        self.take(".")
        return Include(self.first, self.end, file, names)

    def item(self) -> Clause | Include:
        word = self.take("cnf", "include")
        self.take("(")
        return self.clause() if word == "cnf" else self.include()

    def is_foreign(self) -> bool:
        """Whether a formula of another language begins here."""
        return self.token in LANGUAGES and Reader(self.text, self.start + len(self.token)).token == "("


def items(text: str) -> Iterator[Clause | Include]:
    """The items of a text in order; Unread where it goes on with neither an item nor its end."""
    place = 0
    while BLANKS.match(text, place).end() < len(text):
        item = Reader(text, place).item()
        yield item
        place = item.end


def number_at(text: str, start: int, place: int) -> bool:
    """Whether a rational or real number of an item that starts there stands over this place."""
    for found in NUMBER.finditer(text, start):
        if found.end() > place:
            return found["unread"] is not None and found.start() <= place
    return False


def line_of(text: str, place: int) -> int:
    return text.count("\n", 0, place) + 1


def column_of(text: str, place: int) -> int:
    return place - text.rfind("\n", 0, place)


def found_program() -> str:
    """The program: the one that STINDEX names, or the repository's, or the one on the path."""
    built = Path(__file__).resolve().parent / "../crates/stindex/out/stindex"
    named = os.environ.get("STINDEX") or (str(built) if built.exists() else "stindex")
    found = shutil.which(named)
    if not found:
        sys.exit(f"no program {named}: set STINDEX to its path")
    return os.path.abspath(found)
