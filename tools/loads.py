"""Loads, by docs/COMMANDS.md: the clauses that a file and its includes have, in order, up to the first fault."""
import re
from collections.abc import Iterator
from typing import NamedTuple

import tptp

MOST_FILE_BYTES = 33_554_432
MOST_FETCHES = 1_024
MOST_OPEN_FILES = 32
QUOTE = re.compile(r"""(['"])(?:(?!\1)[\x20-\x5b\x5d-\x7e]|\\(?:\1|\\))*""")


class Place(NamedTuple):
    """A place in a file, and the places of the includes that lead there, the last one first."""
    file: str
    text: str
    place: int
    included: tuple["Place", ...]

    def line(self, reported: str) -> str:
        return f"{self.file}:{tptp.line_of(self.text, self.place)}:{tptp.column_of(self.text, self.place)}: {reported}"

    def lines(self, reported: str) -> list[str]:
        return [self.line(reported), *(place.line("included from here") for place in self.included)]


class Met(NamedTuple):
    """A clause that a load met."""
    place: Place
    name: str
    item: int

    def __str__(self) -> str:
        return f"clause {self.name}, item {self.item} of the file"

    def clause(self) -> tptp.Clause:
        return tptp.Reader(self.place.text, self.place.place).item()

    def symbol(self, text: str, shape: str) -> Place | None:
        """Where the symbol first stands in this clause in this shape."""
        places = [symbol.place for symbol in self.clause().symbols if (symbol.text, symbol.shape) == (text, shape)]
        return self.place._replace(place=min(places)) if places else None


class Refusal(Exception):
    """A load's reply that refuses, and the lines that tell more."""

    def __init__(self, reply: str, lines: list[str]):
        super().__init__(reply)
        self.reply, self.lines = reply, lines


class Load:
    """Goes through a file and its includes as a load does."""

    def __init__(self):
        self.fetches = 0

    def fetched(self, file: str, open_files: tuple[str, ...], asked: Place | None) -> str:
        """The text of a file, where it may be opened."""
        text, word = "", ""
        if file in open_files:
            word = "cycle"
        elif len(open_files) == MOST_OPEN_FILES:
            word = "depth"
        elif self.fetches == MOST_FETCHES:
            word = "fetches"
        else:
            self.fetches += 1
            try:
                with open(file, "rb") as opened:
                    text = opened.read(MOST_FILE_BYTES + 1).decode("latin-1")
                word = "big" if len(text) > MOST_FILE_BYTES else ""
            except FileNotFoundError:
                word = "missing"
            except OSError:
                word = "fault"
        if word:
            reply = "! fetches" if word == "fetches" else f"! {word} {tptp.quoted(file)}"
            raise Refusal(reply, asked.lines("this include asks for the file") if asked else [])
        return text

    def clauses(self, file: str, asked: Place | None = None, open_files: tuple[str, ...] = (),
                selections: tuple[set[str], ...] = ()) -> Iterator[tuple[Met, tptp.Clause]]:
        """The clauses of the file and its includes that a load keeps, in order."""
        text = self.fetched(file, open_files, asked)
        included = (asked, *asked.included) if asked else ()
        end = number = 0
        while tptp.BLANKS.match(text, end).end() < len(text):
            reader = tptp.Reader(text, end)
            number += 1
            place = Place(file, text, reader.first, included)
            try:
                item = reader.item()
            except tptp.Unread as fault:
                raise unread(place, number, fault.place) from None
            end = item.end
            if isinstance(item, tptp.Include):
                inner = selections if item.names is None else (*selections, set(item.names))
                yield from self.clauses(item.file, place, (*open_files, file), inner)
            elif all(item.name in names for names in selections):
                yield Met(place, item.name, number), item


def unread(begin: Place, number: int, fault: int) -> Refusal:
    """What is reported of a text that goes on with no item."""
    foreign = tptp.Reader(begin.text, begin.place).is_foreign()
    word = "language" if foreign else "syntax"
    reply = f"! {word} {tptp.quoted(begin.file)} {tptp.line_of(begin.text, begin.place)}"
    token = tptp.Reader(begin.text, fault).token
    quote = QUOTE.match(begin.text, fault)
    if foreign:
        reported = f"a formula of {token}, which isn't CNF"
    elif begin.text.startswith("/*", fault):
        reported = "a comment that isn't closed"
    elif fault == len(begin.text):
        reported = "the file ends within an item"
    elif quote and not token:
        column = tptp.column_of(begin.text, quote.end())
        reported = f"no item goes on with a quoted text that breaks off in column {column}"
    elif tptp.number_at(begin.text, begin.place, fault):
        reported = f"no item goes on with {token}, and rational and real numbers aren't read"
    else:
        reported = f"no item goes on with {token or ascii(begin.text[fault])}"
    here = begin._replace(place=fault)
    if fault == begin.place:
        return Refusal(reply, here.lines(reported))
    return Refusal(reply, [here.line(reported), *begin.lines(f"item {number} of the file begins here")])
