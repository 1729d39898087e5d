"""A model of the whole program, by docs/COMMANDS.md and the definitions of crates/*/specs.

`run` tells the replies and the status that are due for the words of a call, an input and a folder
of files. Terms are written out and substitutions are dictionaries, so nothing here is like the
program. It is slow, and it never lacks memory. It has no trees, so what depends on their form is
a `?` in its replies, as it is in those of the program once they are `masked`. Then a line of a
tree ends with the number of leaves that have entries, which doesn't depend on it.
"""
import os
import re
import sys
from collections import Counter
from collections.abc import Callable, Iterable, Iterator
from typing import NamedTuple

sys.setrecursionlimit(20_000)

MOST_LINE_BYTES = 1_048_576
MOST_FILE_BYTES = 33_554_432
MOST_ENTRIES = 4_194_304
MOST_FETCHES = 1_024
MOST_OPEN_FILES = 32
MOST_OPEN_BRACKETS = 512
GREATEST_START = 2_147_483_647
MOST_DRAWN = 10_000

RELATIONS = (b"instances", b"generalizations", b"variants", b"unifiable")
SUBSUMPTIONS = (b"subsumers", b"subsumed")
LANGUAGES = (b"fof", b"tff", b"thf", b"tcf", b"tpi")
USAGE = b"usage: stindex [--strict] [FILE]...\n"
TREE = re.compile(rb"^(literals|terms) nodes \d+ leaves (\d+) unmerged (\d+)$", re.MULTILINE)
MASKED_TREE = b"%s nodes ? leaves ? unmerged ?, %d with entries"
PASSED = re.compile(rb"^passed \d+ nodes \d+(?= answers \d+$)", re.MULTILINE)
MASKED_PASSED = b"passed ? nodes ?"


class Unread(Exception):
    """The grammar doesn't read the text."""


class Fault(Exception):
    """Neither an item nor the end stands at a place of a text: `syntax`, or `language`."""

    def __init__(self, word: bytes, place: int):
        self.word = word
        self.place = place


class Refusal(Exception):
    """A line of a reply that refuses."""

    def __init__(self, line: bytes):
        self.line = line


# Tokens

BLANKS = re.compile(rb"(?:[\t\n\f\r ]+|%[^\n]*|/\*.*?\*/)*", re.DOTALL)
TOKENS = {
    "lower": re.compile(rb"[a-z][A-Za-z0-9_]*"),
    "upper": re.compile(rb"[A-Z][A-Za-z0-9_]*"),
    "dollar": re.compile(rb"\$\$?[a-z][A-Za-z0-9_]*"),
    "integer": re.compile(rb"[+-]?(?:0|[1-9][0-9]*)"),
    "single": re.compile(rb"'(?:[\x20-\x26\x28-\x5b\x5d-\x7e]|\\['\\])+'"),
    "double": re.compile(rb'"(?:[\x20\x21\x23-\x5b\x5d-\x7e]|\\["\\])*"'),
    "inequality": re.compile(rb"!="),
    "mark": re.compile(rb"[()\[\],.=~|!?&<>@*+\-^;/:#{}]"),
}


class Token(NamedTuple):
    """The text is the spelling, and that of quotes without them and their escapes."""
    kind: str
    text: bytes
    end: int


def blanks_end(text: bytes, place: int) -> int:
    return BLANKS.match(text, place).end()


def token_at(text: bytes, place: int) -> Token | None:
    """The longest token after the longest blanks, or None where the text ends."""
    place = blanks_end(text, place)
    if place == len(text):
        return None
    matches = ((kind, pattern.match(text, place)) for kind, pattern in TOKENS.items())
    found = [(match.end(), kind) for kind, match in matches if match]
    if not found or text.startswith(b"/*", place):
        raise Unread
    end, kind = max(found)
    spelling = text[place:end]
    if kind in ("single", "double"):
        spelling = re.sub(rb"\\(.)", rb"\1", spelling[1:-1])
    return Token(kind, spelling, end)


# Terms, clauses and items

class Variable(NamedTuple):
    name: bytes
    is_pattern: bool


class Symbol(NamedTuple):
    kind: str
    text: bytes
    side: bytes
    arity: int


class Application(NamedTuple):
    symbol: Symbol
    arguments: tuple


Term = Variable | Application


class Literal(NamedTuple):
    sign: bool
    atom: Application


class Name(NamedTuple):
    kind: str
    text: bytes


class Clause(NamedTuple):
    name: Name
    literals: list[Literal]


class Include(NamedTuple):
    file: bytes
    selection: set[Name] | None


# Grammar

class Reader:
    """Reads the tokens of a text from a place on, each method a part of the grammar."""

    def __init__(self, text: bytes, place: int, is_pattern: bool = False):
        self.text = text
        self.place = place
        self.is_pattern = is_pattern
        self.open_brackets = 0

    def stands(self, *marks: bytes) -> bool:
        """Whether the next token is one of these marks."""
        token = token_at(self.text, self.place)
        return token is not None and token.kind in ("mark", "inequality") and token.text in marks

    def take(self, *kinds: str) -> Token:
        """The next token, which has to be of one of these kinds, or of any."""
        token = token_at(self.text, self.place)
        if token is None or kinds and token.kind not in kinds:
            raise Unread
        if token.kind == "mark":
            self.open_brackets += (token.text in b"([") - (token.text in b")]")
            if self.open_brackets > MOST_OPEN_BRACKETS:
                raise Unread
        self.place = token.end
        return token

    def took(self, mark: bytes) -> bool:
        """Takes the mark if it stands here."""
        stands = self.stands(mark)
        if stands:
            self.take()
        return stands

    def need(self, mark: bytes) -> None:
        if not self.took(mark):
            raise Unread

    def listed(self, part: Callable, mark: bytes) -> list:
        """At least one part, with the mark between them."""
        parts = [part()]
        while self.took(mark):
            parts.append(part())
        return parts

    def name(self) -> Name:
        token = self.take("lower", "single", "integer")
        return Name("integer" if token.kind == "integer" else "word", token.text)

    def file(self) -> bytes:
        return self.take("single").text

    def numeral(self, least: int, most: int) -> int:
        """An integer without a sign, within these bounds."""
        text = self.take("integer").text
        if not text.isdigit() or len(text) > len(str(most)) or not least <= int(text) <= most:
            raise Unread
        return int(text)

    def start_and_count(self) -> tuple[int, int]:
        return self.numeral(0, GREATEST_START), self.numeral(1, MOST_DRAWN)

    def term(self) -> Term:
        token = self.take("upper", "integer", "double", "lower", "single", "dollar")
        if token.kind == "upper":
            return Variable(token.text, self.is_pattern)
        kind, arguments = token.kind, []
        if kind in ("lower", "single", "dollar"):
            kind = "dollar" if kind == "dollar" else "word"
            if self.took(b"("):
                arguments = self.listed(self.term, b",")
                self.need(b")")
        symbol = Symbol(kind, token.text, b"function", len(arguments))
        return Application(symbol, tuple(arguments))

    def equation_or_atom(self) -> Literal:
        left = self.term()
        if self.stands(b"=", b"!="):
            sign = self.take().text == b"="
            equality = Symbol("equality", b"=", b"predicate", 2)
            return Literal(sign, Application(equality, (left, self.term())))
        if isinstance(left, Variable) or left.symbol.kind not in ("word", "dollar"):
            raise Unread
        return Literal(True, Application(left.symbol._replace(side=b"predicate"), left.arguments))

    def literal(self) -> Literal:
        if not self.took(b"~"):
            return self.equation_or_atom()
        in_brackets = self.took(b"(")
        inner = self.equation_or_atom()
        if in_brackets:
            self.need(b")")
        if not inner.sign:
            raise Unread
        return Literal(False, inner.atom)

    def formula(self) -> list[Literal]:
        if not self.took(b"("):
            return self.listed(self.literal, b"|")
        literals = self.formula()
        self.need(b")")
        return literals

    def annotations(self) -> None:
        closing = []
        self.take_annotation(closing)
        while closing or not self.stands(b")"):
            self.take_annotation(closing)

    def take_annotation(self, closing: list[bytes]) -> None:
        """Takes a token; `closing` has the brackets that are due for those that are open."""
        token = self.take()
        if token.kind == "mark" and token.text in b"([":
            closing.append(b")" if token.text == b"(" else b"]")
        elif token.kind == "mark" and token.text in b")]":
            if not closing or closing.pop() != token.text:
                raise Unread

    def item(self) -> Clause | Include:
        word = self.take("lower").text
        if word not in (b"cnf", b"include"):
            raise Unread
        self.need(b"(")
        item = self.clause() if word == b"cnf" else self.include()
        self.need(b")")
        self.need(b".")
        return item

    def clause(self) -> Clause:
        name = self.name()
        self.need(b",")
        self.take("lower")
        self.need(b",")
        literals = self.formula()
        if self.took(b","):
            self.annotations()
        return Clause(name, literals)

    def include(self) -> Include:
        file, selection = self.file(), None
        if self.took(b","):
            self.need(b"[")
            selection = set(self.listed(self.name, b","))
            self.need(b"]")
        return Include(file, selection)


def whole(part: Callable, text: bytes, place: int, is_pattern: bool = False):
    """The part of the grammar that the text is from the place on."""
    reader = Reader(text, place, is_pattern)
    read = part(reader)
    if blanks_end(text, reader.place) != len(text):
        raise Unread
    return read


def is_foreign(text: bytes, place: int) -> bool:
    """Whether a formula of another language begins here."""
    try:
        reader = Reader(text, place)
        return reader.take("lower").text in LANGUAGES and reader.stands(b"(")
    except Unread:
        return False


def next_item(text: bytes, place: int) -> tuple[Clause | Include | None, int]:
    """The item after the blanks, or None where the text ends, and the place after it."""
    place = blanks_end(text, place)
    if place == len(text):
        return None, place
    reader = Reader(text, place)
    try:
        return reader.item(), reader.place
    except Unread:
        raise Fault(b"language" if is_foreign(text, place) else b"syntax", place) from None


# Printing

def quoted(text: bytes, quote: bytes) -> bytes:
    return quote + text.replace(b"\\", b"\\\\").replace(quote, b"\\" + quote) + quote


def printed_word(kind: str, text: bytes) -> bytes:
    """A symbol or a name, by its kind."""
    if kind == "double":
        return quoted(text, b'"')
    bare = kind != "word" or TOKENS["lower"].fullmatch(text)
    return text if bare else quoted(text, b"'")


def printed_name(name: Name) -> bytes:
    return printed_word(name.kind, name.text)


def printed_term(term: Term) -> bytes:
    if isinstance(term, Variable):
        return (b"?" if term.is_pattern else b"") + term.name
    head = printed_word(term.symbol.kind, term.symbol.text)
    if not term.arguments:
        return head
    return b"%s(%s)" % (head, b",".join(map(printed_term, term.arguments)))


# Entries

class Entry(NamedTuple):
    """The sign is None for a subterm."""
    place: bytes
    sign: bool | None
    term: Application


def parts(term: Application, path: list[int]) -> Iterator[tuple[list[int], Application]]:
    """The proper subterms that are no variables, with their paths."""
    for number, argument in enumerate(term.arguments, 1):
        if isinstance(argument, Application):
            yield path + [number], argument
            yield from parts(argument, path + [number])


def entries_of(clause: Clause) -> list[Entry]:
    entries = []
    for number, literal in enumerate(clause.literals, 1):
        place = b"%s:%d" % (printed_name(clause.name), number)
        entries.append(Entry(place, literal.sign, literal.atom))
        for path, term in parts(literal.atom, []):
            dotted = ".".join(map(str, path)).encode()
            entries.append(Entry(place + b":" + dotted, None, term))
    return entries


# Relations

Substitution = dict[Variable, Term]
Bindings = list[tuple[Variable, Term]]


def variables(term: Term) -> list[Variable]:
    """In the order of first occurrence."""
    if isinstance(term, Variable):
        return [term]
    return list(dict.fromkeys(x for argument in term.arguments for x in variables(argument)))


def replaced(substitution: Substitution, term: Term) -> Term:
    if isinstance(term, Variable):
        return substitution.get(term, term)
    arguments = tuple(replaced(substitution, argument) for argument in term.arguments)
    return Application(term.symbol, arguments)


def matcher(general: Term, special: Term, given: Substitution | None = None) -> Substitution | None:
    """The least substitution, the given one extended, that takes the one term to the other."""
    found, open_pairs = dict(given or {}), [(general, special)]
    while open_pairs:
        left, right = open_pairs.pop()
        if isinstance(left, Variable):
            if found.setdefault(left, right) != right:
                return None
        elif isinstance(right, Variable) or left.symbol != right.symbol:
            return None
        else:
            open_pairs += zip(left.arguments, right.arguments)
    return found


def unifier(left: Term, right: Term) -> Substitution | None:
    found, open_pairs = {}, [(left, right)]
    while open_pairs:
        left, right = (replaced(found, term) for term in open_pairs.pop())
        if left == right:
            continue
        if not isinstance(left, Variable):
            left, right = right, left
        if isinstance(left, Variable):
            if left in variables(right):
                return None
            step = {left: right}
            found = {x: replaced(step, term) for x, term in found.items()} | step
        elif left.symbol != right.symbol:
            return None
        else:
            open_pairs += zip(left.arguments, right.arguments)
    return found


# Canonical lists

def leading_bindings(query: Term, entry: Term, found: Substitution) -> Bindings:
    """The bindings of a unifier, each part of a right side as the first variable it is equal to."""
    order = list(dict.fromkeys(variables(query) + variables(entry)))
    leaders = {}
    for x in order:
        leaders.setdefault(replaced(found, x), x)

    def folded(term: Term) -> Term:
        return leaders[term] if term in leaders else folded_inside(term)

    def folded_inside(term: Application) -> Application:
        return Application(term.symbol, tuple(map(folded, term.arguments)))

    bindings = []
    for x in order:
        image = replaced(found, x)
        if leaders[image] != x:
            bindings.append((x, leaders[image]))
        elif isinstance(image, Application):
            bindings.append((x, folded_inside(image)))
    return bindings


def ordered(bindings: Bindings) -> Bindings:
    """At each place the first variable that no right side after that place has."""
    result = []
    while bindings:
        inside = {x for _, term in bindings for x in variables(term)}
        free = next(binding for binding in bindings if binding[0] not in inside)
        bindings.remove(free)
        result.append(free)
    return result


def canonical_list(relation: bytes, query: Term, entry: Term) -> Bindings | None:
    """The bindings that are answered, or None where the relation fails."""
    if relation == b"unifiable":
        found = unifier(query, entry)
        return None if found is None else ordered(leading_bindings(query, entry, found))
    general, special = (entry, query) if relation == b"generalizations" else (query, entry)
    found = matcher(general, special)
    if found is None or relation == b"variants" and matcher(special, general) is None:
        return None
    return [(x, found[x]) for x in variables(general)]


def printed_bindings(bindings: Bindings) -> bytes:
    pairs = (b"%s -> %s" % (printed_term(x), printed_term(term)) for x, term in bindings)
    return b"{%s}" % b"; ".join(pairs)


# Subsumption

def least_map(
    literals: list[Literal], images: list[Literal], found: Substitution | None = None
) -> list[int] | None:
    """The first list of numbers, in lexicographic order, of images that the literals can have."""
    if not literals:
        return []
    first, *others = literals
    for number, image in enumerate(images, 1):
        if first.sign == image.sign:
            extended = matcher(first.atom, image.atom, found)
            rest = None if extended is None else least_map(others, images, extended)
            if rest is not None:
                return [number, *rest]
    return None


def printed_map(numbers: list[int]) -> bytes:
    return b"[%s]" % b",".join(b"%d" % number for number in numbers)


# Samples

class Generator:
    """A linear congruential generator, and the parts of a clause that it draws."""

    def __init__(self, state: int):
        self.state = state

    def below(self, bound: int) -> int:
        self.state = (1103515245 * self.state + 12345) % 2147483648
        return self.state // 65536 % bound

    def term(self, depth: int) -> bytes:
        number = self.below(6 if depth else 4)
        if number == 4:
            return b"g(%s)" % self.term(depth - 1)
        if number == 5:
            return b"f(%s,%s)" % (self.term(depth - 1), self.term(depth - 1))
        return (b"X", b"Y", b"a", b"b")[number]

    def literal(self) -> bytes:
        sign = (b"", b"~")[self.below(2)]
        if self.below(2) == 0:
            return sign + b"p(%s,%s)" % (self.term(2), self.term(2))
        return sign + b"q(%s)" % self.term(2)

    def clause(self, number: int) -> bytes:
        literals = [self.literal() for _ in range(1 + self.below(2))]
        return b"cnf(s%d,axiom,%s)." % (number, b"|".join(literals))


def drawn_clauses(start: int, count: int) -> list[Clause]:
    generator = Generator(start)
    return [next_item(generator.clause(number), 0)[0] for number in range(1, count + 1)]


def as_pattern(term: Term) -> Term:
    """The term with variables of a pattern."""
    return replaced({x: Variable(x.name, True) for x in variables(term)}, term)


def without_names(term: Term) -> Term:
    """The term with numbers for its variables, in the order of first occurrence."""
    numbers = enumerate(variables(term))
    return replaced({x: Variable(b"%d" % number, False) for number, x in numbers}, term)


# The kept clauses, and the symbols in use

class Store:
    """The kept clauses with their entries, and the symbols that occur in them."""

    def __init__(self):
        self.entries: dict[Name, list[Entry]] = {}
        self.literals: dict[Name, list[Literal]] = {}
        self.uses: Counter[Symbol] = Counter()
        self.total = 0

    def add(self, clause: Clause) -> int:
        """Adds a clause, or refuses it; the number of its entries."""
        if clause.name in self.entries:
            raise Refusal(b"! taken " + printed_name(clause.name))
        entries = entries_of(clause)
        symbols = [entry.term.symbol for entry in entries]
        self.check(symbols)
        if self.total + len(entries) > MOST_ENTRIES:
            raise Refusal(b"! full %d %d" % (self.total + len(entries), MOST_ENTRIES))
        self.uses.update(symbols)
        self.entries[clause.name] = entries
        self.literals[clause.name] = clause.literals
        self.total += len(entries)
        return len(entries)

    def add_all(self, clauses: list[Clause]) -> int:
        """Adds all of the clauses, or none; the number of their entries."""
        gained = {}
        try:
            for clause in clauses:
                gained[clause.name] = self.add(clause)
        except Refusal:
            self.take_back(gained)
            raise
        return sum(gained.values())

    def take_back(self, names: Iterable[Name]) -> None:
        for name in names:
            self.remove(name)

    def check(self, symbols: list[Symbol]) -> None:
        """Refuses the first symbol that has another shape than in the store or earlier here."""
        shapes = {symbol[:2]: symbol for symbol in self.uses}
        for symbol in symbols:
            there = shapes.setdefault(symbol[:2], symbol)
            if there != symbol:
                head = printed_word(symbol.kind, symbol.text)
                numbers = (head, symbol.side, symbol.arity, there.side, there.arity)
                raise Refusal(b"! use %s %s/%d %s/%d" % numbers)

    def remove(self, name: Name) -> int:
        if name not in self.entries:
            raise Refusal(b"! unknown " + printed_name(name))
        entries = self.entries.pop(name)
        self.literals.pop(name)
        self.uses -= Counter(entry.term.symbol for entry in entries)
        self.total -= len(entries)
        return len(entries)

    def answers(self, relation: bytes, sign: bool | None, query: Term) -> Iterator[bytes]:
        for entries in self.entries.values():
            for entry in entries:
                if entry.sign is sign:
                    bindings = canonical_list(relation, query, entry.term)
                    if bindings is not None:
                        yield entry.place + b" " + printed_bindings(bindings) + b"\n"

    def mappings(self, command: bytes, formula: list[Literal]) -> Iterator[bytes]:
        for name, literals in self.literals.items():
            pair = (literals, formula) if command == b"subsumers" else (formula, literals)
            numbers = least_map(*pair)
            if numbers is not None:
                yield printed_name(name) + b" " + printed_map(numbers) + b"\n"

    def variant_count(self, of_literals: bool) -> int:
        """How many of the literals, or of the subterms, differ in more than the names of variables."""
        return len({
            (entry.sign, without_names(entry.term))
            for entries in self.entries.values() for entry in entries
            if of_literals == (entry.sign is not None)
        })

    def unifiable_count(self, clauses: list[Clause]) -> int:
        """How many entries unify with each entry of these clauses, summed up."""
        asked = (entry for clause in clauses for entry in entries_of(clause))
        return sum(
            1 for entry in asked
            for _ in self.answers(b"unifiable", entry.sign, as_pattern(entry.term))
        )


# Loads

def fetched(file: bytes, folder: str) -> bytes:
    """The bytes of a file, by its path from the folder."""
    opened_folder = os.open(folder, os.O_RDONLY)
    try:
        with open(os.open(file, os.O_RDONLY, dir_fd=opened_folder), "rb") as source:
            text = source.read(MOST_FILE_BYTES + 1)
    except FileNotFoundError:
        raise Refusal(b"! missing " + quoted(file, b"'")) from None
    except OSError:
        raise Refusal(b"! fault " + quoted(file, b"'")) from None
    finally:
        os.close(opened_folder)
    if len(text) > MOST_FILE_BYTES:
        raise Refusal(b"! big " + quoted(file, b"'"))
    return text


class Load:
    """One load of a file with its includes, up to its first fault, and what it gained so far."""

    def __init__(self, store: Store, folder: str):
        self.store = store
        self.folder = folder
        self.fetches = 0
        self.gained: dict[Name, int] = {}

    def read(self, file: bytes, opened: tuple[bytes, ...], selections: tuple[set[Name], ...]):
        """Adds what the file holds, inside the open files and their selections."""
        text = self.open(file, opened)
        opened += (file,)
        place = 0
        while True:
            try:
                item, place = next_item(text, place)
            except Fault as fault:
                line = 1 + text.count(b"\n", 0, fault.place)
                reported = (fault.word, quoted(file, b"'"), line)
                raise Refusal(b"! %s %s %d" % reported) from None
            if item is None:
                return
            if isinstance(item, Include):
                chosen = () if item.selection is None else (item.selection,)
                self.read(item.file, opened, selections + chosen)
            elif all(item.name in selection for selection in selections):
                self.gained[item.name] = self.store.add(item)

    def open(self, file: bytes, opened: tuple[bytes, ...]) -> bytes:
        if file in opened:
            raise Refusal(b"! cycle " + quoted(file, b"'"))
        if len(opened) == MOST_OPEN_FILES:
            raise Refusal(b"! depth " + quoted(file, b"'"))
        if self.fetches == MOST_FETCHES:
            raise Refusal(b"! fetches")
        self.fetches += 1
        return fetched(file, self.folder)


# Commands

def counted(lines: Iterable[bytes]) -> bytes:
    """The lines of an answer, and their number."""
    lines = list(lines)
    return b"".join(lines) + b"end %d\n" % len(lines)


def word_at(line: bytes, place: int, words: tuple[bytes, ...]) -> Token:
    """The next token, which has to be one of these lower words."""
    token = token_at(line, place)
    if token is None or token.kind != "lower" or token.text not in words:
        raise Unread
    return token


def masked(output: bytes) -> bytes:
    """The output of the program with `?` for each number that depends on the form of the trees."""
    def line(found: re.Match[bytes]) -> bytes:
        return MASKED_TREE % (found[1], int(found[2]) - int(found[3]))

    return PASSED.sub(MASKED_PASSED, TREE.sub(line, output))


class Session:
    def __init__(self, folder: str):
        self.store = Store()
        self.folder = folder

    def load(self, file: bytes) -> bytes:
        load = Load(self.store, self.folder)
        try:
            load.read(file, (), ())
        except Refusal:
            self.store.take_back(load.gained)
            raise
        return b"ok %d %d\n" % (len(load.gained), sum(load.gained.values()))

    def add(self, line: bytes, place: int) -> bytes:
        try:
            clause, place = next_item(line, place)
        except Fault as fault:
            raise Refusal(b"! " + fault.word) from None
        if not isinstance(clause, Clause) or blanks_end(line, place) != len(line):
            raise Unread
        return b"ok 1 %d\n" % self.store.add(clause)

    def answers(self, relation: bytes, line: bytes, place: int) -> Iterator[bytes]:
        """The lines that answer a question, whose relation ends at the place."""
        word = word_at(line, place, (b"lit", b"term"))
        if word.text == b"lit":
            sign, query = whole(Reader.literal, line, word.end, True)
        else:
            sign, query = None, whole(Reader.term, line, word.end, True)
        return self.store.answers(relation, sign, query)

    def explain(self, line: bytes, place: int) -> bytes:
        relation = word_at(line, place, RELATIONS)
        answers = sum(1 for _ in self.answers(relation.text, line, relation.end))
        return b"%s answers %d\n" % (MASKED_PASSED, answers)

    def tree(self) -> bytes:
        counts = (b"literals", self.store.variant_count(True)), (b"terms", self.store.variant_count(False))
        return b"".join(MASKED_TREE % count + b"\n" for count in counts)

    def subsumption(self, command: bytes, line: bytes, place: int) -> bytes:
        formula = whole(Reader.formula, line, place, True)
        return counted(self.store.mappings(command, formula))

    def sample(self, line: bytes, place: int) -> bytes:
        start, count = whole(Reader.start_and_count, line, place)
        drawn = drawn_clauses(start, count)
        gained = self.store.add_all(drawn)
        return b"sample %d %d %d\n" % (count, gained, self.store.unifiable_count(drawn))

    def command(self, line: bytes) -> bytes:
        word = token_at(line, 0)
        if word.kind != "lower":
            raise Unread
        if word.text in RELATIONS:
            return counted(self.answers(word.text, line, word.end))
        if word.text == b"explain":
            return self.explain(line, word.end)
        if word.text in SUBSUMPTIONS:
            return self.subsumption(word.text, line, word.end)
        if word.text == b"add":
            return self.add(line, word.end)
        if word.text == b"sample":
            return self.sample(line, word.end)
        if word.text == b"load":
            return self.load(whole(Reader.file, line, word.end))
        if word.text == b"remove":
            return b"ok 1 %d\n" % self.store.remove(whole(Reader.name, line, word.end))
        if blanks_end(line, word.end) != len(line):
            raise Unread
        if word.text == b"tree":
            return self.tree()
        if word.text == b"stats":
            numbers = (len(self.store.entries), self.store.total, len(self.store.uses))
            return b"clauses %d entries %d symbols %d\n" % numbers
        raise Unread

    def line(self, line: bytes) -> bytes:
        """The reply to a line, which is empty for blanks."""
        if len(line) > MOST_LINE_BYTES:
            return b"! long\n"
        if blanks_end(line, 0) == len(line):
            return b""
        try:
            return self.command(line)
        except Unread:
            return b"! syntax\n"
        except Refusal as refusal:
            return refusal.line + b"\n"

    def file(self, word: bytes) -> bytes:
        """The reply to a file of the call."""
        if not word or any(byte < 32 or byte > 126 for byte in word):
            return b"! syntax\n"
        try:
            return self.load(word)
        except Refusal as refusal:
            return refusal.line + b"\n"


# The run

def read_words(words: list[bytes]) -> tuple[bool, list[bytes]] | None:
    """Whether the run is strict, and its files; None where the words are no call."""
    strict, files = False, []
    for number, word in enumerate(words):
        if word == b"--":
            return strict, files + words[number + 1:]
        if word == b"--strict" and not strict:
            strict = True
        elif word.startswith(b"-") and word != b"-":
            return None
        else:
            files.append(word)
    return strict, files


def is_utf8(word: bytes) -> bool:
    try:
        word.decode()
    except UnicodeDecodeError:
        return False
    return True


def lines_of(data: bytes) -> list[bytes]:
    lines = data.split(b"\n")
    return lines if lines[-1] else lines[:-1]


def replies_to(files: Iterable[bytes], data: bytes, folder: str) -> Iterator[tuple[bytes, bytes]]:
    """Each file of the call, written as a line, and each line, with its reply."""
    session = Session(folder)
    for word in files:
        yield b"load " + quoted(word, b"'"), session.file(word)
    for line in lines_of(data):
        yield line, session.line(line)


def run(words: list[bytes], data: bytes, folder: str) -> tuple[list[tuple[bytes, bytes]], int]:
    """The lines that are acted on, each with its reply, and the status."""
    call = read_words(words) if all(map(is_utf8, words)) else None
    if call is None:
        return [(b"", USAGE)], 2
    strict, files = call
    result = []
    for line, reply in replies_to(files, data, folder):
        result.append((line, reply))
        if strict and reply.startswith(b"!"):
            return result, 1
    return result, 0
