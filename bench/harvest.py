"""Clauses in the style of those that a prover derives, and patterns that are drawn from them, the same each time.

Few symbols: those of groups, of which most units are equations, and those of relations. A clause is new, or it comes
from an earlier one: as a variant, as an instance, with another subterm somewhere, or with literals of a second one. In
each literal terms are nested 2 to 6 deep. A harvest of more clauses begins with those of one of fewer.
"""
import random
from collections.abc import Iterator
from typing import NamedTuple

FUNCTIONS = {"multiply": 2, "commutator": 2, "inverse": 1, "esk1_1": 1, "identity": 0, "a": 0, "b": 0}
PREDICATES = {"=": 2, "member": 2, "subset": 2, "product": 3}
CONSTANTS = [head for head, arity in FUNCTIONS.items() if arity == 0]
DRAWN_FUNCTIONS = [("multiply", 2)] * 3 + [("inverse", 1)] * 2 + [item for item in FUNCTIONS.items() if item[1]]
DRAWN_PREDICATES = [("=", 2)] * 4 + list(PREDICATES.items())
VARIABLES = [f"X{number}" for number in range(1, 6)]
LEAST_DEPTH, MOST_DEPTH = 2, 6
MOST_LITERALS = 4


class Application(NamedTuple):
    head: str
    arguments: tuple


Term = str | Application  # a text is a variable


class Literal(NamedTuple):
    sign: bool
    atom: Application


def depth(term: Term) -> int:
    """How many symbols stand one inside the other."""
    return 0 if isinstance(term, str) else 1 + max(map(depth, term.arguments), default=0)


def replaced(images: dict[str, Term], term: Term) -> Term:
    if isinstance(term, str):
        return images.get(term, term)
    return term._replace(arguments=tuple(replaced(images, argument) for argument in term.arguments))


def applications(term: Term, path: tuple[int, ...] = ()) -> Iterator[tuple[tuple[int, ...], Application]]:
    """The subterms that are no variables, the term itself among them, with their paths."""
    if isinstance(term, Application):
        yield path, term
        for number, argument in enumerate(term.arguments):
            yield from applications(argument, path + (number,))


def with_subterm(term: Term, path: tuple[int, ...], new: Term) -> Term:
    """The term with this one at a path."""
    if not path:
        return new
    arguments = list(term.arguments)
    arguments[path[0]] = with_subterm(arguments[path[0]], path[1:], new)
    return term._replace(arguments=tuple(arguments))


def text_of(term: Term) -> str:
    if isinstance(term, str) or not term.arguments:
        return term if isinstance(term, str) else term.head
    arguments = [text_of(argument) for argument in term.arguments]
    return "=".join(arguments) if term.head == "=" else f"{term.head}({','.join(arguments)})"


def literal_text(literal: Literal) -> str:
    return ("" if literal.sign else "~") + text_of(literal.atom)


class Harvest:
    def __init__(self, count: int, seed: int = 1):
        self.chance = random.Random(seed)
        self.clauses: list[list[Literal]] = []
        while len(self.clauses) < count:
            literals = self.next_literals()
            if all(LEAST_DEPTH < depth(literal.atom) <= MOST_DEPTH + 1 for literal in literals):
                self.clauses.append(literals)

    def term(self, most: int) -> Term:
        draw = self.chance.random()
        if most == 0 or draw < 0.3:
            return self.chance.choice(VARIABLES) if draw < 0.25 else Application(self.chance.choice(CONSTANTS), ())
        head, arity = self.chance.choice(DRAWN_FUNCTIONS)
        return Application(head, tuple(self.term(most - 1) for _ in range(arity)))

    def new_literal(self) -> Literal:
        head, arity = self.chance.choice(DRAWN_PREDICATES)
        atom = Application(head, tuple(self.term(4) for _ in range(arity)))
        return Literal(self.chance.random() < 0.7, atom)

    def renamed(self, literals: list[Literal]) -> list[Literal]:
        images = dict(zip(VARIABLES, self.chance.sample(VARIABLES, len(VARIABLES))))
        return [literal._replace(atom=replaced(images, literal.atom)) for literal in literals]

    def instance(self, literals: list[Literal]) -> list[Literal]:
        images = {self.chance.choice(VARIABLES): self.term(2)}
        return [literal._replace(atom=replaced(images, literal.atom)) for literal in literals]

    def rewritten(self, literals: list[Literal]) -> list[Literal]:
        """The literals with another subterm at one place of the first."""
        first, *others = literals
        _, *below = applications(first.atom)
        if not below:
            return literals
        path, _ = self.chance.choice(below)
        return [first._replace(atom=with_subterm(first.atom, path, self.term(3))), *others]

    def joined(self, literals: list[Literal]) -> list[Literal]:
        """All literals of the one but the first, and those of another."""
        return (literals[1:] + self.chance.choice(self.clauses))[:MOST_LITERALS]

    def next_literals(self) -> list[Literal]:
        if not self.clauses or self.chance.random() < 0.15:
            return [self.new_literal() for _ in range(self.chance.choice([1, 1, 1, 2, 3]))]
        change = self.chance.choice([self.renamed, self.instance, self.rewritten, self.rewritten, self.joined])
        return change(self.chance.choice(self.clauses))

    def items(self) -> Iterator[str]:
        """The clauses, as lines of a file."""
        for number, literals in enumerate(self.clauses):
            formula = "|".join(map(literal_text, literals))
            yield f"cnf(c_0_{number},plain,({formula})).\n"


class Patterns:
    """Patterns that are drawn from a harvest: literals and subterms as they stand, and near misses, which have another
    function of as many arguments somewhere below their head."""

    def __init__(self, harvest: Harvest, seed: int = 2):
        self.harvest = harvest
        self.chance = random.Random(seed)

    def literal(self) -> Literal:
        return self.chance.choice(self.chance.choice(self.harvest.clauses))

    def subterm(self) -> Application:
        """A subterm that has arguments."""
        while True:
            _, *below = applications(self.literal().atom)
            found = [term for _, term in below if term.arguments]
            if found:
                return self.chance.choice(found)

    def near_miss(self, term: Application) -> Application | None:
        _, *below = applications(term)
        if not below:
            return None
        path, inner = self.chance.choice(below)
        arity = FUNCTIONS[inner.head]
        heads = [head for head, others in FUNCTIONS.items() if others == arity and head != inner.head]
        return with_subterm(term, path, inner._replace(head=self.chance.choice(heads)))

    def pattern(self, kind: str, misses: bool) -> str:
        """One pattern with its word, `lit` or `term`."""
        while True:
            sign, term = self.literal() if kind == "lit" else Literal(True, self.subterm())
            drawn = self.near_miss(term) if misses else term
            if drawn is not None:
                return f"{kind} {literal_text(Literal(sign, drawn))}"
