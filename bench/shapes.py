#!/usr/bin/env python3
"""Sessions of one shape that is made long, for the scripts that measure how the cost grows.

A session is in two parts, what comes before and what is measured, so that the cost of the second is told from a run of
the first alone. `shapes.py` lists the shapes: the name, the smaller size, whether the cost is counted or timed, and how
often the cost of the smaller size the one of twice the size may be, with tabs between them. `shapes.py SHAPE N` writes
the session of this size into the current folder, as the files `before` and `whole`, with the files that it loads.
"""
import sys
from pathlib import Path
from random import Random
from typing import Callable, Iterable, NamedTuple

RELATIONS = ("instances", "generalizations", "variants", "unifiable")
LETTERS = "abcdefghijklmnopqrstuvwxyzABCDEFGHIJKLMNOPQRSTUVWXYZ0123456789"
MEBIBYTE = 1_048_576


class Session(NamedTuple):
    before: list[str]
    measured: list[str]
    files: dict[str, str] = {}


class Shape(NamedTuple):
    size: int
    session: Callable[[int], Session]
    how: str = "instructions"
    most: float = 2.3


def each(text: str, n: int, first: int = 0) -> list[str]:
    """The text for each of n numbers, which stand for its `#`."""
    return [text.replace("#", str(number)) for number in range(first, first + n)]


def listed(text: str, n: int, mark: str = ",") -> str:
    return mark.join(each(text, n))


def nested(left: str, inside: str, right: str, n: int) -> str:
    return left * n + inside + right * n


def clause(formula: str, name: str = "c") -> str:
    return f"cnf({name},axiom,{formula})."


def add(formula: str, name: str = "c") -> str:
    return "add " + clause(formula, name)


def own_clauses(n: int) -> list[str]:
    """Clauses with names and symbols of their own."""
    return each(add("p(f(X,a#),g(b#))", "c#"), n)


def lines(*measured: str, before: list[str] | None = None) -> Session:
    return Session(before or [], list(measured))


def file(text: str, more: dict[str, str] | None = None, before: list[str] | None = None) -> Session:
    return Session(before or [], ["load 'a.p'"], {"a.p": text, **(more or {})})


# Added clauses

ADDED = {
    "literals, each with a predicate of its own": Shape(10_000, lambda n: lines(add(listed("p#(a)", n, "|")))),
    "literals, each with a constant of its own": Shape(10_000, lambda n: lines(add(listed("p(a#)", n, "|")))),
    "literals that are all the same": Shape(20_000, lambda n: lines(add(listed("p(X)", n, "|")))),
    "equalities": Shape(20_000, lambda n: lines(add(listed("X!=Y", n, "|")))),
    "arguments: different variables": Shape(20_000, lambda n: lines(add(f"p({listed('X#', n)})"))),
    "arguments: one variable": Shape(40_000, lambda n: lines(add(f"p({listed('X', n)})"))),
    "arguments: different constants": Shape(20_000, lambda n: lines(add(f"p({listed('a#', n)})"))),
    "arguments: terms with variables": Shape(20_000, lambda n: lines(add(f"p({listed('f(X#)', n)})"))),
    # Each of n subterms is an entry, whose term is walked through.
    "nested terms": Shape(250, lambda n: lines(*each(add(f"p({nested('g(', 'X', ')', n)})", "c#"), 50)), most=4.6),
    "nested terms, to the right": Shape(
        250, lambda n: lines(*each(add(f"p({nested('f(X,', 'X', ')', n)})", "c#"), 50)), most=4.6),
    "nested brackets of the formula": Shape(250, lambda n: lines(*each(add(nested("(", "p", ")", n), "c#"), 50))),
    "nested brackets of annotations": Shape(250, lambda n: lines(*each(add("p," + nested("[", "x", "]", n), "c#"), 50))),
    "brackets of annotations side by side": Shape(50_000, lambda n: lines(add("p," + "[]()" * n))),
    "terms of annotations side by side": Shape(20_000, lambda n: lines(add("p," + listed("file('a#',[b])", n)))),
    "a name of escapes": Shape(200_000, lambda n: lines(add("p", "'" + r"\'" * n + "'"))),
    "a symbol of escapes": Shape(200_000, lambda n: lines(add("'" + r"\\" * n + "'"))),
    "a text of escapes": Shape(200_000, lambda n: lines(add('p("' + r"\"" * n + '")'))),
    "a long word": Shape(200_000, lambda n: lines(add("p" * n))),
    "a long variable": Shape(200_000, lambda n: lines(add(f"p({'X' * n})"))),
    "a long integer": Shape(200_000, lambda n: lines(add(f"p({'1' * n})"))),
    "clauses with one symbol": Shape(4_000, lambda n: lines(*each(add("p", "c#"), n))),
    "clauses, each with a symbol of its own": Shape(4_000, lambda n: lines(*each(add("p#", "c#"), n))),
    "names of n bytes that differ in the last": Shape(5_000, lambda n: lines(*(add("p", "a" * n + x) for x in LETTERS))),
    "symbols of n bytes that differ in the last": Shape(5_000, lambda n: lines(add("|".join("a" * n + x for x in LETTERS)))),
    "variables of n bytes that differ in the last":
        Shape(5_000, lambda n: lines(add(f"p({','.join('X' * n + x for x in LETTERS)})"))),
    "names that differ after 100 bytes": Shape(2_000, lambda n: lines(*each(add("p", "a" * 100 + "#"), n))),
    "symbols that differ after 100 bytes": Shape(2_000, lambda n: lines(add(listed("p" * 100 + "#", n, "|")))),
}

# Removed clauses, and lines without an answer

REMOVED = {
    "removals, the first one first": Shape(2_000, lambda n: lines(*each("remove c#", n), before=own_clauses(n))),
    "removals, the last one first": Shape(2_000, lambda n: lines(*each("remove c#", n)[::-1], before=own_clauses(n))),
    "removals in a scattered order": Shape(2_000, lambda n: lines(
        *(f"remove c{number * 7919 % n}" for number in range(n)), before=own_clauses(n))),
    "removal of a clause of many symbols":
        Shape(10_000, lambda n: lines("remove c", before=[add(listed("p#(a#)", n, "|"))])),
    "one clause, added and removed": Shape(2_000, lambda n: lines(*[add("p(a)"), "remove c"] * n)),
}

LINES = {
    "blank lines": Shape(50_000, lambda n: lines(*[""] * n)),
    "lines of comments": Shape(20_000, lambda n: lines(*["% comment"] * n)),
    "comments in a line": Shape(50_000, lambda n: lines(add("p") + "/* */" * n)),
    "a long comment": Shape(400_000, lambda n: lines("%" + "x" * n)),
    "a line of blanks": Shape(400_000, lambda n: lines(" " * n)),
    "a line that is too long": Shape(2 * MEBIBYTE, lambda n: lines("x" * n)),
    "lines that are wrong": Shape(10_000, lambda n: lines(*["find p"] * n)),
    "clauses that are wrong at the end": Shape(5_000, lambda n: lines(*[add("p(f(a),b") + ")"] * n)),
    "clauses of other languages": Shape(10_000, lambda n: lines(*["add fof(a,axiom,p)."] * n)),
    "names that are taken": Shape(5_000, lambda n: lines(*[add("q(a)")] * n, before=[add("p(a)")])),
    "symbols that are used otherwise": Shape(5_000, lambda n: lines(*[add("q|p", "d")] * n, before=[add("p(a)")])),
    "a symbol that is used otherwise, after many":
        Shape(10_000, lambda n: lines(add(listed("q#", n, "|") + "|p", "d"), before=[add("p(a)")])),
    "names that are unknown": Shape(10_000, lambda n: lines(*each("remove d#", n))),
    "files that are missing": Shape(5_000, lambda n: lines(*each("load 'none#'", n))),
    "a file's name of escapes": Shape(200_000, lambda n: lines("load '" + r"\'" * n + "'")),
    "stats": Shape(10_000, lambda n: lines(*["stats"] * n, before=own_clauses(100))),
}

# Texts that share a hash

def fnv(text: str, state: int = 2_166_136_261) -> int:
    """The hash by which names and symbols are found (FNV-1a, 32 bits), from a state on."""
    for byte in text.encode():
        state = (state ^ byte) * 16_777_619 & 0xFFFF_FFFF
    return state


def one_hash(n: int) -> list[str]:
    """n words that all have one hash, and one length: of 14 pairs of blocks that lead to one state, either."""
    words, state, letters = ["w"], fnv("w"), Random(1)
    for _ in range(14):
        met: dict[int, str] = {}
        while True:
            block = "".join(letters.choices(LETTERS, k=6))
            after = fnv(block, state)
            if met.get(after, block) != block:
                break
            met[after] = block
        words = [word + either for word in words for either in (met[after], block)]
        state = after
    return words[:n]


ONE_HASH = {
    "names of one hash, added": Shape(8_000, lambda n: lines(*(add("p", word) for word in one_hash(n)))),
    "names of one hash, removed": Shape(4_000, lambda n: lines(
        *(f"remove {word}" for word in one_hash(n)), before=[add("p", word) for word in one_hash(n)])),
    "symbols of one hash": Shape(4_000, lambda n: lines(
        *(add(word, f"c{number}") for number, word in enumerate(one_hash(n))))),
}

# Loaded files


def selection(n: int, names: str, depth: int = 1) -> Session:
    """A file of n clauses, included through selections of so many names, one inside the other."""
    files = {f"{number}.p": f"include('{number + 1}.p',[{listed(names, n)}])." for number in range(1, depth)}
    files[f"{depth}.p"] = "\n".join(each(clause("p#", "c#"), n))
    return file(f"include('1.p',[{listed(names, n)}]).", files)


def provers_clauses(n: int) -> str:
    text = clause("(multiply(X,esk#_1(inverse(Y)))=identity|~product(X,f(g(a,1)),Y)),inference(rw,[],[c_0_1])", "c_0_#")
    return "\n".join(each(text, n))


def filled(size: int) -> str:
    """As many clauses as nearly fill so many mebibytes."""
    text = provers_clauses(size * MEBIBYTE // 100)
    return text[:text.rindex("\n", 0, size * MEBIBYTE)]


LOADED = {
    "a file of clauses": Shape(4_000, lambda n: file(provers_clauses(n))),
    "a file of blank lines": Shape(200_000, lambda n: file("\n" * n)),
    "a file of lines of comments": Shape(20_000, lambda n: file("% comment\n" * n)),
    "a file with a comment of many lines": Shape(20_000, lambda n: file("/*" + "comment\n" * n + "*/")),
    "a file of one clause": Shape(40_000, lambda n: file(clause(listed("p#(a#)", n, "|\n")))),
    "a file whose last line is wrong": Shape(4_000, lambda n: file(provers_clauses(n) + "\nx")),
    "a file that opens a comment at the end of each line": Shape(20_000, lambda n: file("%/*\n" * n + "/*")),
    "a file whose last name is taken": Shape(4_000, lambda n: file(provers_clauses(n) + clause("p", "c_0_0"))),
    "a refused load after many clauses": Shape(4_000, lambda n: file(clause("r", "d") + clause("r", "c0"), before=own_clauses(n))),
    "a selection of all names": Shape(4_000, lambda n: selection(n, "c#")),
    "a selection of other names": Shape(4_000, lambda n: selection(n, "d#")),
    "a selection of one name, many times": Shape(8_000, lambda n: selection(n, "c1")),
    "31 selections, one inside the other": Shape(1_000, lambda n: selection(n, "c#", 31)),
    "a selection of names that differ after 100 bytes": Shape(1_000, lambda n: file(
        f"include('b.p',[{listed('a' * 100 + '#', n)}]).", {"b.p": "\n".join(each(clause("p", "a" * 100 + "#"), n))})),
    "included files": Shape(500, lambda n: file(
        listed("include('#.p').", n, "\n"), {f"{i}.p": clause("p", f"c{i}") for i in range(n)})),
    "included files, one inside the other": Shape(15, lambda n: file(
        "include('1.p').", {f"{i}.p": f"include('{i + 1}.p')." if i < n else clause("p") for i in range(1, n + 1)})),
    "a file that includes itself after many clauses": Shape(4_000, lambda n: file(provers_clauses(n) + "include('a.p').")),
    "a file of 16 and of 32 mebibytes": Shape(16, lambda n: file(filled(n)), "microseconds"),
}

# Queries


def asked(relation: str, entry: str, pattern: str) -> Session:
    return lines(f"{relation} lit h({pattern})", before=[add(f"h({entry})")])


def links(n: int, x: str, step: int) -> str:
    """Each variable beside a term with the one before, from the first on or from the last."""
    return ",".join([f"{x}{i},f({x}{i - 1})" for i in range(1, n + 1)][::step])


def asked_again(n: int, x: str) -> tuple[str, str]:
    """Variables that meet in a chain, and after them constants, which all meet one variable."""
    return "X," + listed("X#,X#", n) + ",X," + listed("a", n), listed("Y#,Y#", n + 1) + "," + listed(x, n)


def pairs(n: int, step: int = 1) -> str:
    return ",".join([f"Y{i},Y{i}" for i in range(1, n + 1)][::step])


QUERIES = {
    "variables against variables": (2_000, lambda n: (listed("X#", n), listed("Y#", n)), RELATIONS),
    "one variable against one": (2_000, lambda n: (listed("X", n), listed("Y", n)), RELATIONS),
    "variables against one": (2_000, lambda n: (listed("X", n), listed("Y#", n)), RELATIONS),
    "one variable against variables": (2_000, lambda n: (listed("X#", n), listed("Y", n)), RELATIONS),
    "variables against constants": (2_000, lambda n: (listed("a#", n), listed("Y#", n)), ("instances", "unifiable")),
    "new constants against variables":
        (2_000, lambda n: (listed("X#", n), listed("b#", n)), ("generalizations", "unifiable")),
    "new constants against one variable":
        (2_000, lambda n: (listed("X", n), listed("b#", n)), ("generalizations", "unifiable")),
    "variables in terms": (2_000, lambda n: (listed("f(X#)", n), listed("f(Y#)", n)), RELATIONS),
    "variables against terms": (2_000, lambda n: (listed("f(X#)", n), listed("Y#", n)), ("instances", "unifiable")),
    "one variable against terms": (2_000, lambda n: (listed("f(X#)", n), listed("Y", n)), ("unifiable",)),
    "terms against one variable": (2_000, lambda n: (listed("X", n), listed("f(Y#)", n)), ("unifiable",)),
    "equal variables in a chain":
        (2_000, lambda n: ("X," + listed("X#,X#", n) + ",X", listed("Y#,Y#", n + 1)), ("unifiable",)),
    "the first variable of a chain, many times": (500, lambda n: asked_again(n, "Y0"), ("unifiable",)),
    "the last variable of a chain, many times": (500, lambda n: asked_again(n, f"Y{n}"), ("unifiable",)),
    "terms in a chain": (2_000, lambda n: (links(n, "X", 1), pairs(n)), ("unifiable",)),
    "terms in a chain, from its end": (2_000, lambda n: (links(n, "X", -1), pairs(n)), ("unifiable",)),
    "nested terms": (250, lambda n: (nested("g(", "X", ")", n), nested("g(", "Y", ")", n)), RELATIONS),
}


def query_shapes() -> dict[str, Shape]:
    return {
        f"{name}: {relation}": Shape(size, lambda n, r=relation, of=parts: asked(r, *of(n)))
        for name, (size, parts, relations) in QUERIES.items() for relation in relations
    }


def every_relation(name: str, size: int, before: Callable, question: str) -> dict[str, Shape]:
    return {
        f"{name}: {relation}": Shape(size, lambda n, r=relation: lines(f"{r} {question}", before=before(n)))
        for relation in RELATIONS
    }


HITS = (
    every_relation("literals of one clause", 500, lambda n: [add(listed("p(X#,Y)", n, "|"))], "lit p(U,V)")
    | every_relation("terms of one literal", 500, lambda n: [add(f"p({listed('f(X#)', n)})")], "term f(U)")
    | every_relation("terms of a clause with many variables", 500,
                     lambda n: [add(f"p({listed('X#', n)})|q({listed('f(X#)', n)})")], "term f(U)")
    | every_relation("literals of many clauses", 500, lambda n: each(add("p(X,Y)", "c#"), n), "lit p(U,V)")
)

# Trees


ORDERS: dict[str, Callable[[int], Iterable[int]]] = {
    "the first one first": lambda n: range(n),
    "the last one first": lambda n: range(n - 1, -1, -1),
    "in a scattered order": lambda n: (number * 7919 % n for number in range(n)),
}
FROM_THE_MIDDLE = {"the middle one first": lambda n: sorted(range(n), key=lambda number: abs(2 * number - n))}


def go(clauses: Callable[[int], list[str]], name: str, size: int, most: float = 2.3, orders=ORDERS) -> dict[str, Shape]:
    """Clauses c0, c1 and so on that are there, and that are removed in some orders."""
    return {
        f"{name}, removed, {order}": Shape(size, lambda n, numbers=numbers: lines(
            *(f"remove c{number}" for number in numbers(n)), before=clauses(n)), most=most)
        for order, numbers in orders.items()
    }


def come_and_go(clauses: Callable[[int], list[str]], name: str, size: int, most: float = 2.3) -> dict[str, Shape]:
    """Clauses that are added, and that are removed in three orders."""
    return {f"{name}, added": Shape(size, lambda n: lines(*clauses(n)), most=most)} | go(clauses, name, size, most)


def wide_node(n: int) -> list[str]:
    """Clauses whose leaves have one parent."""
    return each(add("p(a#)", "c#"), n)


def variants(n: int) -> list[str]:
    """Clauses that share one leaf, each with variables of its own."""
    return each(add("p(X#)", "c#"), n)


def come_again(n: int) -> list[str]:
    """Clauses that share one leaf of each tree, and that went, the first one first, and came again. What went last is
    used again first, so their keys fall."""
    clauses = each(add("p(f(X#))", "c#"), n)
    return [*clauses, *each("remove c#", n), *clauses]


def turns(n: int) -> Session:
    """Of n clauses of one leaf the one in the middle goes and another comes, n times."""
    names, measured = each("c#", n), []
    for number in range(n):
        measured += [f"remove {names.pop(n // 2)}", add("p(f(X))", f"d{number}")]
        names.append(f"d{number}")
    return lines(*measured, before=each(add("p(f(X#))", "c#"), n))


def same_again(n: int) -> Session:
    """Of n clauses of one leaf the first one goes and comes again, n times, each time with the same key."""
    again = ["remove c0", add("p(f(X))", "c0")]
    return lines(*(again * n), before=each(add("p(f(X#))", "c#"), n))


def splits_beside_long_terms(n: int) -> Session:
    """Beside ten terms of n constants a node is split and joined, 1,000 times."""
    terms = [add(f"p{k}({listed('a#', n)})", f"l{k}") for k in range(10)]
    turn = [add("q(a)", "c0"), add("q(b)", "c1"), "remove c0", "remove c1"]
    return lines(*(turn * 1_000), before=terms)


def round_a_wide_term(n: int) -> str:
    """500 terms round one of n constants and as many variables."""
    return nested("g(", f"f({listed('a#,X#', n)})", ")", 500)


def chain_of_splits(n: int) -> list[str]:
    """Clauses of n variables, each one variable less, so that each splits the node below the root, and all nodes that
    were split are a chain."""
    return [
        add(f"p({','.join(each('X#', n - number) + ['X0'] * number)})", f"c{number}") for number in range(n)
    ]


TREES = (
    come_and_go(wide_node, "a wide node", 2_000)
    | {f"a wide node, all children asked for: {relation}": Shape(500, lambda n, r=relation: lines(
        *each(f"{r} lit p(a#)", n), before=wide_node(n))) for relation in RELATIONS}
    | every_relation("a wide node, a child that isn't there", 2_000, wide_node, "lit p(b)")
    | come_and_go(variants, "one leaf", 2_000)
    | go(come_again, "one leaf whose keys came back", 2_000, orders=ORDERS | FROM_THE_MIDDLE)
    | {"one leaf, the middle one removed and another added, in turn": Shape(2_000, turns)}
    | {"one leaf, the same one removed and added, in turn": Shape(2_000, same_again)}
    | {"a split that comes and goes beside long terms": Shape(1_000, splits_beside_long_terms)}
    | every_relation("one leaf", 500, variants, "lit p(U)")
    | come_and_go(chain_of_splits, "a chain of splits", 60, 4.6)
    | {f"a chain of splits: explain {relation}": Shape(60, lambda n, r=relation: lines(
        f"explain {r} lit p({listed('U#', n)})", before=chain_of_splits(n)), most=4.6) for relation in RELATIONS}
    | {
        "a deep chain of splits: explain, all relations": Shape(500, lambda n: lines(
            *(f"explain {relation} lit p({listed('U#', n)})" for relation in RELATIONS), before=chain_of_splits(n)),
            most=4.6),
        "splits that come and go, and 100 questions": Shape(2_000, lambda n: lines(
            *["unifiable lit p(U,U)"] * 100,
            before=[add("p(a,b)"), *[add("p(a,c)", "d"), "remove d"] * n])),
        "symbols that come and go": Shape(2_000, lambda n: lines(
            *(line for number in range(n) for line in (add(f"p(a{number},f{number}(X))"), "remove c")))),
        "symbols that come and go, all of them at once": Shape(2_000, lambda n: lines(
            *each(add("p(a#)", "c#"), n), *each("remove c#", n), *each(add("p(b#)", "d#"), n))),
        "a clause of many variables, added and removed": Shape(10_000, lambda n: lines(
            add(f"p({listed('X#', n)})"), "remove c")),
        "a clause of many variables, and 100 questions that pass it by": Shape(10_000, lambda n: lines(
            *["unifiable lit q(U)"] * 100, before=[add(f"p({listed('X#', n)})"), add("q(X)", "d")])),
        "a clause of many variables that is gone, and 100 questions": Shape(10_000, lambda n: lines(
            *["unifiable lit q(U)"] * 100, before=[add(f"p({listed('X#', n)})"), "remove c", add("q(X)", "d")])),
        "500 brackets round a wide term, added": Shape(250, lambda n: lines(add(f"p({round_a_wide_term(n)})"))),
        "500 brackets round a wide term, removed": Shape(250, lambda n: lines(
            "remove c", before=[add(f"p({round_a_wide_term(n)})")])),
        "500 brackets round a wide term, asked for": Shape(250, lambda n: lines(
            f"unifiable term {round_a_wide_term(n)}", before=[add(f"p({round_a_wide_term(n)})")])),
        "500 brackets round a wide term, each asked for": Shape(250, lambda n: lines(
            "unifiable term g(U)", before=[add(f"p({round_a_wide_term(n)})")])),
        "tree": Shape(10_000, lambda n: lines(*["tree"] * n, before=own_clauses(100))),
        "explain": Shape(5_000, lambda n: lines(*["explain unifiable lit p(U,V)"] * n, before=own_clauses(20))),
    }
)

# Subsumption


def subsuming(command: str, kept: str, formula: str) -> Session:
    return lines(f"{command} {formula}", before=[add(kept)])


def predicates(n: int, step: int = 1) -> str:
    return "|".join(each("p#(X#,f(Y))", n)[::step])


SUBSUMED = {
    f"{name}: {command}": Shape(size, lambda n, c=command, of=parts: subsuming(c, *of(n)))
    for name, size, parts in (
        ("different predicates", 500, lambda n: (predicates(n), predicates(n))),
        ("different predicates, backwards", 500, lambda n: (predicates(n), predicates(n, -1))),
        ("different predicates, of both signs", 500, lambda n: (listed("~p#|p#", n, "|"), listed("p#|~p#", n, "|"))),
        ("different predicates, the last one missing",
         500, lambda n: (predicates(n) + "|r", predicates(n) + "|s")),
    )
    for command in ("subsumers", "subsumed")
}

# What may grow with the square


def tower(shape: str, n: int) -> tuple[str, str]:
    """A clause and a pattern of the same head. In a tower each variable is f of the one before, twice. Either the clause
    has one, or the pattern has one too, step by step against it. Or both have one by two steps at once, and they meet one
    step apart, so that no variable ever meets a variable."""
    def step(x: str, i: int) -> str:
        return f"f({x}{i},{x}{i})"

    def two(x: str, i: int) -> str:
        return f"f({step(x, i)},{step(x, i)})"

    numbers = range(1, n + 1)
    if shape == "shifted":
        kept = [f"X{i},{two('X', i - 1)},W{i},W{i}" for i in numbers] + [f"X{n}"]
        pattern = [f"V{i},V{i},Z{i},{two('Z', i - 1)}" for i in numbers] + [step("Z", n)]
    else:
        kept = [f"X{i},{step('X', i - 1)}" for i in numbers]
        pattern = [f"Y{i}," + (step("Y", i - 1) if shape == "both" else f"Y{i}") for i in numbers]
    return ",".join(kept), ",".join(pattern)


TOWERS = {
    f"tower, {shape}: {relation}": Shape(64, lambda n, s=shape, r=relation: asked(r, *tower(s, n)), most=4.6)
    for shape in ("one", "both", "shifted") for relation in RELATIONS
}
LIKE_LITERALS = {
    "literals of one predicate: subsumers": Shape(100, lambda n: subsuming(
        "subsumers", listed("p(a#)", n, "|"), listed("p(a#)", n, "|")), most=4.6),
    "clauses and a formula of as many literals: subsumers": Shape(100, lambda n: lines(
        "subsumers " + listed("p#(a)", n, "|"), before=each(add("p#(X)", "c#"), n)), most=4.6),
}
SAMPLES = {"sample": Shape(60, lambda n: lines(f"sample 1 {n}"), most=4.6)}

SHAPES = ADDED | REMOVED | LINES | ONE_HASH | LOADED | query_shapes() | HITS | TREES | SUBSUMED | TOWERS | LIKE_LITERALS | SAMPLES


def main() -> None:
    if len(sys.argv) == 1:
        for name, shape in SHAPES.items():
            print(name, shape.size, shape.how, shape.most, sep="\t")
        return
    before, measured, files = SHAPES[sys.argv[1]].session(int(sys.argv[2]))
    Path("before").write_text("".join(line + "\n" for line in before))
    Path("whole").write_text("".join(line + "\n" for line in before + measured))
    for name, text in files.items():
        Path(name).write_text(text)


if __name__ == "__main__":
    main()
