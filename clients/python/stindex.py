"""A client for stindex, over the standard library alone.

    with Index("stindex", files=["axioms.p"]) as index:
        index.add("cnf(c1,axiom,p(f(X),a)).")
        for answer in index.literals("instances", "p(Y,Z)"):
            print(answer.clause, answer.bindings["?Y"])

Each call sends one command and reads its whole reply. A refusal is raised as `Refused`, and changes nothing in the
program. When the program ends by itself, by a signal or with a status, that is raised as `Ended`. Clauses, patterns,
terms and names are texts as docs/COMMANDS.md has them.
"""
from __future__ import annotations

import re
import subprocess
from collections.abc import Sequence
from types import TracebackType
from typing import NamedTuple

RELATIONS = ("instances", "generalizations", "variants", "unifiable")
QUESTIONS = (*RELATIONS, "subsumers", "subsumed")  # whose replies end with a line `end N`
BLANKS = r"(?:[\t\f\r ]+|%.*|/\*.*?\*/)*"
QUOTES = r"""'(?:[^'\\]|\\.)*'|"(?:[^"\\]|\\.)*\""""
END = re.compile(r"end (\d+)")
HIT = re.compile(rf"({QUOTES}|[^:'\"]+):(\d+)(?::([\d.]+))? \{{(.*)\}}")
BINDING = re.compile(rf"(\??\w+) -> ((?:{QUOTES}|[^;'\"])+)")
MAPPED = re.compile(rf"({QUOTES}|[^ '\"]+) \[([\d,]+)\]")
COUNTS = re.compile(r"(?:ok|sample) (\d+) (\d+)(?: (\d+))?")
STATS = re.compile(r"clauses (\d+) entries (\d+) symbols (\d+)")


class Refused(Exception):
    """The program refused a command: `words` are those of its reply, as ["use", "f", "function/2", "function/1"]."""

    def __init__(self, line: str):
        super().__init__(line)
        self.line = line
        self.words = re.findall(rf"{QUOTES}|[^ ]+", line.removeprefix("! "))


class Ended(Exception):
    """The program ended before a whole reply was there, or ended with a status that isn't 0 when it was closed.

    `status` is that of the process: 3 where its input failed, 4 where its output did, 5 where there was no memory to
    begin with, 6 at the end of what a session may read; below 0 the number of the signal, with a minus before it.
    """

    def __init__(self, status: int):
        how = f"by signal {-status}" if status < 0 else f"with status {status}"
        super().__init__(f"the program ended {how}")
        self.status = status


def is_whole(word: str, lines: list[str]) -> bool:
    """Whether the lines are all of a reply to a command with this word, where it isn't refused."""
    if word in QUESTIONS:
        return bool(lines) and END.fullmatch(lines[-1]) is not None
    return len(lines) == (2 if word == "tree" else 1)


class Counts(NamedTuple):
    """What a command gained, or what `remove` took away."""
    clauses: int
    entries: int


class Stats(NamedTuple):
    clauses: int
    entries: int
    symbols: int


class Answer(NamedTuple):
    """An entry that stands in the relation to the pattern."""
    clause: str
    literal: int
    path: tuple[int, ...]  # the numbers of arguments that lead to a subterm; none of a literal
    bindings: dict[str, str]  # in order; a variable of the pattern begins with ?


class Mapped(NamedTuple):
    """A clause that subsumes or is subsumed, and the number that each literal of the one goes to in the other."""
    clause: str
    map: tuple[int, ...]


class Index:
    """A running program, with the clauses that it keeps."""

    def __init__(self, program: str | Sequence[str] = "stindex", files: Sequence[str] = (), cwd: str | None = None):
        """Starts the program and loads the files. `program` may be words, as ["timeout", "60", "stindex"]."""
        words = [program] if isinstance(program, str) else list(program)
        self._process = subprocess.Popen(words, stdin=subprocess.PIPE, stdout=subprocess.PIPE, cwd=cwd)
        try:
            for file in files:
                self.load(file)
        except BaseException:
            self._process.kill()
            self._wait()
            raise

    def __enter__(self) -> Index:
        return self

    def __exit__(self, kind: type[BaseException] | None, error: BaseException | None,
                 trace: TracebackType | None) -> None:
        if kind is None:
            return self.close()
        self._process.kill()
        self._wait()

    def close(self) -> None:
        """Ends the input and waits for the program; `Ended` where its status isn't 0."""
        if status := self._wait():
            raise Ended(status)

    def add(self, clause: str) -> Counts:
        """Adds one clause: its whole `cnf(..).` on one line."""
        return self._counts("add " + clause)

    def load(self, file: str) -> Counts:
        """Adds the clauses of a file and its includes, all or none. Its path is taken from where the program runs."""
        quoted = re.sub(r"(['\\])", r"\\\1", file)
        return self._counts(f"load '{quoted}'")

    def remove(self, name: str) -> Counts:
        return self._counts("remove " + name)

    def sample(self, start: int, count: int) -> tuple[Counts, int]:
        """Adds drawn clauses; also the number of answers that their entries have in all."""
        clauses, entries, answers = self._match(COUNTS, f"sample {start} {count}").groups()
        return Counts(int(clauses), int(entries)), int(answers)

    def stats(self) -> Stats:
        return Stats(*map(int, self._match(STATS, "stats").groups()))

    def literals(self, relation: str, pattern: str) -> list[Answer]:
        """The literals that stand in a relation, one of RELATIONS, to a literal."""
        return self._answers(f"{relation} lit {pattern}")

    def terms(self, relation: str, pattern: str) -> list[Answer]:
        """The subterms that stand in a relation, one of RELATIONS, to a term."""
        return self._answers(f"{relation} term {pattern}")

    def subsumers(self, formula: str) -> list[Mapped]:
        return self._mapped("subsumers " + formula)

    def subsumed(self, formula: str) -> list[Mapped]:
        return self._mapped("subsumed " + formula)

    def ask(self, command: str) -> list[str]:
        """Sends any command; the lines of its reply. `Refused` where the last of them is a refusal."""
        if "\n" in command or re.fullmatch(BLANKS, command):
            raise ValueError("a command is one line that isn't blank")
        try:
            self._process.stdin.write(command.encode() + b"\n")
            self._process.stdin.flush()
        except (BrokenPipeError, ValueError):
            raise Ended(self._wait()) from None
        word = re.match(rf"{BLANKS}(\w*)", command)[1]
        lines: list[str] = []
        while not is_whole(word, lines):
            line = self._process.stdout.readline().decode()
            if not line.endswith("\n"):
                raise Ended(self._wait())
            if line.startswith("!"):
                raise Refused(line[:-1])
            lines.append(line[:-1])
        return lines

    def _wait(self) -> int:
        """Ends the input; the status of the program."""
        try:
            self._process.communicate()
        except ValueError:  # that was done before
            pass
        return self._process.wait()

    def _match(self, form: re.Pattern[str], command: str) -> re.Match[str]:
        return form.fullmatch(self.ask(command)[0])

    def _counts(self, command: str) -> Counts:
        clauses, entries = self._match(COUNTS, command).groups()[:2]
        return Counts(int(clauses), int(entries))

    def _answers(self, command: str) -> list[Answer]:
        *lines, _ = self.ask(command)
        hits = (HIT.fullmatch(line).groups() for line in lines)
        return [Answer(clause, int(literal), tuple(map(int, path.split("."))) if path else (),
                       dict(BINDING.findall(bindings)))
                for clause, literal, path, bindings in hits]

    def _mapped(self, command: str) -> list[Mapped]:
        *lines, _ = self.ask(command)
        found = (MAPPED.fullmatch(line).groups() for line in lines)
        return [Mapped(clause, tuple(map(int, numbers.split(",")))) for clause, numbers in found]
