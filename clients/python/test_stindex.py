"""Tests of the client over the program that STINDEX names."""
import os
import signal
import sys
import tempfile
import unittest
from pathlib import Path

sys.dont_write_bytecode = True
import stindex  # noqa: E402

PROGRAM = os.environ["STINDEX"]


def written(answer):
    place = [answer.clause, str(answer.literal), *([".".join(map(str, answer.path))] if answer.path else [])]
    return f"{':'.join(place)} {{{'; '.join(f'{variable} -> {term}' for variable, term in answer.bindings.items())}}}"


class Client(unittest.TestCase):
    def setUp(self):
        folder = tempfile.TemporaryDirectory()
        self.addCleanup(folder.cleanup)
        self.folder = folder.name

    def index(self, **words):
        return stindex.Index(PROGRAM, cwd=self.folder, **words)

    def refusal(self, call, *arguments):
        with self.assertRaises(stindex.Refused) as caught:
            call(*arguments)
        return caught.exception.words

    def test_adds_and_asks(self):
        with self.index() as index:
            self.assertEqual(index.add("cnf(c1,axiom,p(f(X),a))."), stindex.Counts(1, 3))
            self.assertEqual(index.add("cnf(c2,axiom,p(Y,Z)|q(Z))."), (1, 2))
            self.assertEqual(index.literals("unifiable", "p(f(b),W)"), [
                stindex.Answer("c1", 1, (), {"?W": "a", "X": "b"}),
                stindex.Answer("c2", 1, (), {"Y": "f(b)", "Z": "?W"}),
            ])
            self.assertEqual(index.terms("instances", "f(W)"), [stindex.Answer("c1", 1, (1,), {"?W": "X"})])
            self.assertEqual(index.literals("instances", "r"), [])
            self.assertEqual(index.remove("c1"), (1, 3))
            self.assertEqual(index.stats(), stindex.Stats(clauses=1, entries=2, symbols=2))
            self.assertEqual(index.sample(1, 2)[0].clauses, 2)

    def test_subsumption(self):
        with self.index() as index:
            index.add("cnf(end,axiom,p(X)|p(Y)).")
            index.add("cnf('it\\'s [1]',axiom,q(X)|r(X)).")
            self.assertEqual(index.subsumers("p(a)"), [stindex.Mapped("end", (1, 1))])
            self.assertEqual(index.subsumed("r(Y)|q(Z)"), [stindex.Mapped("'it\\'s [1]'", (2, 1))])

    def test_odd_texts(self):
        """Names, words and objects that look like parts of a reply."""
        with self.index() as index:
            index.add(r"""cnf('a:1 {X -> b; c',axiom,p('x; Y -> z',"}; it's",f('\'',"\""))).""")
            index.add("cnf(end,axiom,p(end,1,-2)).")
            first, second = index.literals("instances", "p(A,B,C)")
            self.assertEqual(first.clause, "'a:1 {X -> b; c'")
            self.assertEqual(first.bindings, {"?A": "'x; Y -> z'", "?B": '"}; it\'s"', "?C": r"""f('\'',"\"")"""})
            self.assertEqual(second, ("end", 1, (), {"?A": "end", "?B": "1", "?C": "-2"}))

    def test_answers_are_whole(self):
        """Each answer, written down again, is the line that it was read from."""
        with self.index() as index:
            index.sample(1, 100)
            index.add(r"""cnf('a: {',axiom,p(f('b; X -> c',g("\"}; ")),'d'('\'',1))).""")
            for relation in stindex.RELATIONS:
                for kind, ask, pattern in (("lit", index.literals, "p(X,Y)"), ("term", index.terms, "f(X,g(Y))")):
                    answers = ask(relation, pattern)
                    lines = index.ask(f"{relation} {kind} {pattern}")
                    self.assertEqual([written(answer) for answer in answers], lines[:-1])
                    self.assertEqual(lines[-1], f"end {len(answers)}")

    def test_refusals(self):
        with self.index() as index:
            index.add("cnf('Step 3',axiom,p('F'(X))).")
            self.assertEqual(self.refusal(index.add, "cnf('Step 3',axiom,q)."), ["taken", "'Step 3'"])
            self.assertEqual(self.refusal(index.add, "cnf(c,axiom,'F'(a,b))."),
                             ["use", "'F'", "predicate/2", "function/1"])
            self.assertEqual(self.refusal(index.add, "cnf(c,axiom,p(1.5))."), ["syntax"])
            self.assertEqual(self.refusal(index.load, "it's"), ["missing", r"'it\'s'"])
            self.assertEqual(self.refusal(index.literals, "instances", "X"), ["syntax"])
            self.assertEqual(index.stats(), (1, 2, 2))

    def test_commands_are_one_line(self):
        with self.index() as index:
            for command in ("", " % c", "/* c */", "stats\nstats"):
                self.assertRaises(ValueError, index.ask, command)
            self.assertEqual(index.ask("/**/ stats"), ["clauses 0 entries 0 symbols 0"])
            alone = "nodes 1 leaves 0 unmerged 0"
            self.assertEqual(index.ask("/**/ tree"), [f"literals {alone}", f"terms {alone}"])
            self.assertEqual(index.ask("explain variants term X"), ["passed 1 nodes 1 answers 0"])
            self.assertRaises(stindex.Refused, index.ask, "tree f")

    def test_files(self):
        Path(self.folder, "it's.p").write_text("cnf(c1,axiom,\n  p(a)).\n")
        with self.index(files=["it's.p"]) as index:
            self.assertEqual(index.stats(), (1, 2, 2))
        self.assertEqual(self.refusal(lambda: self.index(files=["it's.p", "none.p"])), ["missing", "'none.p'"])

    def test_ends(self):
        index = self.index()
        index._process.send_signal(signal.SIGKILL)
        with self.assertRaises(stindex.Ended) as caught:
            index.stats()
        self.assertEqual((caught.exception.status, str(caught.exception)), (-9, "the program ended by signal 9"))
        with self.assertRaises(stindex.Ended) as caught:
            stindex.Index(["sh", "-c", 'read line; exit 5']).stats()
        self.assertEqual(caught.exception.status, 5)
        with self.assertRaises(stindex.Ended) as caught, stindex.Index(["sh", "-c", "exit 6"]):
            pass
        self.assertEqual(caught.exception.status, 6)

    def test_closes(self):
        with self.index() as index:
            index.stats()
        self.assertEqual(index._process.returncode, 0)
        with self.assertRaises(stindex.Ended) as caught:
            index.stats()
        self.assertEqual(caught.exception.status, 0)
        with self.assertRaises(KeyError), self.index() as index:
            raise KeyError
        self.assertIsNotNone(index._process.returncode)


if __name__ == "__main__":
    unittest.main()
