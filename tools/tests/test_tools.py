"""Tests of the tools over the program that STINDEX names."""
import os
import subprocess
import sys
import tempfile
import unittest
from pathlib import Path

HERE = Path(__file__).resolve().parent
TOOLS = HERE / ".."
SAMPLES = HERE / "samples"
PROGRAM = os.environ["STINDEX"]


class Tools(unittest.TestCase):
    maxDiff = None

    def setUp(self):
        folder = tempfile.TemporaryDirectory()
        self.addCleanup(folder.cleanup)
        self.folder = Path(folder.name)

    def write(self, **files):
        for name, text in files.items():
            (self.folder / f"{name}.p").write_text(text, encoding="latin-1")

    def run_words(self, words, given="", path=None):
        """The status and what is written to both outputs."""
        run = subprocess.run(words, input=given.encode("latin-1"), capture_output=True, cwd=self.folder,
                             env=os.environ | ({"PATH": path} if path else {}))
        return run.returncode, run.stdout.decode("latin-1"), run.stderr.decode("latin-1")

    def tool(self, name, *words, given="", path=None):
        return self.run_words([TOOLS / name, *words], given, path)

    def program(self, *words, given=""):
        return self.run_words([PROGRAM, *words], given)[1]

    def assert_usage(self, name, *calls):
        status, reported, _ = self.tool(name, "--help")
        self.assertEqual(status, 0)
        self.assertIn(f"usage: {name} ", reported)
        for words in calls:
            status, reported, said = self.tool(name, *words)
            self.assertEqual((status, reported), (2, ""))
            self.assertTrue(said)


class FromProver(Tools):
    def assert_made(self, sample, load, said, *words):
        status, made, reported = self.tool("from-prover", *words, SAMPLES / f"{sample}.out")
        self.assertEqual((status, made), (0, (SAMPLES / f"{sample}.p").read_text()))
        self.assertEqual(reported, "".join(f"from-prover: {line}\n" for line in said))
        self.write(made=made, roads="cnf(r1,axiom,edge(home,a)).\n")
        self.assertEqual(self.program("made.p"), load)

    def test_styles(self):
        self.assert_made("eprover", "ok 3 8\n", [
            "written: clauses: 3",
            "left out: lines with #: 11; formulas of fof: 2",
        ])
        self.assert_made("vampire", "ok 2 6\n", [
            "written: clauses: 2",
            "left out: formulas of fof: 1; formulas of tff: 1; other lines: 1; items cut off: 1",
        ])
        self.assert_made("dfg2tptp", "ok 3 8\n", [
            "written: clauses: 2; includes: 1",
            "left out: formulas of fof: 1; clauses without a literal: 1",
        ])
        self.assert_made("ladr_to_tptp", "ok 3 10\n", [
            "written: clauses: 3",
            "left out: formulas of fof: 1; clauses that stood before, name and formula: 1",
            "changed: clauses renamed, whose names stood before: 2",
        ])

    def made(self, given, *words):
        status, made, _ = self.tool("from-prover", *words, given=given)
        self.assertEqual(status, 0)
        return made

    def test_prefixes(self):
        given = "cnf(c1,a,p). cnf('Step 3',a,q).\ncnf(4,a,r). cnf('4',a,s). cnf(-4,a,t). cnf('it\\'s',a,u)."
        first = self.made(given, "--prefix", "e1_")
        self.assertEqual([line.split(",")[0] for line in first.splitlines()],
                         ["cnf(e1_c1", "cnf('e1_Step 3'", "cnf(e1_4", "cnf(e1_4_2", "cnf('e1_-4'", "cnf('e1_it\\'s'"])
        self.write(first=first, second=self.made(given, "--prefix", "e2_"), plain=self.made(given))
        self.assertEqual(self.program("first.p", "second.p", "plain.p"), "ok 6 6\n" * 3)

    def test_new_names_are_free(self):
        made = self.made("cnf(a,x,p). cnf(a,x,q). cnf(a_2,x,r). cnf(1,x,s). cnf(1,x,t). cnf('A',x,u). cnf('A',x,v).")
        self.assertEqual([line.split(",")[0][4:] for line in made.splitlines()],
                         ["a", "a_3", "a_2", "1", "'1_2'", "'A'", "'A_2'"])

    def test_numbers(self):
        given = "cnf(a,x,p(X1,1)).\ncnf(b,x,p(X,1.5)).\ncnf(c,x,p(-1/2,X)).\ncnf(d,x,\n p(1E3,X)).\n" \
                "cnf(e,x,p('1.5',\"2/3\")|q(c_1,3),file('1.5',2.5)).\n"
        made = "cnf(a, x, p(X1,1)).\ncnf(e, x, p('1.5',\"2/3\")|q(c_1,3), file('1.5',2.5)).\n"
        self.assertEqual(self.tool("from-prover", "--skip-numbers", given=given), (0, made,
                         "from-prover: written: clauses: 2\n"
                         "from-prover: left out: clauses with rational or real numbers: 3\n"))
        self.write(made=made)
        self.assertEqual(self.program("made.p"), "ok 2 8\n")
        status, made, reported = self.tool("from-prover", given=given)
        self.assertEqual((status, made), (1, ""))
        self.assertEqual([line.split(" a ")[0] for line in reported.splitlines()[:3]],
                         [f"from-prover: -:{place}:" for place in ("2:14", "3:13", "5:5")])

    def test_odd_items(self):
        self.assertEqual(self.made("cnf(a,axiom-local,\n# no\n  p). /* c */ cnf(b,x,q,file('\u00e9',x))."),
                         "cnf(a, axiom, p).\ncnf(b, x, q).\n")
        self.assertEqual(self.made(""), "")
        self.assertEqual(self.made("fof(a,axiom,\n %% (\n p & 'f)' = 1.5). % (\nnothing\ncnf(a,x,p)."), "cnf(a, x, p).\n")
        given = "cnf(a,x,p).\ncnf(b,x,\n (p)|q).\ncnf(c,x,p q).\ncnf(d,x,r)."
        status, made, reported = self.tool("from-prover", given=given)
        self.assertEqual((status, made), (1, ""))
        self.assertEqual(reported.splitlines()[:2], [
            "from-prover: -:3:5: the clause that begins on line 2 isn't read from | on",
            "from-prover: -:4:11: the clause that begins on line 4 isn't read from q on"])

    def test_usage(self):
        self.assert_usage("from-prover", ["--prefix"], ["--prefix", "X"], ["-x"], ["a", "b"], ["none.p"])


class Where(Tools):
    def assert_found(self, files, *lines):
        status, reported, _ = self.tool("where", *files)
        self.assertEqual((reported, status), ("".join(line + "\n" for line in lines), 1))
        self.assertEqual(reported.splitlines()[len(files) - 1], f"{files[-1]}: " + self.program(*files).splitlines()[-1])

    def test_use(self):
        self.write(a="cnf(a1,axiom,p(f(X),a)).\n", c="cnf(c1,axiom,s('B')|'B').\n",
                   b="include('a.p').\n/* c\n*/ cnf(b1,axiom,q(a)). cnf(b2,axiom,\n q(b) |\n  r(f(X,Y))).\n")
        self.assert_found(["b.p"], "b.p: ! use f function/2 function/1",
                          "b.p:5:5: f is function/2 here, in clause b2, item 3 of the file",
                          "a.p:1:16: f is function/1 here, in clause a1, item 1 of the file",
                          "b.p:1:1: included from here")
        self.assert_found(["a.p", "c.p"], "a.p: ok 1 3", "c.p: ! use 'B' predicate/0 function/0",
                          "c.p:1:21: 'B' is predicate/0 here, in clause c1, item 1 of the file",
                          "c.p:1:16: 'B' is function/0 here, in clause c1, item 1 of the file")

    def test_taken(self):
        self.write(a="cnf(a1,axiom,p).\ncnf('a2',axiom,q).\n", b="include('a.p',[a2]).\ninclude('a.p').\n")
        self.assert_found(["b.p"], "b.p: ! taken a2",
                          "a.p:2:1: clause a2, item 2 of the file", "b.p:2:1: included from here",
                          "a.p:2:1: clause a2, item 2 of the file, has its name", "b.p:1:1: included from here")

    def test_syntax(self):
        self.write(a="include('b.p').\n", b="cnf(a,axiom,p).\ncnf(b,axiom,\n    q)\ncnf(c,axiom,r).\n",
                   n="cnf(a,axiom,p(X,1.5)).\n", f="cnf(a,axiom,p).\n\n fof(b,axiom,p).\n",
                   o="cnf(a,axiom,p).\n\n /* x", q="cnf(a,axiom,\n  p('\u00e9')).\n", h="# x\n",
                   e="cnf(a,axiom,\n  p)", r="cnf(a,axiom-local,p).\n")
        self.assert_found(["a.p"], "a.p: ! syntax 'b.p' 2", "b.p:4:1: no item goes on with cnf",
                          "b.p:2:1: item 2 of the file begins here", "a.p:1:1: included from here")
        self.assert_found(["n.p"], "n.p: ! syntax 'n.p' 1",
                          "n.p:1:18: no item goes on with ., and rational and real numbers aren't read",
                          "n.p:1:1: item 1 of the file begins here")
        self.assert_found(["f.p"], "f.p: ! language 'f.p' 3", "f.p:3:2: a formula of fof, which isn't CNF")
        self.assert_found(["o.p"], "o.p: ! syntax 'o.p' 3", "o.p:3:2: a comment that isn't closed")
        self.assert_found(["q.p"], "q.p: ! syntax 'q.p' 1",
                          "q.p:2:5: no item goes on with a quoted text that breaks off in column 6",
                          "q.p:1:1: item 1 of the file begins here")
        self.assert_found(["h.p"], "h.p: ! syntax 'h.p' 1", "h.p:1:1: no item goes on with #")
        self.assert_found(["e.p"], "e.p: ! syntax 'e.p' 1", "e.p:2:5: the file ends within an item",
                          "e.p:1:1: item 1 of the file begins here")
        self.assert_found(["r.p"], "r.p: ! syntax 'r.p' 1", "r.p:1:12: no item goes on with -",
                          "r.p:1:1: item 1 of the file begins here")

    def test_brackets(self):
        deep = "f(" * 511 + "a" + ")" * 511
        self.write(a=f"cnf(a,axiom,{deep} = X).", b=f"cnf(a,axiom,p({deep})).")
        self.assertEqual(self.tool("where", "a.p")[0], 0)
        self.assert_found(["b.p"], "b.p: ! syntax 'b.p' 1", "b.p:1:1036: no item goes on with (",
                          "b.p:1:1: item 1 of the file begins here")

    def test_includes(self):
        self.write(a="cnf(a,x,p).\ninclude('b.p').\n", b=" include('none.p').\n", c="include('c.p').\n",
                   d="include('.',[a]).\n", m="include('n.p').\n" * 1024, n="")
        self.assert_found(["a.p"], "a.p: ! missing 'none.p'", "b.p:1:2: this include asks for the file",
                          "a.p:2:1: included from here")
        self.assert_found(["c.p"], "c.p: ! cycle 'c.p'", "c.p:1:1: this include asks for the file")
        self.assert_found(["d.p"], "d.p: ! fault '.'", "d.p:1:1: this include asks for the file")
        self.assert_found(["m.p"], "m.p: ! fetches", "m.p:1024:1: this include asks for the file")
        self.assert_found(["none.p"], "none.p: ! missing 'none.p'")
        for number in range(1, 33):
            self.write(**{f"f{number}": f"include('f{number + 1}.p')."})
        status, reported, _ = self.tool("where", "f1.p")
        self.assertEqual((status, reported.splitlines()[:2]),
                         (1, ["f1.p: ! depth 'f33.p'", "f32.p:1:1: this include asks for the file"]))

    def test_long_clauses(self):
        self.write(a="cnf(a,axiom,p('" + "b c" * 400_000 + "')).\ncnf(a,axiom,q).\n")
        self.assert_found(["a.p"], "a.p: ! taken a", "a.p:2:1: clause a, item 2 of the file",
                          "a.p:1:1: clause a, item 1 of the file, has its name")

    def test_names_of_files(self):
        self.assertEqual(self.tool("where", "a\tb")[:2], (
            1, "a\tb: ! syntax\nno file can have this name: it needs a byte, and none below 32 or above 126\n"))

    def test_what_loads(self):
        self.write(a="cnf(a1,axiom,p).\n% c\n")
        self.assertEqual(self.tool("where", "a.p"), (0, "a.p: ok 1 1\n", ""))
        self.assert_usage("where", [], ["-x"])


class Parts(Tools):
    QUESTIONS = "instances lit p(X,Y)\n\n% c\nunifiable term f(X)\ninstances lit X\nsubsumers p(a,b)|q(c)\n" \
                "subsumed p(X,Y)\nvariants term zz\n"

    def setUp(self):
        super().setUp()
        clauses = [f"cnf(c{n},axiom,\n p(f(X{n}),{'abc'[n % 3]}) | q(Y)).\n" for n in range(57)]
        self.write(all="include('one.p').\ncnf(end,axiom,p(Z,Z)).\n", one="".join(clauses))
        self.due = self.program("all.p", given=self.QUESTIONS)

    def test_same_as_one_process(self):
        for words in ((), ("--parts", "1"), ("--parts", "7"), ("--parts", "100")):
            self.assertEqual(self.tool("parts", *words, "all.p", given=self.QUESTIONS), (0, self.due, ""))

    def test_without_parallel(self):
        (self.folder / "bin").mkdir()
        (self.folder / "bin/python3").symlink_to(sys.executable)
        self.assertEqual(self.tool("parts", "all.p", given=self.QUESTIONS, path=str(self.folder / "bin")),
                         (0, self.due, ""))

    def test_clashes(self):
        self.write(a="cnf(a,x,p).\ncnf(b,x,q).\ncnf(a,x,r).\n", b="cnf(a,x,p).\ncnf(b,x,q(p)).\n")
        self.assertEqual(self.tool("parts", "a.p")[::2], (
            1, "parts: ! taken a\na.p:3:1: clause a, item 3 of the file\n"))
        self.assertEqual(self.tool("parts", "b.p")[::2], (
            1, "parts: ! use p function/0 predicate/0\nb.p:2:1: clause b, item 2 of the file\n"))

    def test_usage(self):
        self.assert_usage("parts", [], ["a", "b"], ["--parts", "0", "a"], ["-x"])
        self.assertEqual(self.tool("parts", "all.p", given="instances lit p\nstats\n")[::2], (
            2, "parts: line 2 of the input is no question; over parts only questions have a reply\n"))


if __name__ == "__main__":
    unittest.main()
