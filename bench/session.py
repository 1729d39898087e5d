"""One session that has each command, each relation and each refusal but `! full`, `! big`, `! depth` and `! fetches`,
loads files with includes, by a word of the call too, and splits and joins nodes of the trees."""
import re
from pathlib import Path

FILES = {
    "call.p": "include('unit.p').\n",
    "unit.p": "cnf(u1,axiom,t(U,u)).\n",
    "main.p": "% a problem\ninclude('list.p',[l2,l3]).\ncnf(m1,axiom,\n    (g(X) = X | r(g(Y),X))).\ncnf(m2,axiom,s).\n",
    "list.p": "cnf(l1,axiom,t(u,u)).\ncnf(l2,axiom,r(X,'v w')).\n",
    "loop.p": "cnf(k1,axiom,t(v,v)).\ninclude('loop.p').\n",
    "wrong.p": "cnf(k1,axiom,t(v,v)).\n\ncnf(k2,axiom,t(v).\n",
    "other.p": "cnf(k1,axiom,t(v,v)).\nfof(k2,axiom,t).\n",
    "taken.p": "cnf(k1,axiom,t(new,v)).\ncnf(c1,axiom,t(v,v)).\n",
    "use.p": "cnf(k1,axiom,new(g(v))).\ncnf(k2,axiom,p).\n",
    "lost.p": "cnf(k1,axiom,t(new,v)).\ninclude('none.p').\n",
}

SESSION = r"""
add cnf(c1,axiom,p(f(X),a)|~q(X)).
add cnf('Step 3',plain,(X=f("it's")|f(Y)!=+1|p(Y,Z)),inference(r,[status(thm)],[c1])).
add cnf(c1,axiom,p(a,b)).
add cnf(c2,axiom,p(new)).
add cnf(c2,axiom,p(a,b).
add fof(c2,axiom,p(a,b)).

% a comment
tree
explain variants term f(X)
load 'main.p'
load 'list.p'
load 'none.p'
load 'loop.p'
load 'wrong.p'
load 'other.p'
load 'taken.p'
load 'use.p'
load 'lost.p'
load '.'
instances lit p(U,V)
instances term f(U)
generalizations lit p(f(b),a)
generalizations term f("it's")
variants lit p(U,V)
variants term f(U)
unifiable lit p(U,V)
unifiable lit p(f(U),U)
unifiable term f(U)
unifiable lit U=V
explain instances lit p(U,V)
explain generalizations lit p(f(b),a)
explain unifiable term f(U)
explain instances lit p(c)|q
subsumers p(f(b),a)|~q(b)|p(b,b)
subsumers (r(a,'v w'))
subsumed ~q(U)
subsumed p(U,V)|p(W,V)
add cnf(w1,axiom,w(f(a),b)).
add cnf(w2,axiom,w(f(c),b)).
add cnf(w3,axiom,w(f(c),d)|w(f(X),X)).
add cnf(w4,axiom,w(g(a),Y)|w(f(a),b)).
tree
unifiable lit w(U,V)
remove w2
explain unifiable lit w(U,b)
remove w1
tree
instances lit w(f(U),V)
add cnf(w2,axiom,w(f(c),b)).
remove w4
remove w3
explain instances term U
generalizations lit w(f(c),b)
tree
remove w2
remove c1
tree
remove 'Step 3'
remove c9
sample 1 3
sample 1 3
unifiable lit t(U,W)
stats
"""


def long() -> bytes:
    """A session without loads whose output is many times what a pipe of one page holds."""
    added = "".join(f"add cnf(k{n},axiom,p(f(a{n % 7},X),g(Y,b{n}))|~q(X)).\n" for n in range(60))
    asked = "unifiable lit p(U,g(V,W))\nunifiable term f(U,V)\nsubsumed p(U,V)\nx\n"
    return (added + asked * 8 + "stats\n").encode()


def written(folder: str) -> tuple[list[str], bytes]:
    """Writes the files into this folder: the words of the call and the session, which name them there."""
    def there(text: str) -> str:
        return re.sub(r"(?<=')(?=\w+\.p'|\.')", f"{folder}/", text)

    for name, text in FILES.items():
        Path(folder, name).write_text(there(text))
    return [f"{folder}/call.p"], there(SESSION).encode()


def script(folder: str) -> tuple[list[str], bytes]:
    """A problem that includes axioms, a query, a removal and two questions on subsumption."""
    axioms = Path(folder, "groups.ax")
    axioms.write_text(
        "cnf(left_identity,axiom,( multiply(identity,X) = X )).\n"
        "cnf(left_inverse,axiom,( multiply(inverse(X),X) = identity )).\n"
        "cnf(associativity,axiom,\n    ( multiply(multiply(X,Y),Z) = multiply(X,multiply(Y,Z)) )).\n"
        "cnf(right_inverse,axiom,( multiply(X,inverse(X)) = identity )).\n"
    )
    problem = Path(folder, "problem.p")
    problem.write_text(
        "% a group problem\n"
        f"include('{axioms}',[left_inverse,associativity]).\n"
        "cnf(goal,negated_conjecture,( multiply(a,inverse(a)) != identity )).\n"
    )
    lines = [
        f"load '{problem}'",
        "unifiable term multiply(X,inverse(X))",
        "remove goal",
        "stats",
        "subsumers X=Y",
        "subsumed X=Y",
    ]
    return [], ("\n".join(lines) + "\n").encode()
