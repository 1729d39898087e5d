cnf(u12, axiom, edge(X1,X0) | ~edge(X0,X1)).
cnf(u14, negated_conjecture, ~path(sK0,X0) | sK0 != X0).
