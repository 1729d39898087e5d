cnf(clause1, axiom, (~ edge(U,V) | edge(V,U))).
cnf(clause2, axiom, (~ U = home | edge(U,U))).
include('roads.p').
