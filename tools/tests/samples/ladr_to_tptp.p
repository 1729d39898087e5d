cnf(sos, axiom, '+'(A,B) = '+'(B,A)).
cnf(sos_2, axiom, '\''('\''(A)) = A).
cnf(sos_3, axiom, '+'(A,'\''(A)) != A | edge(A)).
