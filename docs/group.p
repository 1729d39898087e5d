% Some theorems of groups, and what a prover has derived from them.
cnf(left_identity,axiom,( times(one,X) = X )).
cnf(left_inverse,axiom,( times(inv(X),X) = one )).
cnf(associativity,axiom,( times(times(X,Y),Z) = times(X,times(Y,Z)) )).
cnf(cancel,plain,( times(inv(X),times(X,Y)) = Y )).
cnf(right_identity,plain,( times(X,one) = X )).
cnf(double_inverse,plain,( inv(inv(X)) = X )).
cnf(right_inverse,plain,( times(X,inv(X)) = one )).
cnf(goal,negated_conjecture,( times(a,times(b,inv(times(a,b)))) != one )).
