cnf(c_0_4, plain, (edge(X2,X1)|~edge(X1,X2)), inference(split_conjunct,[status(thm)],[symmetric])).
cnf(c_0_5, negated_conjecture, (path(esk1_1(X1),'home town')|X1!="thing one"), inference(spm,[status(thm)],[inference(rw,[status(thm)],[c_0_3, c_0_4]), c_0_4]), ['final']).
cnf(c_0_6, negated_conjecture, ($false), inference(cn,[status(thm)],[c_0_5]), ['proof']).
