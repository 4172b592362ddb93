check
clauses.problem
builtin:cnf
cnf.certificate
