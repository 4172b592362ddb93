check
two-atoms.problem
builtin:cnf
cnf.certificate
