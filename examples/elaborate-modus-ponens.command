elaborate
modus-ponens.problem
counter.definition
counter.certificate
