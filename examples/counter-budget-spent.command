check
--budget
180
modus-ponens.problem
counter.definition
counter.certificate
