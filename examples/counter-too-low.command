check
drinker.problem
counter.definition
counter.certificate
