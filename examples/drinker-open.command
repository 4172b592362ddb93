check
drinker.problem
script.definition
drinker-open.certificate
