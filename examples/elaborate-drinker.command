elaborate
drinker.problem
script.definition
drinker-open.certificate
