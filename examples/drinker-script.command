check
drinker.problem
script.definition
drinker-script.certificate
