elaborate
lemma.problem
script.definition
lemma-script.certificate
