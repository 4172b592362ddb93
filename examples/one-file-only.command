verify
truth.problem
