verify
truth.problem
no-such-file.lkf
