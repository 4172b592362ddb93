solve
--budget
7
append.definition
append(X,Y,cons(a,nil))
