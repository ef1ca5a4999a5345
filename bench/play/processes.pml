proctype P(byte n) { if :: n > 0 -> run P(n - 1) :: else fi }
init { do :: run P(199); (_nr_pr == 1) od }
