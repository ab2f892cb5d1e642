var int x[1..2,1..2] in 1..4; solve { alldifferent(x); x[1,1] < x[1,2]; x[1,2] < x[2,1]; };
