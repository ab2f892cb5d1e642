range R 1..3; var int x[R] in 1..2; solve { alldifferent(x); };
