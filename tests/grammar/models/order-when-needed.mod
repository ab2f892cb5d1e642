range R 1..3; var int x[R] in 1..2; solve { x[1] <> x[3]; }; search { forall(i in R ordered by increasing dsize(x[i])) tryall(v in 1..2) x[i] = v; };
