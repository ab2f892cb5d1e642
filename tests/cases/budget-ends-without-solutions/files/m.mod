range R 1..4; var int x[R] in 1..3; solve { forall(ordered i,j in R) x[i] <> x[j]; };
