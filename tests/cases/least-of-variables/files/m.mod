var int x[1..3] in 0..2; solve { min(i in 1..3) x[i] = 1; max(i in 1..3) x[i] * 2 = 2; };
