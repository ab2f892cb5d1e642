var int x[1..3] in 0..2; solve { sum(i in 1..3) x[i] * (6 div (2 - i)) = 2; };
