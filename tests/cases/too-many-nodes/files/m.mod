var int x[1..10] in 0..1; solve { sum(i in 1..1000000000) x[1] = 0; };
