range R 1..60; var int x[R] in 0..1000; solve { 1 = 2; };
