var int x[i in 1..2] in 4611686018427387905..1 div (2 - i);
solve { };