var int x[i in 1..2] in 0..1048576 div (2 - i);
solve { };