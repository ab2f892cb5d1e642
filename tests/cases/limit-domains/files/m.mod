var int x[1..33] in 1..1048576;
solve { };