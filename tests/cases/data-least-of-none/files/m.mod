int n = min(i in 1..0) i;
solve { };