int n = 1000000000000000000000000000000;
var int x[1..n, 1..n] in 0..1 div 0;
solve { };