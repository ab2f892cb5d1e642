int n = ...;
var int x in 0..6 div n;
solve { };