var int x[1..32] in 1..1048576;
range None 1..0;
var None y;
var int z in 5..5;
solve { };