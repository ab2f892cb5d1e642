var int x[1..32] in 1..1048576;
var int z in 1..1048577;
solve { };