var int x in 1..3;
var int y in 1..3;
solve { x < y; };
