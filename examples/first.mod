// The smallest model with something to find: a number of 1..2 that is not 1.
var int x in 1..2;
solve { x <> 1; };
