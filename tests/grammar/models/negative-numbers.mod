range Sign -1..1;
int offset = - - 3 * -2;
var int t in -10..-(-10);
solve { - t <= offset + 7; t * - 1 >= -5 - - t; t = -sum(i in Sign) i * - max(j in 1..2) j; };
