var int x[1..256, 1..256] in 0..0;
var int y in 0..1 div 0;
solve { };