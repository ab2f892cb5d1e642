var int x in 1..2;
var int x in 1..2;
solve { x + 1 = 2; };
search { x = 1; };
