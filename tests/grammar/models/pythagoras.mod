int limit = 20;
var int a in 1..limit;
var int b in 1..limit;
var int c in 1..limit;
solve { a * a + b * b = c * c; a < b; b < c };
