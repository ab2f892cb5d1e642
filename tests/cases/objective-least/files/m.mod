var int x in -3..3;
var int y in -3..3;
minimize x - y subject to { x + y = 1; x <> -2; };
