var int x in -3..3;
var int y in -3..3;
minimize y subject to { x + y = 1; };
