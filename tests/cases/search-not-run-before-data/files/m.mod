var int x in 1..2;
minimize x + 1 div 0 subject to { };
search { x = 1; };
