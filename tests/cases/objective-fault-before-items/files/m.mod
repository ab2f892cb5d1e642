var int x in 0..1;
minimize x + 1 div 0 subject to { 2 mod 0 = x; };
