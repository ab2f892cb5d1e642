var int x in 0..1;
minimize x subject to { x = 1; 2 mod 0 = x; };
