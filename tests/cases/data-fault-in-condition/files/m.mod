var int x in 0..9;
solve { x = 1 \/ 1 div 0 = 2; };