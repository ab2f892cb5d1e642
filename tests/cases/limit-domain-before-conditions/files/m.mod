var int x in 1..1048577;
solve { 1 div 0 = 1; };