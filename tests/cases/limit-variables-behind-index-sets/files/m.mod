var int x[1..65537, 1..1 div 0] in 0..1;
solve { };