var int x[1..65537] in 0..1;
solve { };