var int x[1..2] in 0..1;
minimize x[3] subject to { };
