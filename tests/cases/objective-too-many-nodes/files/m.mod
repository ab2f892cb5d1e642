var int x in 0..1;
maximize sum(i in 1..1000000000) x subject to { };
