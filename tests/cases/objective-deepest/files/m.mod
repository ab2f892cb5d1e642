var int x in 0..1;
maximize prod(i in 1..2048) x subject to { };
