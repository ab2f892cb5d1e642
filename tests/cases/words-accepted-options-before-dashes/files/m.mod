var int x in 1..2;
maximize x subject to { };
