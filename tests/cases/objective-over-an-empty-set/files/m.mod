var int x in 2..1;
maximize 3 subject to { };
