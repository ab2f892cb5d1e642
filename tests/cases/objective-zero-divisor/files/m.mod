var int x in 0..1;
maximize x + 1 div 0 subject to { };
