var int x in 0..1;
maximize 6 div x subject to { };
