var int x in 0..4;
maximize 1 + x * 85070591730234615865843651857942052864 subject to { };
