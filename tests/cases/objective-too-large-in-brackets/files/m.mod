var int x in 0..1;
minimize ((x * 85070591730234615865843651857942052864)) subject to { };
