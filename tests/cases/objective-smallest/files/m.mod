var int x in 0..1;
minimize -85070591730234615865843651857942052863 * x subject to { };
