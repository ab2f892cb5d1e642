var int x[1..2] in 0..2;
minimize sum(i in {}) (i = x) subject to { };
