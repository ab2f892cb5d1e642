var int x in 0..2;
minimize 6 div (x - x) subject to { };
