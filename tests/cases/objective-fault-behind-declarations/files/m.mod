var int x in 0..2000000;
minimize 1 div 0 subject to { };
