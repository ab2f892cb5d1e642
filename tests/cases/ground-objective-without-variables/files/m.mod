var int x in 1..2;
minimize 1 + 2 subject to { };
