int n = ...;
var int x in 0..1;
minimize 1 div 0 subject to { };
