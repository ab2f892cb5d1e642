enum Coin {one,two,five,ten};
int worth[Coin] = [1,2,5,10];
var int n[Coin] in 0..99;
minimize sum(c in Coin) n[c] subject to { sum(c in Coin) worth[c] * n[c] = 68; };
