enum Thing {tent,stove,rope,lamp};
int kilo[Thing] = #[tent:5, stove:2, rope:3, lamp:1]#;
int worth[Thing] = #[tent:9, stove:4, rope:4, lamp:3]#;
var int packed[Thing] in 0..1;
maximize sum(t in Thing : kilo[t] > 0) worth[t] * packed[t] - card({t | t in Thing : kilo[t] > 4})
subject to { sum(t in Thing) kilo[t] * packed[t] <= 7 };
