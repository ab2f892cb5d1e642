/* What does a hiker pack? At most twelve kilograms go on the back, and what is packed is to be worth as much as can be. */
enum Thing {Tent, Stove, Rope, Camera, Books, Water};
int weight[Thing] = [5, 3, 2, 1, 4, 3];   // in kilograms
int worth[Thing] = [9, 6, 3, 4, 2, 8];
var int packed[Thing] in 0..1;            // 1 where the thing is packed
maximize sum(t in Thing) worth[t] * packed[t]
subject to {
  sum(t in Thing) weight[t] * packed[t] <= 12;
};
