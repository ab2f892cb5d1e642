// Which of twenty things to take: the most worth that two limits allow.
range Thing 1..20;
int worth[Thing] = [23,31,29,44,53,38,63,85,89,82,47,51,36,28,61,73,42,57,66,39];
int weight[Thing] = [8,11,10,15,18,13,21,28,30,28,16,17,12,9,20,24,14,19,22,13];
int space[Thing] = [3,5,9,2,7,4,8,6,9,3,5,7,2,8,6,4,9,3,5,7];
var int take[Thing] in 0..1;
maximize sum(t in Thing) worth[t] * take[t]
subject to {
  sum(t in Thing) weight[t] * take[t] <= 150;
  sum(t in Thing) space[t] * take[t] <= 50;
};
