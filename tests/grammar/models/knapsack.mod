range Item 1..6;
int weight[Item] = [12,7,11,8,9,6];
int value[Item] = [24,13,23,15,16,11];
int capacity = 26;
var int take[Item] in 0..1;
maximize sum(i in Item) value[i] * take[i]
subject to {
  sum(i in Item) weight[i] * take[i] <= capacity;
};
search { generate(take); };
