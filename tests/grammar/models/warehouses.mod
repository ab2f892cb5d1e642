enum Shop {north,south,east};
enum Store {hill,port};
int cost[Shop,Store] = [[4,7],[5,3],[6,2]];
int fixed[Store] = [9,11];
var Store serves[Shop];
var int open[Store] in 0..1;
minimize sum(s in Shop) cost[s,serves[s]] + sum(w in Store) fixed[w] * open[w]
subject to {
  forall(s in Shop, w in Store) serves[s] = w => open[w] = 1;
};
search {
  forall(s in Shop ordered by decreasing dsize(serves[s])) tryall(w in Store ordered by increasing cost[s,w]) serves[s] = w;
  generate(open);
};
