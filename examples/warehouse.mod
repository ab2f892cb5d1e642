/* Which warehouses are opened, and which of them supplies each shop? An open one costs its rent, a shop what its way costs, and each
   warehouse can supply only so many shops. All of it is to cost as little as can be. The plan of a coast comes from a data file:
   `./opl solve examples/warehouse.mod examples/warehouse-coast.dat`. */
enum Warehouse ...;
enum Shop ...;
int rent[Warehouse] = ...;
int capacity[Warehouse] = ...;            // how many shops it can supply
int cost[Shop,Warehouse] = ...;           // what the way to a shop costs
var int opened[Warehouse] in 0..1;
var Warehouse supplier[Shop];
minimize sum(w in Warehouse) rent[w] * opened[w] + sum(s in Shop) cost[s,supplier[s]]
subject to {
  forall(s in Shop) opened[supplier[s]] = 1;
  forall(w in Warehouse) sum(s in Shop) (supplier[s] = w) <= capacity[w];
};
