struct Route { int way; int miles; int toll; };
{Route} routes = {<1,2,3>};
int total = sum(r in routes) (r.way + r.miles + r.toll);
solve { total = 6 <=> (1 = 1 => 2 = 2 => 3 = 3) <=> 4 = 4; };
