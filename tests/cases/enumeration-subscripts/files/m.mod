enum Day {mon,tue,wed}; int cost[Day] = #[mon:3,tue:1,wed:2]#; var Day x; var Day y; solve { cost[x] + cost[y] = 3; x <> y; };
