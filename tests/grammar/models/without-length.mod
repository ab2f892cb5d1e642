scheduleHorizon = 2; UnaryResource u; Activity a(2); Activity z(0); solve { a requires u; z requires u; };
