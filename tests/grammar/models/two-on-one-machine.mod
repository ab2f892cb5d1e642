scheduleHorizon = 4; UnaryResource u; Activity a(2); Activity b(2); solve { a requires u; b requires u; };
