scheduleHorizon = 3; DiscreteResource r(1); Activity a(2); Activity b(1); solve { a requires(1) r; b requires(1) r; };
