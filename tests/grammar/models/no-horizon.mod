Activity a(1); solve { };
