solve { };
