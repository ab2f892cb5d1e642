solve { "x
