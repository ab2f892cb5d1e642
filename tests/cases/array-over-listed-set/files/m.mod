{int} S = {2,1,2}; var int x[S] in 8 - 3 - 2..3; solve { };
