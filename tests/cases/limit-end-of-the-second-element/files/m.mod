var int x[i in 1..2] in 0..i * (1048575 - (i - 1)) div (2 - i);
solve { };