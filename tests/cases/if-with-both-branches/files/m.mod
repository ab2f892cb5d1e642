int d[1..2] = [0,1]; var int x[1..2] in 0..3; solve { forall(i in 1..2) if d[i] = 1 then x[i] = 2; x[i] > 0 else x[i] <> 2; if i = 1 then x[i] < 1 endif endif; };
