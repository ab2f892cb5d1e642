var int x in 1..3; solve { }; search { while not bound(x) do try x = dmin(x) | x > dmin(x) endtry; };
