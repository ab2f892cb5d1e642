var int x in 1..3; solve { x <> 1; }; search { once try x = 1 | x = 2 endtry; };
