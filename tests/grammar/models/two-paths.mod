var int x in 1..3; solve { }; search { try x <= 2 | x >= 2 endtry; };
