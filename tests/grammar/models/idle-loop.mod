var int x in 1..2; solve { }; search { while 1 = 1 do x >= 1; };
