var int x in 1..2; var int y in 1..2; solve { }; search { generate(y); };
