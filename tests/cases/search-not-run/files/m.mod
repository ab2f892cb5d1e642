var int x in 1..3;
maximize x subject to { x <> 1; };
search { try x = 3 | x <> 3 endtry; };
