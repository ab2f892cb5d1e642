int none[1..0] = [];
int keyed[{1,2}] = #[1:4, 2:5]#;
{int} nothing = {};
enum Free = ...;
enum Other ...;
solve { if 1 = 1 then else endif; { }; forall(i in nothing) { }; };
search { { }; try | 1 = 1 | endtry; if 1 = 1 then endif; };
