struct Point { int x; int y; };
struct Box { Point low; {int} marks; };
{{int}} groups = {{1,2},{},{3}};
{Box} boxes = {<<1,2>,{3,4}>,<<0,0>,{}>};
int volume = sum(b in boxes) (card(b.marks) * b.low.x);
solve { };
