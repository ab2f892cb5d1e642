enum Land {a,b,c};
enum Hue {red,green,blue};
struct Edge { Land one; Land other; };
{Edge} border = ...;
var Hue hue[Land];
solve { forall(e in border) hue[e.one] <> hue[e.other]; };
search {
  forall(l in Land) {
    tryall(h in Hue : h <> blue) hue[l] = h;
    if bound(hue[l]) then else select(h in Hue) hue[l] = h endif
  };
};
