// The spread of products over pairs of a table, found from its greatest value down.
struct Pair { int low; int high; };
{Pair} pairs = {<1,3>,<2,5>};
var int x[pairs] in 1..5;
var int spread in 0..100;
solve {
  forall(<l,h> in pairs) { x[<l,h>] >= l; x[<l,h>] <= h };
  spread = max(p in pairs) x[p] - min(p in pairs) x[p];
  prod(<l,h> in pairs : l < h) x[<l,h>] <= 12;
};
search { while not bound(spread) do try spread = dmax(spread) | spread < dmax(spread) endtry; };
