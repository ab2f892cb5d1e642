enum C {Belgium,Denmark,France,Germany,Netherlands,Luxembourg};
enum K {blue,red,yellow,gray};
var K color[C];
solve {
  color[France] <> color[Belgium];
  color[France] <> color[Luxembourg];
  color[France] <> color[Germany];
  color[Luxembourg] <> color[Germany];
  color[Luxembourg] <> color[Belgium];
  color[Netherlands] <> color[Belgium];
  color[Germany] <> color[Netherlands];
  color[Germany] <> color[Denmark];
  color[Belgium] <> color[Germany];
};
