// one
var /* two */ int x in 1../***/3; solve { x > /* 1 */ 2 }; // end