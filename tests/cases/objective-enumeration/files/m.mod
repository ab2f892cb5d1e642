enum E {a,b};
var E x;
maximize x subject to { };
