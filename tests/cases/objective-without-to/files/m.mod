var int x in 0..1;
maximize x subject { };
