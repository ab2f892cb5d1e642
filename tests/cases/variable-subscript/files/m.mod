int a[1..3] = [5,7,9]; var int i in 0..4; solve { a[i] = 7; };
