range D 0..3; var int s[D] in 0..4; solve { forall(i in D) s[i] = sum(j in D) (s[j] = i); };
