isolation exact
table t (i int) key (i);
