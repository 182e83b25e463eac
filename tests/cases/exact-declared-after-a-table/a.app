table t (i int) key (i);
isolation exact;
