table thing (id int, name text) key (name, id);
proc put(i int, n text) { insert thing (i, n); }
