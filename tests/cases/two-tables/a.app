table acct (id int, name text) key (id);
table owner (name text, id int) key (name);
proc both(i int, n text) { insert acct (i, n); insert owner (n, i); }
