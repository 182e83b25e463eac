table acct (id int) key (id);
proc p(i int) { insert acct (i, i); }
