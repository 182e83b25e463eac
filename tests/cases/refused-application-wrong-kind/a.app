table acct (id int) key (id);
proc p(t text) { insert acct (t); }
