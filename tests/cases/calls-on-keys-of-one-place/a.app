table acct (id int, owner text, bal int) key (id);
proc add(i int, o text, b int) { insert acct (i, o, b); }
proc remove(i int) { delete acct key (i); }
