table acct (id int, owner text, bal int) key (id) index (owner);
proc add(i int, o text, b int) { insert acct (i, o, b); }
