table acct (id int, owner text, bal int) key (id);
table town (name text, open bool) key (name);
table mark (code bytes, open bool) key (code);
proc add(i int, o text, b int) { insert acct (i, o, b); }
proc found(n text, o bool) { insert town (n, o); }
proc give(i int, b int) { update acct key (i) set bal = b; }
proc give_and_close(i int, b int, n text) { update acct key (i) set bal = b; delete town key (n); }
proc remove_and_mark(i int, c bytes) { delete acct key (i); insert mark (c, false); }
