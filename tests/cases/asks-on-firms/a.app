table account (nr int, owner text, balance int) key (nr) index (owner);
table firm (name text, town text, open bool) key (name);
proc found(n text, t text, o bool) { insert firm (n, t, o); }
proc start(n int, o text, b int) { insert account (n, o, b); }
proc set_to(n int, b int) { update account key (n) set balance = b; }
proc close(n int) { delete account key (n); }
