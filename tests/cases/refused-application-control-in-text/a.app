table acct (name text) key (name);
proc p() { insert acct ("a	b"); }
