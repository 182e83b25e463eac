table acct (id int, owner text, bal int) key (id) index (owner);
proc p() { insert acct (1, "a"); }
