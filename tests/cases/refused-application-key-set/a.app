table acct (id int, owner text, bal int) key (id) index (owner);
proc p() { update acct key (1) set id = 2; }
