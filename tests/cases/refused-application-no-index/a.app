table acct (id int, owner text, bal int) key (id) index (owner);
proc p() { for r in acct span on bal { } }
