table acct (id int) key (id)
proc p() { }
