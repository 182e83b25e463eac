table acct (id int) key (id);
proc p() { let a = ; }
