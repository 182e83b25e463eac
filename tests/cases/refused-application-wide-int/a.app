table acct (id int) key (id);
proc p() { insert acct (9223372036854775808); }
