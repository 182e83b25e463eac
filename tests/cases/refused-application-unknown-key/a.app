table acct (id int) key (nr);
