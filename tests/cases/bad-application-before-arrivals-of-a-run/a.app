table acct (id int, id int) key (id);
