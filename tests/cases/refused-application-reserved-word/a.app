table from (id int) key (id);
