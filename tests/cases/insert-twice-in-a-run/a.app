# the second insert meets the row of the first
table number (id int) key (id);
proc twice(i int) { insert number (i); insert number (i); }
