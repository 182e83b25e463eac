table number (id int) key (id);
proc add(i int) { insert number (i); }
proc twice(i int) { insert number (i); insert number (i); }
