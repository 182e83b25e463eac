table number (id int) key (id);
proc add(i int) { insert number (i); }
proc pair(i int, j int) { insert number (i); insert number (j); }
