table log (id int, at int) key (id);
proc note(i int) { insert log (i, now); }
