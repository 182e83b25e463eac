isolation exact;
table spot (id int, at int) key (id);
proc add(i int) { insert spot (i, 0); }
proc look(own int, a int, b int) {
  get r from spot key (a) { } else { }
  get s from spot key (b) { } else { }
  update spot key (own) set at = own;
}
