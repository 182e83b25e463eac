table thing (id int, n int) key (id);
table note (id int, of int) key (id) index (of);
proc put(i int, n int) { insert thing (i, n); }
proc eight() {
  insert note (3, 30);
  insert thing (9, 1);
  insert note (1, 30);
  insert thing (2, 5);
  insert thing (5, 5);
  delete thing key (5);
  insert note (2, 40);
  update thing key (8) set n = 80;
  insert thing (7, 7);
  let ids = 0;
  for r in note span on of from 30 to 30 { ids = ids * 10 + r.id; }
  update thing key (7) set n = ids;
}
proc nine() {
  insert note (6, 30);
  insert note (5, 50);
  delete note key (1);
  insert thing (1, 1);
  update thing key (2) set n = 6;
  insert thing (5, 9);
  delete thing key (5);
  delete thing key (9);
  update thing key (8) set n = 81;
  insert note (4, 30);
  let ids = 0;
  for r in note span on of from 30 to 30 { ids = ids * 10 + r.id; }
  update thing key (8) set n = ids;
  insert note (1, 30);
  get r from thing key (2) { insert thing (3, r.n); } else { fail "lost"; }
  get r from thing key (9) { fail "still there"; } else { insert thing (4, 0); }
}
