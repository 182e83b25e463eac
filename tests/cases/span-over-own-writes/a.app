table num (id int, v int) key (id) index (v);
table said (id int, v int) key (id) index (v);
proc put(i int, v int) { insert num (i, v); }
proc own() {
  insert said (4, 90);
  insert num (9, 40);
  insert num (1, 70);
  insert num (2, 39);
  let order = 0;
  for r in num span on v from 40 { order = order * 10 + r.id; }
  insert said (3, order);
}
