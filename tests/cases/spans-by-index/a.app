table item (site text, nr int, kind text, held bool, grams int) key (site, nr) index (kind, held);
table note (nr int, sum int) key (nr);

proc add(s text, n int, k text, h bool, g int) { insert item (s, n, k, h, g); }
proc turn(s text, n int, k text) { update item key (s, n) set kind = k; }
proc remove(s text, n int) { delete item key (s, n); }

# Each sum has the grams of the rows as its digits, in the order of the rows.
proc kinds(nr int, lo text, hi text) {
  let sum = 0;
  for r in item span on kind from lo to hi { sum = sum * 10 + r.grams; }
  insert note (nr, sum);
}
proc sites(nr int, lo text, hi text) {
  let sum = 0;
  for r in item span on site from lo to hi { sum = sum * 10 + r.grams; }
  insert note (nr, sum);
}
proc held(nr int, h bool) {
  let sum = 0;
  for r in item span on held from h to h { sum = sum * 10 + r.grams; }
  insert note (nr, sum);
}
proc above(nr int, lo text) {
  let sum = 0;
  for r in item span on kind from lo { sum = sum * 10 + r.grams; }
  insert note (nr, sum);
}
proc below(nr int, hi text) {
  let sum = 0;
  for r in item span on kind to hi { sum = sum * 10 + r.grams; }
  insert note (nr, sum);
}
proc any(nr int) {
  let sum = 0;
  for r in item span on kind { sum = sum * 10 + r.grams; }
  insert note (nr, sum);
}
proc notes(nr int, lo int, hi int) {
  let sum = 0;
  for r in note span on nr from lo to hi { sum = sum * 10 + r.sum; }
  insert note (nr, sum);
}
