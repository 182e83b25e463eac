table num (id int, v int) key (id) index (v);
proc put(i int, v int) { insert num (i, v); }
proc own() {
  insert num (1, 10);
  get r from num key (1) {
    insert num (2, r.v + 1);
    update num key (1) set v = 5;
    get s from num key (1) { insert num (3, s.v); } else { fail "lost"; }
    insert num (4, r.v);
  } else { fail "absent"; }
  delete num key (1);
  get r from num key (1) { fail "still there"; } else { insert num (5, 0); }
}
proc grow() { for r in num span on id { insert num (r.id + 100, r.v); } }
proc shift() { for r in num span on v from 10 to 20 { update num key (r.id) set v = r.v + 1; } }
proc none() { for r in num span on id from 5 to 1 { fail "visited"; } }
proc total(low int) {
  let sum = 0;
  let seen = 0;
  for r in num span on id from low {
    sum = sum + r.v;
    if r.v % 2 = 0 { seen = seen + 1; } else { seen = seen + 10; }
  }
  for r in num span on id to low - 1 { delete num key (r.id); }
  insert num (1000, sum);
  insert num (1001, seen);
}
proc undone(i int) { insert num (i, 1); delete num key (i); }
proc again(i int) { delete num key (i); insert num (i, 77); }
proc same(i int) { get r from num key (i) { update num key (i) set v = r.v; } else { } }
