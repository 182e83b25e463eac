table acct (id int, owner text, bal int) key (id) index (owner);
proc add(i int, o text, b int) { insert acct (i, o, b); }
proc remove(i int) { delete acct key (i); }
proc pay(f int, t int, n int) {
  get a from acct key (f) {
    get b from acct key (t) {
      if a.bal < n { fail "funds"; }
      update acct key (f) set bal = a.bal - n;
      update acct key (t) set bal = b.bal + n;
    } else { fail "no payee"; }
  } else { fail "no payer"; }
}
proc sweep(o text, t int) {
  let sum = 0;
  for r in acct span on owner from o to o { sum = sum + r.bal; }
  update acct key (t) set bal = sum;
}
proc both(a int, b int, n int) {
  get v from acct key (a) {
    get w from acct key (b) {
      if v.bal + w.bal >= n { update acct key (a) set bal = v.bal - n; }
      else { fail "low"; }
    } else { fail "no second"; }
  } else { fail "no first"; }
}
proc trio(a int, b int, c int) {
  get u from acct key (a) { } else { }
  get v from acct key (b) { } else { }
  get w from acct key (c) { } else { }
}
proc spin(a int, b int, c int, d int) {
  for p in acct span on id from 1 to a {
    for q in acct span on id from 1 to b {
      for r in acct span on id from 1 to c {
        for s in acct span on id from 1 to d { }
      }
    }
  }
}
proc spinmore(a int, b int, c int, d int) {
  for p in acct span on id from 1 to a {
    for q in acct span on id from 1 to b {
      for r in acct span on id from 1 to c {
        for s in acct span on id from 1 to d { }
      }
    }
  }
  let last = 0;
}
