table acct (id int, owner text, bal int, since int) key (id) index (owner);
proc open(i int, o text, b int) { insert acct (i, o, b, now); }
proc accrue(i int) {
  get a from acct key (i) {
    update acct key (i) set bal = a.bal + (now - a.since) / 100, since = now;
  } else { fail "none"; }
}
proc sweep(o text) {
  for a in acct span on owner from o to o {
    if a.since < now { update acct key (a.id) set bal = a.bal - 1, since = now; }
  }
}
