"""The application of accounts that the measurements and some checks share: payments, sweeps of an owner by an index, inserts and removals."""

APP = """table acct (id int, owner text, bal int) key (id) index (owner);
proc add(i int, o text, b int) { insert acct (i, o, b); }
proc pay(f int, t int, n int) {
  get a from acct key (f) {
    get b from acct key (t) {
      update acct key (f) set bal = a.bal - n;
      update acct key (t) set bal = b.bal + n;
    } else { fail "no payee"; }
  } else { fail "no payer"; }
}
proc sweep(o text) {
  let sum = 0;
  for r in acct span on owner from o to o { sum = sum + r.bal; }
  if sum < 0 { fail "debt"; }
}
proc drop(i int) { get a from acct key (i) { delete acct key (i); } else { fail "no account"; } }
"""
