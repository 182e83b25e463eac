table account (nr int, owner text, balance int) key (nr) index (owner);
proc open(nr int, owner text, amount int) { insert account (nr, owner, amount); }
# Draws from one account what all accounts of its owner cover together.
proc draw(owner text, nr int, amount int) {
  let total = 0;
  for a in account span on owner from owner to owner { total = total + a.balance; }
  if amount <= 0 or total < amount { fail "not covered"; }
  get a from account key (nr) { update account key (nr) set balance = a.balance - amount; }
  else { fail "no account"; }
}
