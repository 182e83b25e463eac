# What the farm and the mill owe each other.
table account (nr int, owner text, balance int) key (nr);
proc open(nr int, owner text, balance int) { insert account (nr, owner, balance); }
proc pay(payer int, payee int, amount int) {
  get a from account key (payer) {
    get b from account key (payee) {
      if a.balance < amount { fail "no funds"; }
      update account key (payer) set balance = a.balance - amount;
      update account key (payee) set balance = b.balance + amount;
    } else { fail "no payee"; }
  } else { fail "no payer"; }
}
