table account (bank text, nr int, owner text, balance int, credit int) key (bank, nr) index (owner);
table payment (reference text, payer text, payee text, amount int) key (reference);

proc open(bank text, nr int, owner text, balance int) {
  insert account (bank, nr, owner, balance, 0);
}

# Pays from an account to another, also of another bank, as far as balance and credit go.
proc pay(reference text, bank text, nr int, to_bank text, to_nr int, amount int) {
  if amount <= 0 { fail "no amount"; }
  if bank = to_bank and nr = to_nr { fail "one account"; }
  get a from account key (bank, nr) {
    get b from account key (to_bank, to_nr) {
      if a.balance + a.credit < amount { fail "no funds"; }
      update account key (bank, nr) set balance = a.balance - amount;
      update account key (to_bank, to_nr) set balance = b.balance + amount;
      insert payment (reference, a.owner, b.owner, amount);
    } else { fail "no payee"; }
  } else { fail "no payer"; }
}

# Grants an account a credit of half of what another account, its guarantor, holds.
proc grant(bank text, nr int, by_bank text, by_nr int) {
  get g from account key (by_bank, by_nr) {
    update account key (bank, nr) set credit = g.balance / 2;
  } else { fail "no guarantor"; }
}
