# SmallBank: customers by name, each with savings and a checking account (Alomari, Cahill, Fekete and Roehm, ICDE 2008).
# send_payment is the sixth procedure, which OLTP-Bench adds. Amounts are whole cents.
table account (name text, customer int) key (name);
table saving (customer int, balance int) key (customer);
table checking (customer int, balance int) key (customer);
# What balance_kept saw, by the number that it is given.
table answer (call int, total int) key (call);

proc open(name text, customer int, savings int, checks int) {
  insert account (name, customer);
  insert saving (customer, savings);
  insert checking (customer, checks);
}

proc balance(name text) {
  get a from account key (name) {
    get s from saving key (a.customer) {
      get c from checking key (a.customer) {
        let total = s.balance + c.balance;
      } else { fail "no checking account"; }
    } else { fail "no savings"; }
  } else { fail "no such name"; }
}

# As balance, but what it saw can be looked at after the run.
proc balance_kept(name text, call int) {
  get a from account key (name) {
    get s from saving key (a.customer) {
      get c from checking key (a.customer) {
        insert answer (call, s.balance + c.balance);
      } else { fail "no checking account"; }
    } else { fail "no savings"; }
  } else { fail "no such name"; }
}

proc deposit_checking(name text, amount int) {
  if amount < 0 { fail "negative"; }
  get a from account key (name) {
    get c from checking key (a.customer) {
      update checking key (a.customer) set balance = c.balance + amount;
    } else { fail "no checking account"; }
  } else { fail "no such name"; }
}

# Adds to the savings, or takes from them where the amount is negative.
proc transact_saving(name text, amount int) {
  get a from account key (name) {
    get s from saving key (a.customer) {
      if s.balance + amount < 0 { fail "savings below zero"; }
      update saving key (a.customer) set balance = s.balance + amount;
    } else { fail "no savings"; }
  } else { fail "no such name"; }
}

# Moves all that the first customer has to the checking account of the second.
proc amalgamate(first text, second text) {
  get a from account key (first) {
    get b from account key (second) {
      get s from saving key (a.customer) {
        get c from checking key (a.customer) {
          get d from checking key (b.customer) {
            update saving key (a.customer) set balance = 0;
            update checking key (a.customer) set balance = 0;
            update checking key (b.customer) set balance = d.balance + s.balance + c.balance;
          } else { fail "no checking account"; }
        } else { fail "no checking account"; }
      } else { fail "no savings"; }
    } else { fail "no such name"; }
  } else { fail "no such name"; }
}

# A check that both accounts together do not cover costs 1 more.
proc write_check(name text, amount int) {
  get a from account key (name) {
    get s from saving key (a.customer) {
      get c from checking key (a.customer) {
        let cost = amount;
        if s.balance + c.balance < amount { cost = amount + 1; }
        update checking key (a.customer) set balance = c.balance - cost;
      } else { fail "no checking account"; }
    } else { fail "no savings"; }
  } else { fail "no such name"; }
}

proc send_payment(payer text, payee text, amount int) {
  get a from account key (payer) {
    get b from account key (payee) {
      get c from checking key (a.customer) {
        get d from checking key (b.customer) {
          if c.balance < amount { fail "not covered"; }
          update checking key (a.customer) set balance = c.balance - amount;
          update checking key (b.customer) set balance = d.balance + amount;
        } else { fail "no checking account"; }
      } else { fail "no checking account"; }
    } else { fail "no such name"; }
  } else { fail "no such name"; }
}
