isolation exact;
table account (name text, customer int) key (name);
table saving (customer int, balance int) key (customer);
table checking (customer int, balance int) key (customer);
table answer (call int, total int) key (call);

proc open(name text, customer int, savings int, checks int) {
  insert account (name, customer);
  insert saving (customer, savings);
  insert checking (customer, checks);
}

proc balance_kept(name text, call int) {
  get a from account key (name) {
    get s from saving key (a.customer) {
      get c from checking key (a.customer) {
        insert answer (call, s.balance + c.balance);
      } else { fail "no checking account"; }
    } else { fail "no savings"; }
  } else { fail "no such name"; }
}

proc transact_saving(name text, amount int) {
  get a from account key (name) {
    get s from saving key (a.customer) {
      if s.balance + amount < 0 { fail "savings below zero"; }
      update saving key (a.customer) set balance = s.balance + amount;
    } else { fail "no savings"; }
  } else { fail "no such name"; }
}

proc write_check(name text, amount int) {
  get a from account key (name) {
    get s from saving key (a.customer) {
      get c from checking key (a.customer) {
        let cost = amount;
        if s.balance + c.balance < amount { cost = amount + 1; }
        update checking key (a.customer) set balance = c.balance - cost;
      } else { fail "no checking account"; }
    } else { fail "no savings"; }
  } else { fail "no such name"; }
}
