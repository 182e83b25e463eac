table lease (id int, tenant text, due int, rent int, owed int) key (id);

# Signs a lease; the first rent falls due in thirty days.
proc sign(id int, tenant text, rent int) {
  insert lease (id, tenant, now + 2592000, rent, 0);
}

# Charges a rent that has fallen due, with interest of one in a hundred for each whole day since then.
proc charge(id int) {
  get l from lease key (id) {
    if now < l.due { fail "not due"; }
    let days = (now - l.due) / 86400;
    update lease key (id) set owed = l.owed + l.rent + l.rent * days / 100, due = l.due + 2592000;
  } else { fail "no such lease"; }
}
