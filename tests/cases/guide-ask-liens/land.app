table parcel (id text, owner text, deed bytes) key (id) index (owner);
table lien (parcel text, rank int, bank text, amount int) key (parcel, rank) index (bank);

proc enter(id text, owner text, deed bytes) { insert parcel (id, owner, deed); }

# Sells a parcel that no lien lies on.
proc sell(id text, seller text, buyer text, deed bytes) {
  get p from parcel key (id) {
    if p.owner != seller { fail "not the owner"; }
    for l in lien span on parcel from id to id { fail "a lien lies on it"; }
    update parcel key (id) set owner = buyer, deed = deed;
  } else { fail "no such parcel"; }
}

# Lays a lien on a parcel for a loan to its owner.
proc pledge(id text, owner text, rank int, bank text, amount int) {
  get p from parcel key (id) {
    if p.owner != owner { fail "not the owner"; }
    insert lien (id, rank, bank, amount);
  } else { fail "no such parcel"; }
}

proc release(id text, rank int) { delete lien key (id, rank); }

# Commits where somebody owns a parcel, and changes nothing.
proc certify(id text, owner text) {
  get p from parcel key (id) {
    if p.owner != owner { fail "not the owner"; }
  } else { fail "no such parcel"; }
}
