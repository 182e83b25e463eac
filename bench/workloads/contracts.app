# Three contracts: one inserts a row, one joins two tables and writes a sum, one finds the group with the greatest sum and writes it.
# (Nathan, Govindarajan, Saraf, Sethi and Jayachandran, PVLDB 12(11), 2019.)
table entry (id int, kind int, amount int, note text) key (id);
table part (id int, family int, price int) key (id) index (family);
table stock (id int, part int, pieces int) key (id) index (part);
table joined (id int, family int, total int) key (id);
table best (id int, family int, part int, pieces int) key (id);

proc add_part(id int, family int, price int) { insert part (id, family, price); }
proc add_stock(id int, part int, pieces int) { insert stock (id, part, pieces); }

# The simple contract.
proc simple(id int, kind int, amount int, note text) { insert entry (id, kind, amount, note); }

# The complex join: what the stocks of all parts of a family are worth.
proc complex_join(id int, family int) {
  let total = 0;
  for p in part span on family from family to family {
    for s in stock span on part from p.id to p.id { total = total + p.price * s.pieces; }
  }
  insert joined (id, family, total);
}

# The complex group: of all parts of a family the one with the most pieces, the first of several.
proc complex_group(id int, family int) {
  let most = -1;
  let most_part = 0;
  for p in part span on family from family to family {
    let pieces = 0;
    for s in stock span on part from p.id to p.id { pieces = pieces + s.pieces; }
    if pieces > most { most = pieces; most_part = p.id; }
  }
  insert best (id, family, most_part, most);
}

# A change that both complex contracts see.
proc restock(id int, pieces int) { update stock key (id) set pieces = pieces; }
