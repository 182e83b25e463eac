# A store room: what parts it has, and how many pieces of each.
table part (code text, pieces int) key (code);

# Brings pieces in; of a part that is new here they are the first.
proc bring(code text, pieces int) {
  get p from part key (code) {
    update part key (code) set pieces = p.pieces + pieces;
  } else { insert part (code, pieces); }
}

# Takes pieces out, as long as there are enough.
proc take(code text, pieces int) {
  get p from part key (code) {
    if p.pieces < pieces { fail "too few"; }
    update part key (code) set pieces = p.pieces - pieces;
  } else { fail "no such part"; }
}
