table lot (site text, nr int, grams int, papers bytes, held bool) key (site, nr) index (held);

proc receive(site text, nr int, grams int, papers bytes) {
  insert lot (site, nr, grams, papers, false);
}

# Moves a lot to another site, unless it is held back.
proc ship(site text, nr int, to_site text, to_nr int) {
  get l from lot key (site, nr) {
    if l.held { fail "held"; }
    delete lot key (site, nr);
    insert lot (to_site, to_nr, l.grams, l.papers, false);
  } else { fail "no such lot"; }
}

# Uses a lot up, as long as the other lots of the site have enough for a sample.
proc use_up(site text, nr int, sample int) {
  let left = 0;
  for l in lot span on site from site to site {
    if l.nr != nr { left = left + l.grams; }
  }
  if left < sample { fail "no sample left"; }
  delete lot key (site, nr);
}

# Holds every lot of a site back.
proc recall(site text) {
  for l in lot span on site from site to site {
    update lot key (l.site, l.nr) set held = true;
  }
}
