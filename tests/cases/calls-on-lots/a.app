table lot (site text, nr int, tag bytes, held bool) key (site, nr) index (held);
proc put(s text, n int, t bytes) { insert lot (s, n, t, false); }
proc hold(s text) {
  for r in lot span on site from s to s {
    update lot key (r.site, r.nr) set held = true;
  }
}
