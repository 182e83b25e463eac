table lot (n int, site text, is_sold bool, tag bytes) key (n);
proc put(n int, s text, o bool, t bytes) { insert lot (n, s, o, t); }
proc lose() { fail "no \"lot\""; }
