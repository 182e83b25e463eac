table thing (name text, tag bytes, on_hand bool, number int) key (name);
proc put(n text, t bytes, o bool, k int) { insert thing (n, t, o, k); }
