table thing (id int, name text, flag bool, tag bytes) key (id, name) index (flag, tag);
proc fixed() { insert thing (7, "t", false, x"0a"); }
