# numbers, and what is made of them
table num (id int, v int) key (id);
table said (id int, t text, b bool, y bytes) key (id) index (t, b, y);
proc sums(a int, b int) {
  insert num (1, a + b);
  insert num (2, a - b);
  insert num (3, a * b);
  insert num (4, a / b);
  insert num (5, a % b);
  insert num (6, -a);
  insert num (7, (a + b) * (a - b));
}
proc chains() {
  insert num (1, 10 - 3 - 2);
  insert num (2, 2 + 3 * 4);
  insert num (3, 100 / 10 / 2);
  insert num (4, 7 - -7);
  insert num (5, 2 * (3 + 4) % 5);
  insert num (6, - -8);
}
proc words(t text) {
  insert said (1, "a" ++ t ++ "z", "a" < "b" and not (t = "a"), x"00");
  insert said (2, "\"\\", x"00" < x"0000" or 1 / 0 = 1, x"");
  insert said (3, t, false and 1 / 0 = 1, x"ff");
  insert said (4, "", false < true, x"0a0b");
}
proc long(t text) { insert said (1, t ++ t, true, x""); }
proc put(i int, v int) { insert num (i, v); }
