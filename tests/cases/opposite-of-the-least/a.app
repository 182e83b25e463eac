table num (id int, v int) key (id);
proc quotient(a int, b int) { insert num (1, a / b); }
proc remainder(a int, b int) { insert num (1, a % b); }
proc product(a int, b int) { insert num (1, a * b); }
proc minus(a int) { insert num (1, -a); }
proc plus(a int, b int) { insert num (1, a + b); }
