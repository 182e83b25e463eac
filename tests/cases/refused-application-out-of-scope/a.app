proc p(t bool) {
  if t { let a = 1; }
  let b = a;
}
