table acct (id int, owner text, bal int) key (id) index (owner);
proc p() {
  get r from acct key (1) {
    let a = r;
  } else { }
}
