table account (nr int, owner text, balance int) key (nr) index (owner); table firm (name text, town text, open bool) key (name);
