# YCSB's core workloads: one table of records with ten fields (Cooper, Silberstein, Tam, Ramakrishnan and Sears, SoCC 2010).
# Keys are numbers in their order, so that a scan of some records is a span of as many keys.
table usertable (key_number int, field0 text, field1 text, field2 text, field3 text, field4 text,
  field5 text, field6 text, field7 text, field8 text, field9 text) key (key_number);
# What read_kept and scan_kept saw, by the number that they are given and the key of the record.
table answer (call int, key_number int, field0 text) key (call, key_number);

proc add(number int, field0 text, field1 text, field2 text, field3 text, field4 text,
  field5 text, field6 text, field7 text, field8 text, field9 text) {
  insert usertable (number, field0, field1, field2, field3, field4, field5, field6, field7, field8, field9);
}

proc read(number int) {
  get r from usertable key (number) { } else { fail "no record"; }
}

proc read_kept(number int, call int) {
  get r from usertable key (number) { insert answer (call, number, r.field0); } else { fail "no record"; }
}

proc scan(first int, count int) {
  for r in usertable span on key_number from first to first + count - 1 { }
}

proc scan_kept(first int, count int, call int) {
  for r in usertable span on key_number from first to first + count - 1 { insert answer (call, r.key_number, r.field0); }
}

# Changes one field, which its number names.
proc change(number int, field int, value text) {
  if field = 0 { update usertable key (number) set field0 = value; }
  if field = 1 { update usertable key (number) set field1 = value; }
  if field = 2 { update usertable key (number) set field2 = value; }
  if field = 3 { update usertable key (number) set field3 = value; }
  if field = 4 { update usertable key (number) set field4 = value; }
  if field = 5 { update usertable key (number) set field5 = value; }
  if field = 6 { update usertable key (number) set field6 = value; }
  if field = 7 { update usertable key (number) set field7 = value; }
  if field = 8 { update usertable key (number) set field8 = value; }
  if field = 9 { update usertable key (number) set field9 = value; }
}

# Reads a record, and then changes one field of it.
proc read_modify_write(number int, field int, value text) {
  get r from usertable key (number) {
    if field = 0 { update usertable key (number) set field0 = value; }
    if field = 1 { update usertable key (number) set field1 = value; }
    if field = 2 { update usertable key (number) set field2 = value; }
    if field = 3 { update usertable key (number) set field3 = value; }
    if field = 4 { update usertable key (number) set field4 = value; }
    if field = 5 { update usertable key (number) set field5 = value; }
    if field = 6 { update usertable key (number) set field6 = value; }
    if field = 7 { update usertable key (number) set field7 = value; }
    if field = 8 { update usertable key (number) set field8 = value; }
    if field = 9 { update usertable key (number) set field9 = value; }
  } else { fail "no record"; }
}
