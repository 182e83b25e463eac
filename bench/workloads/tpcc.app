# TPC-C's NewOrder, Payment and Delivery (TPC Benchmark C, revision 5.11). Amounts are whole cents, and taxes and discounts parts of 10,000.
# A district has one number: ten times its warehouse's, and its own from 0 to 9. A customer, and an order, has one number too: that of its
# district times 10,000,000, and its own. So a span on one column gives the customers of one name or the lines of one order.
table warehouse (id int, name text, tax int, paid int) key (id);
table district (id int, warehouse int, name text, tax int, paid int, next_order int) key (id);
# The oldest order of a district that is not delivered. Orders have no gaps, so Delivery finds it without a least number.
table oldest (district int, warehouse int, nr int) key (district) index (warehouse);
table customer (id int, district int, first text, last text, name_group text, credit text, discount int, balance int,
  paid int, payments int, deliveries int) key (id) index (name_group);
table history (customer int, payment int, district int, at int, amount int) key (customer, payment);
table item (id int, name text, price int) key (id);
table stock (warehouse int, item int, quantity int, sold int, orders int, remote int) key (warehouse, item);
table orders (id int, customer int, entered int, carrier int, lines int, is_local bool) key (id);
table new_order (id int) key (id);
table order_line (orders int, nr int, item int, supplier int, delivered int, quantity int, amount int) key (orders, nr);
# The numbers 1 to 15, over which the lines of an order are walked.
table place (nr int) key (nr);

proc add_place(nr int) { insert place (nr); }
proc add_warehouse(id int, name text, tax int) { insert warehouse (id, name, tax, 0); }
proc add_district(id int, warehouse int, name text, tax int) {
  insert district (id, warehouse, name, tax, 0, 1);
  insert oldest (id, warehouse, 1);
}
proc add_customer(id int, district int, first text, last text, name_group text, credit text, discount int) {
  insert customer (id, district, first, last, name_group, credit, discount, -1000, 1000, 1, 0);
}
proc add_item(id int, name text, price int) { insert item (id, name, price); }
proc add_stock(warehouse int, item int, quantity int) { insert stock (warehouse, item, quantity, 0, 0, 0); }

# An order of up to 15 lines. A line is one number below 2147483648: item times 16384, supplying warehouse times 16, and quantity.
# Two lines stand in one argument, the second times 2147483648.
proc new_order(warehouse int, district int, customer int, lines int, is_local bool,
  l1 int, l2 int, l3 int, l4 int, l5 int, l6 int, l7 int, l8 int) {
  get w from warehouse key (warehouse) {
    get d from district key (district) {
      get c from customer key (customer) {
        update district key (district) set next_order = d.next_order + 1;
        let order_number = district * 10000000 + d.next_order;
        insert orders (order_number, customer, now, 0, lines, is_local);
        insert new_order (order_number);
        let sum = 0;
        for p in place span on nr from 1 to lines {
          let line = l1 % 2147483648;
          if p.nr % 2 = 1 { l1 = l1 / 2147483648; }
          else { l1 = l2; l2 = l3; l3 = l4; l4 = l5; l5 = l6; l6 = l7; l7 = l8; }
          let item = line / 16384;
          let supplier = line / 16 % 1024;
          let quantity = line % 16;
          get i from item key (item) {
            get s from stock key (supplier, item) {
              let left = s.quantity - quantity;
              if left < 10 { left = left + 91; }
              let remote = s.remote;
              if supplier != warehouse { remote = remote + 1; }
              update stock key (supplier, item) set quantity = left, sold = s.sold + quantity, orders = s.orders + 1, remote = remote;
              insert order_line (order_number, p.nr, item, supplier, 0, quantity, quantity * i.price);
              sum = sum + quantity * i.price;
            } else { fail "no stock"; }
          } else { fail "no item"; }
        }
        let total = sum * (10000 - c.discount) / 10000 * (10000 + w.tax + d.tax) / 10000;
      } else { fail "no customer"; }
    } else { fail "no district"; }
  } else { fail "no warehouse"; }
}

# A payment at a district by a customer, who may be of another one.
proc payment(warehouse int, district int, customer int, amount int) {
  get w from warehouse key (warehouse) {
    get d from district key (district) {
      get c from customer key (customer) {
        update warehouse key (warehouse) set paid = w.paid + amount;
        update district key (district) set paid = d.paid + amount;
        update customer key (customer) set balance = c.balance - amount, paid = c.paid + amount, payments = c.payments + 1;
        insert history (customer, c.payments, district, now, amount);
      } else { fail "no customer"; }
    } else { fail "no district"; }
  } else { fail "no warehouse"; }
}

# A payment by the customer in the middle of those of a last name.
proc payment_by_name(warehouse int, district int, name_group text, amount int) {
  get w from warehouse key (warehouse) {
    get d from district key (district) {
      let count = 0;
      for c in customer span on name_group from name_group to name_group { count = count + 1; }
      if count = 0 { fail "no customer"; }
      let nr = 0;
      for c in customer span on name_group from name_group to name_group {
        nr = nr + 1;
        if nr = (count + 1) / 2 {
          update warehouse key (warehouse) set paid = w.paid + amount;
          update district key (district) set paid = d.paid + amount;
          update customer key (c.id) set balance = c.balance - amount, paid = c.paid + amount, payments = c.payments + 1;
          insert history (c.id, c.payments, district, now, amount);
        }
      }
    } else { fail "no district"; }
  } else { fail "no warehouse"; }
}

# Delivers the oldest new order of each district of a warehouse.
proc delivery(warehouse int, carrier int) {
  for d in oldest span on warehouse from warehouse to warehouse {
    let order_number = d.district * 10000000 + d.nr;
    get n from new_order key (order_number) {
      get o from orders key (order_number) {
        let sum = 0;
        for l in order_line span on orders from order_number to order_number {
          update order_line key (order_number, l.nr) set delivered = now;
          sum = sum + l.amount;
        }
        get c from customer key (o.customer) {
          delete new_order key (order_number);
          update orders key (order_number) set carrier = carrier;
          update customer key (o.customer) set balance = c.balance + sum, deliveries = c.deliveries + 1;
          update oldest key (d.district) set nr = d.nr + 1;
        } else { fail "no customer"; }
      } else { fail "no order"; }
    } else { }
  }
}
