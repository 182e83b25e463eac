-- TPC-C's NewOrder, Payment and Delivery for PostgreSQL: the tables and procedures of tpcc.app, in the same steps. The function `drawn_call` draws a call
-- by the same rules. An order with an item that is not there is refused before its first write, since an exception would end its client.
create table warehouse (id int primary key, name text, tax int, paid bigint);
create table district (id int primary key, warehouse int, name text, tax int, paid bigint, next_order int);
create table oldest (district int primary key, warehouse int, nr int);
create index on oldest (warehouse);
create table customer (id bigint primary key, district int, first text, last text, name_group text, credit text, discount int, balance bigint,
  paid bigint, payments int, deliveries int);
create index on customer (name_group);
create table history (customer bigint, payment int, district int, happened int, amount int, primary key (customer, payment));
create table item (id int primary key, name text, price int);
create table stock (warehouse int, item int, quantity int, sold int, orders int, remote int, primary key (warehouse, item));
create table orders (id bigint primary key, customer bigint, entered int, carrier int, lines int, is_local bool);
create table new_order (id bigint primary key);
create table order_line (orders bigint, nr int, item int, supplier int, delivered int, quantity int, amount int, primary key (orders, nr));
create sequence refused;

create function last_name(n int) returns text language sql immutable as $$
  select string_agg((array['BAR','OUGHT','ABLE','PRI','PRES','ESE','ANTI','CALLY','ATION','EING'])[substr(lpad(n::text, 3, '0'), at, 1)::int + 1], '' order by at)
    from generate_series(1, 3) at;
$$;

-- A number from low to high by NURand, with a constant of 0.
create function nurand(cut int, low int, high int) returns int language sql as $$
  select (floor(random() * (cut + 1))::int | (low + floor(random() * (high - low + 1))::int)) % (high - low + 1) + low;
$$;

create function fill(warehouses int, customers int, items int) returns void language plpgsql as $$
declare names int := customers / 3;
begin
  insert into item select k, 'item ' || k, 100 + floor(random() * 9901) from generate_series(1, items) k;
  insert into warehouse select w, 'warehouse ' || w, floor(random() * 2001), 0 from generate_series(1, warehouses) w;
  insert into stock select w, k, 10 + floor(random() * 91), 0, 0, 0 from generate_series(1, warehouses) w, generate_series(1, items) k;
  insert into district select w * 10 + d, w, 'district ' || d, floor(random() * 2001), 0, 1 from generate_series(1, warehouses) w, generate_series(0, 9) d;
  insert into oldest select id, warehouse, 1 from district;
  insert into customer select d.id * 10000000::bigint + c, d.id, 'first ' || c, last_name((c - 1) % names), d.id || ' ' || last_name((c - 1) % names),
    case when random() < 0.1 then 'BC' else 'GC' end, floor(random() * 5001), -1000, 1000, 1, 0 from district d, generate_series(1, customers) c;
end $$;

create function add_line(order_number bigint, place int, w int, supplier int, number int, quantity_asked int) returns int language plpgsql as $$
declare cost int; s stock; left_over int;
begin
  select price into cost from item where id = number;
  select * into s from stock where warehouse = supplier and item = number;
  left_over := s.quantity - quantity_asked;
  if left_over < 10 then left_over := left_over + 91; end if;
  update stock set quantity = left_over, sold = s.sold + quantity_asked, orders = s.orders + 1, remote = s.remote + (supplier <> w)::int
    where warehouse = supplier and item = number;
  insert into order_line values (order_number, place, number, supplier, 0, quantity_asked, quantity_asked * cost);
  return quantity_asked * cost;
end $$;

create function add_order(w int, d int, c bigint, items int[], suppliers int[], quantities int[], is_local bool) returns void language plpgsql as $$
declare at warehouse; found_district district; found_customer customer; order_number bigint; total bigint := 0;
begin
  if not exists (select from item where id = items[cardinality(items)]) then perform nextval('refused'); return; end if;
  select * into at from warehouse where id = w;
  select * into found_district from district where id = d;
  select * into found_customer from customer where id = c;
  update district set next_order = found_district.next_order + 1 where id = d;
  order_number := d * 10000000::bigint + found_district.next_order;
  insert into orders values (order_number, c, 0, 0, cardinality(items), is_local);
  insert into new_order values (order_number);
  for place in 1 .. cardinality(items) loop
    total := total + add_line(order_number, place, w, suppliers[place], items[place], quantities[place]);
  end loop;
  total := total * (10000 - found_customer.discount) / 10000 * (10000 + at.tax + found_district.tax) / 10000;
end $$;

create function pay(w int, d int, c bigint, amount int) returns void language plpgsql as $$
declare at warehouse; found_district district; found_customer customer;
begin
  select * into at from warehouse where id = w;
  select * into found_district from district where id = d;
  select * into found_customer from customer where id = c;
  update warehouse set paid = at.paid + amount where id = w;
  update district set paid = found_district.paid + amount where id = d;
  update customer set balance = found_customer.balance - amount, paid = found_customer.paid + amount, payments = found_customer.payments + 1 where id = c;
  insert into history values (c, found_customer.payments, d, 0, amount);
end $$;

create function pay_by_name(w int, d int, wanted text, amount int) returns void language plpgsql as $$
declare count int; c bigint;
begin
  select count(*) into count from customer where name_group = wanted;
  if count = 0 then perform nextval('refused'); return; end if;
  select id into c from customer where name_group = wanted order by id offset (count + 1) / 2 - 1 limit 1;
  perform pay(w, d, c, amount);
end $$;

create function deliver(w int, carrier_number int) returns void language plpgsql as $$
declare o oldest; order_number bigint; of_customer bigint; total bigint;
begin
  for o in select * from oldest where warehouse = w order by district loop
    order_number := o.district * 10000000::bigint + o.nr;
    if exists (select from new_order where id = order_number) then
      select customer into of_customer from orders where id = order_number;
      update order_line set delivered = 1 where orders = order_number;
      select sum(amount) into total from order_line where orders = order_number;
      delete from new_order where id = order_number;
      update orders set carrier = carrier_number where id = order_number;
      update customer set balance = balance + total, deliveries = deliveries + 1 where id = of_customer;
      update oldest set nr = o.nr + 1 where district = o.district;
    end if;
  end loop;
end $$;

create function other(w int, warehouses int) returns int language sql as $$
  select case when warehouses = 1 then w else (w + floor(random() * (warehouses - 1))::int) % warehouses + 1 end;
$$;

create function drawn_order(w int, d int, warehouses int, customers int, items int, cut int) returns void language plpgsql as $$
declare wanted int[]; suppliers int[]; quantities int[]; count int := 5 + floor(random() * 11);
begin
  for line in 1 .. count loop
    wanted[line] := nurand(cut, 1, items);
    suppliers[line] := case when random() < 0.01 then other(w, warehouses) else w end;
    quantities[line] := 1 + floor(random() * 10);
  end loop;
  if random() < 0.01 then wanted[count] := items + 1; end if;
  perform add_order(w, d, d * 10000000::bigint + nurand(cut, 1, customers), wanted, suppliers, quantities, w = all (suppliers));
end $$;

create function drawn_call(warehouses int, customers int, items int, cut int) returns void language plpgsql as $$
declare w int := 1 + floor(random() * warehouses); d int := w * 10 + floor(random() * 10); kind int := floor(random() * 92); home int := d; amount int;
begin
  if kind < 45 then perform drawn_order(w, d, warehouses, customers, items, cut); return; end if;
  if kind >= 88 then perform deliver(w, 1 + floor(random() * 10)::int); return; end if;
  if random() < 0.15 then home := other(w, warehouses) * 10 + floor(random() * 10); end if;
  amount := 100 + floor(random() * 499901);
  if random() < 0.6 then
    perform pay_by_name(w, d, home || ' ' || last_name(nurand(15, 0, customers / 3 - 1)), amount);
  else
    perform pay(w, d, home * 10000000::bigint + nurand(cut, 1, customers), amount);
  end if;
end $$;
