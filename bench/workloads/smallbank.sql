-- SmallBank for PostgreSQL: the tables and procedures of smallbank.app, in the same steps. A call that is refused by its procedure writes nothing and
-- counts in the sequence `refused`, since an exception would end its client.
create table account (name text primary key, customer int not null);
create table saving (customer int primary key, balance bigint not null);
create table checking (customer int primary key, balance bigint not null);
create sequence refused;

create function fill(customers int) returns void language sql as $$
  insert into account select 'customer ' || k, k from generate_series(0, customers - 1) k;
  insert into saving select k, 10000 + floor(random() * 40001) from generate_series(0, customers - 1) k;
  insert into checking select k, 10000 + floor(random() * 40001) from generate_series(0, customers - 1) k;
$$;

create function refuse() returns void language plpgsql as $$ begin perform nextval('refused'); end $$;

create function customer_of(n text) returns int language plpgsql as $$
declare found_customer int;
begin
  select customer into found_customer from account where name = n;
  return found_customer;
end $$;

create function balance(n text) returns bigint language plpgsql as $$
declare c int; s bigint; k bigint;
begin
  c := customer_of(n);
  select balance into s from saving where customer = c;
  select balance into k from checking where customer = c;
  return s + k;
end $$;

create function deposit_checking(n text, amount bigint) returns void language plpgsql as $$
declare c int; k bigint;
begin
  if amount < 0 then perform refuse(); return; end if;
  c := customer_of(n);
  select balance into k from checking where customer = c;
  update checking set balance = k + amount where customer = c;
end $$;

create function transact_saving(n text, amount bigint) returns void language plpgsql as $$
declare c int; s bigint;
begin
  c := customer_of(n);
  select balance into s from saving where customer = c;
  if s + amount < 0 then perform refuse(); return; end if;
  update saving set balance = s + amount where customer = c;
end $$;

create function amalgamate(first text, second text) returns void language plpgsql as $$
declare a int; b int; s bigint; k bigint; d bigint;
begin
  a := customer_of(first);
  b := customer_of(second);
  select balance into s from saving where customer = a;
  select balance into k from checking where customer = a;
  select balance into d from checking where customer = b;
  update saving set balance = 0 where customer = a;
  update checking set balance = 0 where customer = a;
  update checking set balance = d + s + k where customer = b;
end $$;

create function write_check(n text, amount bigint) returns void language plpgsql as $$
declare c int; s bigint; k bigint; cost bigint := amount;
begin
  c := customer_of(n);
  select balance into s from saving where customer = c;
  select balance into k from checking where customer = c;
  if s + k < amount then cost := amount + 1; end if;
  update checking set balance = k - cost where customer = c;
end $$;

create function send_payment(payer text, payee text, amount bigint) returns void language plpgsql as $$
declare a int; b int; k bigint; d bigint;
begin
  a := customer_of(payer);
  b := customer_of(payee);
  select balance into k from checking where customer = a;
  select balance into d from checking where customer = b;
  if k < amount then perform refuse(); return; end if;
  update checking set balance = k - amount where customer = a;
  update checking set balance = d + amount where customer = b;
end $$;
