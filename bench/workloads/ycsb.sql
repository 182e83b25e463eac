-- YCSB for PostgreSQL: the table and procedures of ycsb.app. pgbench has no zipfian draw with the constant 0.99, so 100,000 places are drawn before and stand
-- in the table `drawn`; a call names one of them.
create table usertable (key_number int primary key, field0 text, field1 text, field2 text, field3 text, field4 text,
  field5 text, field6 text, field7 text, field8 text, field9 text);
create table drawn (n int primary key, place int);
create sequence made;
create sequence refused;

create function add(number int) returns void language sql as $$
  insert into usertable select number, v, v, v, v, v, v, v, v, v, v from (select repeat(chr(97 + number % 26), 100) v) t;
$$;

create function fill(records int, theta float) returns void language plpgsql as $$
begin
  perform add(k) from generate_series(0, records - 1) k;
  create temp table sums as select k - 1 place, sum(1 / k ^ theta) over (order by k) upto from generate_series(1, records) k;
  create index on sums (upto);
  insert into drawn select n, (select place from sums where upto >= r order by upto limit 1)
    from (select n, random() * (select max(upto) from sums) r from generate_series(1, 100000) n) t;
  perform setval('made', records);
end $$;

-- The key of a draw: the popular ones are scattered, or the newest.
create function key_of(draw int, newest int, records int) returns int language plpgsql as $$
declare p int;
begin
  select place into p from drawn where n = draw;
  if newest = 1 then return (select last_value from made) - 1 - p; end if;
  return abs(hashint4(p)::bigint) % records;
end $$;

create function read(number int) returns void language plpgsql as $$
declare r usertable;
begin
  select * into r from usertable where key_number = number;
end $$;

create function scan(first int, count int) returns void language plpgsql as $$
declare r usertable;
begin
  for r in select * from usertable where key_number between first and first + count - 1 loop end loop;
end $$;

create function change(number int, field int, value text) returns void language plpgsql as $$
begin
  if field = 0 then update usertable set field0 = value where key_number = number; end if;
  if field = 1 then update usertable set field1 = value where key_number = number; end if;
  if field = 2 then update usertable set field2 = value where key_number = number; end if;
  if field = 3 then update usertable set field3 = value where key_number = number; end if;
  if field = 4 then update usertable set field4 = value where key_number = number; end if;
  if field = 5 then update usertable set field5 = value where key_number = number; end if;
  if field = 6 then update usertable set field6 = value where key_number = number; end if;
  if field = 7 then update usertable set field7 = value where key_number = number; end if;
  if field = 8 then update usertable set field8 = value where key_number = number; end if;
  if field = 9 then update usertable set field9 = value where key_number = number; end if;
end $$;

create function read_modify_write(number int, field int, value text) returns void language plpgsql as $$
begin
  perform read(number);
  perform change(number, field, value);
end $$;

create function insert_next() returns void language plpgsql as $$ begin perform add((nextval('made') - 1)::int); end $$;
