-- The three contracts for PostgreSQL: the tables and procedures of contracts.app, each procedure as one statement.
create table entry (id int primary key, kind int, amount int, note text);
create table part (id int primary key, family int, price int);
create index on part (family);
create table stock (id int primary key, part int, pieces int);
create index on stock (part);
create table joined (id int primary key, family int, total bigint);
create table best (id int primary key, family int, part int, pieces bigint);
create sequence made;
create sequence refused;

create function fill(families int, parts int, stocks int) returns void language sql as $$
  insert into part select k, k / parts, 1 + floor(random() * 1000) from generate_series(0, families * parts - 1) k;
  insert into stock select k, k / stocks, floor(random() * 101) from generate_series(0, families * parts * stocks - 1) k;
$$;

create function simple(kind int, amount int) returns void language sql as $$
  insert into entry select id, kind, amount, 'note ' || id from (select nextval('made') id) n;
$$;

create function complex_join(of_family int) returns void language sql as $$
  insert into joined select nextval('made'), of_family, sum(p.price * s.pieces)
    from part p join stock s on s.part = p.id where p.family = of_family;
$$;

create function complex_group(of_family int) returns void language sql as $$
  insert into best select nextval('made'), of_family, g.id, g.pieces
    from (select p.id, sum(s.pieces) pieces from part p join stock s on s.part = p.id
          where p.family = of_family group by p.id order by pieces desc, p.id limit 1) g;
$$;
