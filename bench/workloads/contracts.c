/* The three contracts on SQLite in memory, as sqlite_calls.h says: the tables of contracts.app, and each procedure as one statement. */
#define INSIDE
#include "sqlite_calls.h"

static const char *SCHEMA =
    "create table entry (id integer primary key, kind int, amount int, note text);"
    "create table part (id integer primary key, family int, price int); create index by_family on part (family);"
    "create table stock (id integer primary key, part int, pieces int); create index by_part on stock (part);"
    "create table joined (id integer primary key, family int, total int);"
    "create table best (id integer primary key, family int, part int, pieces int);";

enum { ADD_PART, ADD_STOCK, SIMPLE, JOIN, GROUP };

static const char *TEXTS[] = {
    "insert into part values (?, ?, ?)",
    "insert into stock values (?, ?, ?)",
    "insert into entry values (?1, ?2, ?3, 'note ' || ?1)",
    "insert into joined select ?1, ?2, sum(p.price * s.pieces) from part p join stock s on s.part = p.id where p.family = ?2",
    "insert into best select ?1, ?2, g.id, g.pieces from (select p.id, sum(s.pieces) pieces from part p join stock s on s.part = p.id "
    "where p.family = ?2 group by p.id order by pieces desc, p.id limit 1) g",
};

static void add_part(const long long *given) { RUN(ADD_PART, given[0], given[1], given[2]); }
static void add_stock(const long long *given) { RUN(ADD_STOCK, given[0], given[1], given[2]); }
static void simple(const long long *given) { RUN(SIMPLE, given[0], given[1], given[2]); }
static void complex_join(const long long *given) { RUN(JOIN, given[0], given[1]); }
static void complex_group(const long long *given) { RUN(GROUP, given[0], given[1]); }

static const struct procedure PROCEDURES[] = {
    {"add_part", 3, add_part}, {"add_stock", 3, add_stock}, {"simple", 3, simple}, {"complex_join", 2, complex_join}, {"complex_group", 2, complex_group},
};

#include "sqlite_calls.h"
