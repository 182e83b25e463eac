/* TPC-C's NewOrder, Payment and Delivery on SQLite in memory, as sqlite_calls.h says: the tables and procedures of tpcc.app, in the same steps. A last name
   is a number here, from which its text is made. */
#define INSIDE
#include "sqlite_calls.h"

static const char *SCHEMA =
    "create table warehouse (id integer primary key, name text, tax int, paid int);"
    "create table district (id integer primary key, warehouse int, name text, tax int, paid int, next_order int);"
    "create table oldest (district integer primary key, warehouse int, nr int); create index of_warehouse on oldest (warehouse);"
    "create table customer (id integer primary key, district int, first text, last text, name_group text, credit text, discount int, balance int,"
    " paid int, payments int, deliveries int); create index of_name on customer (name_group);"
    "create table history (customer int, payment int, district int, happened int, amount int, primary key (customer, payment)) without rowid;"
    "create table item (id integer primary key, name text, price int);"
    "create table stock (warehouse int, item int, quantity int, sold int, orders int, remote int, primary key (warehouse, item)) without rowid;"
    "create table orders (id integer primary key, customer int, entered int, carrier int, lines int, is_local int);"
    "create table new_order (id integer primary key);"
    "create table order_line (orders int, nr int, item int, supplier int, delivered int, quantity int, amount int, primary key (orders, nr)) without rowid;";

enum {
    ADD_ITEM, ADD_WAREHOUSE, ADD_STOCK, ADD_DISTRICT, ADD_OLDEST, ADD_CUSTOMER, WAREHOUSE, DISTRICT, CUSTOMER, NEXT_ORDER, ADD_ORDER, ADD_NEW_ORDER,
    ITEM, STOCK, SET_STOCK, ADD_LINE, PAY_WAREHOUSE, PAY_DISTRICT, PAY_CUSTOMER, ADD_HISTORY, COUNT_NAME, MIDDLE, OLDEST, IS_NEW, ORDER, DELIVER_LINES,
    SUM_LINES, DROP_NEW, SET_CARRIER, DELIVER_CUSTOMER, SET_OLDEST
};

static const char *TEXTS[] = {
    "insert into item values (?1, 'item ' || ?1, ?2)",
    "insert into warehouse values (?1, 'warehouse ' || ?1, ?2, 0)",
    "insert into stock values (?, ?, ?, 0, 0, 0)",
    "insert into district values (?1, ?2, 'district ' || ?1, ?3, 0, 1)",
    "insert into oldest values (?1, ?2, 1)",
    "insert into customer values (?1, ?2, 'first ' || ?1, ?4, ?4, 'GC', ?3, -1000, 1000, 1, 0)",
    "select tax, paid from warehouse where id = ?",
    "select tax, paid, next_order from district where id = ?",
    "select discount, balance, paid, payments from customer where id = ?",
    "update district set next_order = ?2 where id = ?1",
    "insert into orders values (?, ?, 0, 0, ?, ?)",
    "insert into new_order values (?)",
    "select price from item where id = ?",
    "select quantity, sold, orders, remote from stock where warehouse = ? and item = ?",
    "update stock set quantity = ?3, sold = ?4, orders = ?5, remote = ?6 where warehouse = ?1 and item = ?2",
    "insert into order_line values (?, ?, ?, ?, 0, ?, ?)",
    "update warehouse set paid = ?2 where id = ?1",
    "update district set paid = ?2 where id = ?1",
    "update customer set balance = ?2, paid = ?3, payments = ?4 where id = ?1",
    "insert into history values (?, ?, ?, 0, ?)",
    "select count(*) from customer where name_group = ?1",
    "select id from customer where name_group = ?1 order by id limit 1 offset ?2",
    "select nr from oldest where district = ?",
    "select 1 from new_order where id = ?",
    "select customer from orders where id = ?",
    "update order_line set delivered = 1 where orders = ?",
    "select sum(amount) from order_line where orders = ?",
    "delete from new_order where id = ?",
    "update orders set carrier = ?2 where id = ?1",
    "update customer set balance = balance + ?2, deliveries = deliveries + 1 where id = ?1",
    "update oldest set nr = ?2 where district = ?1",
};

enum { OWN = 10000000, HALF = 31 };

static void bind_group(int which, int place, long long district, long long name) {
    char text[NAME_ROOM];
    snprintf(text, sizeof text, "%lld name %lld", district, name);
    bind_text(which, place, text);
}

static void add_item(const long long *given) { RUN(ADD_ITEM, given[0], given[1]); }
static void add_warehouse(const long long *given) { RUN(ADD_WAREHOUSE, given[0], given[1]); }
static void add_stock(const long long *given) { RUN(ADD_STOCK, given[0], given[1], given[2]); }

static void add_district(const long long *given) {
    RUN(ADD_DISTRICT, given[0], given[1], given[2]);
    RUN(ADD_OLDEST, given[0], given[1]);
}

static void add_customer(const long long *given) {
    bind_group(ADD_CUSTOMER, 4, given[1], given[2]);
    RUN(ADD_CUSTOMER, given[0], given[1], given[3]);
}

/* Whether a line of an order could be added: its item is there. */
static int add_line(long long order, long long nr, long long warehouse, long long line) {
    long long item = line / 16384, supplier = line / 16 % 1024, quantity = line % 16;
    if (!RUN(ITEM, item)) return 0;
    long long price = found[0];
    if (!RUN(STOCK, supplier, item)) return 0;
    long long left = found[0] - quantity;
    RUN(SET_STOCK, supplier, item, left < 10 ? left + 91 : left, found[1] + quantity, found[2] + 1, found[3] + (supplier != warehouse));
    RUN(ADD_LINE, order, nr, item, supplier, quantity, quantity * price);
    return 1;
}

static void new_order(const long long *given) {
    RUN(WAREHOUSE, given[0]);
    RUN(CUSTOMER, given[2]);
    RUN(DISTRICT, given[1]);
    long long next = found[2], order = given[1] * OWN + next;
    RUN(NEXT_ORDER, given[1], next + 1);
    RUN(ADD_ORDER, order, given[2], given[3], given[4]);
    RUN(ADD_NEW_ORDER, order);
    for (long long nr = 0; nr < given[3]; nr++) {
        long long both = given[5 + nr / 2], line = nr % 2 ? both >> HALF : both & ((1LL << HALF) - 1);
        if (!add_line(order, nr + 1, given[0], line)) { refused++; return; }
    }
}

static void pay(long long warehouse, long long district, long long customer, long long amount) {
    RUN(WAREHOUSE, warehouse);
    RUN(PAY_WAREHOUSE, warehouse, found[1] + amount);
    RUN(DISTRICT, district);
    RUN(PAY_DISTRICT, district, found[1] + amount);
    RUN(CUSTOMER, customer);
    long long payments = found[3];
    RUN(PAY_CUSTOMER, customer, found[1] - amount, found[2] + amount, payments + 1);
    RUN(ADD_HISTORY, customer, payments, district, amount);
}

static void payment(const long long *given) { pay(given[0], given[1], given[2], given[3]); }

static void payment_by_name(const long long *given) {
    bind_group(COUNT_NAME, 1, given[2], given[3]);
    run(COUNT_NAME);
    if (!found[0]) { refused++; return; }
    bind_group(MIDDLE, 1, given[2], given[3]);
    sqlite3_bind_int64(statements[MIDDLE], 2, (found[0] + 1) / 2 - 1);
    run(MIDDLE);
    pay(given[0], given[1], found[0], given[4]);
}

static void deliver(long long district, long long carrier) {
    RUN(OLDEST, district);
    long long nr = found[0], order = district * OWN + nr;
    if (!RUN(IS_NEW, order)) return;
    RUN(ORDER, order);
    long long customer = found[0];
    RUN(DELIVER_LINES, order);
    RUN(SUM_LINES, order);
    RUN(DELIVER_CUSTOMER, customer, found[0]);
    RUN(DROP_NEW, order);
    RUN(SET_CARRIER, order, carrier);
    RUN(SET_OLDEST, district, nr + 1);
}

static void delivery(const long long *given) {
    for (int own = 0; own < 10; own++) deliver(given[0] * 10 + own, given[1]);
}

static const struct procedure PROCEDURES[] = {
    {"add_item", 2, add_item}, {"add_warehouse", 2, add_warehouse}, {"add_stock", 3, add_stock}, {"add_district", 3, add_district},
    {"add_customer", 4, add_customer}, {"new_order", 13, new_order}, {"payment", 4, payment}, {"payment_by_name", 5, payment_by_name},
    {"delivery", 2, delivery},
};

#include "sqlite_calls.h"
