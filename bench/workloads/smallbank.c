/* SmallBank on SQLite in memory, as sqlite_calls.h says: the tables and procedures of smallbank.app, in the same steps. A customer is a number here. */
#define INSIDE
#include "sqlite_calls.h"

static const char *SCHEMA =
    "create table account (name text primary key, customer int) without rowid;"
    "create table saving (customer integer primary key, balance int);"
    "create table checking (customer integer primary key, balance int);";

enum { ADD_ACCOUNT, ADD_SAVING, ADD_CHECKING, CUSTOMER, SAVINGS, CHECKS, SET_SAVINGS, SET_CHECKS };

static const char *TEXTS[] = {
    "insert into account values (?2, ?1)",
    "insert into saving values (?, ?)",
    "insert into checking values (?, ?)",
    "select customer from account where name = ?",
    "select balance from saving where customer = ?",
    "select balance from checking where customer = ?",
    "update saving set balance = ?2 where customer = ?1",
    "update checking set balance = ?2 where customer = ?1",
};

static void bind_name(int which, int place, long long customer) {
    char name[NAME_ROOM];
    snprintf(name, sizeof name, "customer %lld", customer);
    bind_text(which, place, name);
}

static void open_customer(const long long *given) {
    bind_name(ADD_ACCOUNT, 2, given[0]);
    RUN(ADD_ACCOUNT, given[0]);
    RUN(ADD_SAVING, given[0], given[1]);
    RUN(ADD_CHECKING, given[0], given[2]);
}

static long long customer_of(long long customer) {
    bind_name(CUSTOMER, 1, customer);
    if (!run(CUSTOMER)) stop("no such name");
    return found[0];
}

static long long savings(long long customer) {
    RUN(SAVINGS, customer);
    return found[0];
}

static long long checks(long long customer) {
    RUN(CHECKS, customer);
    return found[0];
}

static void balance(const long long *given) {
    long long customer = customer_of(given[0]);
    savings(customer);
    checks(customer);
}

static void deposit_checking(const long long *given) {
    if (given[1] < 0) { refused++; return; }
    long long customer = customer_of(given[0]), before = checks(customer);
    RUN(SET_CHECKS, customer, before + given[1]);
}

static void transact_saving(const long long *given) {
    long long customer = customer_of(given[0]), after = savings(customer) + given[1];
    if (after < 0) { refused++; return; }
    RUN(SET_SAVINGS, customer, after);
}

static void amalgamate(const long long *given) {
    long long a = customer_of(given[0]), b = customer_of(given[1]);
    long long saved = savings(a), checking = checks(a), before = checks(b);
    RUN(SET_SAVINGS, a, 0);
    RUN(SET_CHECKS, a, 0);
    RUN(SET_CHECKS, b, before + saved + checking);
}

static void write_check(const long long *given) {
    long long customer = customer_of(given[0]), saved = savings(customer), checking = checks(customer);
    RUN(SET_CHECKS, customer, checking - given[1] - (saved + checking < given[1]));
}

static void send_payment(const long long *given) {
    long long a = customer_of(given[0]), b = customer_of(given[1]), paying = checks(a), paid = checks(b);
    if (paying < given[2]) { refused++; return; }
    RUN(SET_CHECKS, a, paying - given[2]);
    RUN(SET_CHECKS, b, paid + given[2]);
}

static const struct procedure PROCEDURES[] = {
    {"open", 3, open_customer}, {"balance", 1, balance}, {"deposit_checking", 2, deposit_checking}, {"transact_saving", 2, transact_saving},
    {"amalgamate", 2, amalgamate}, {"write_check", 2, write_check}, {"send_payment", 3, send_payment},
};

#include "sqlite_calls.h"
