/* Makes calls on accounts in SQLite in memory, with prepared statements and one transaction a call, and prints the seconds of a
   processor that the calls took. The first line of standard input is the number of accounts. Each further line is a call: "add KEY
   OWNER BALANCE", "pay KEY KEY AMOUNT", "sweep OWNER" or "drop KEY". All are read before the first is timed. peers.py builds it. */
#include <sqlite3.h>
#include <stdio.h>
#include <stdlib.h>
#include <string.h>
#include <time.h>

enum { ROWS_OF_AN_OWNER = 100, FIRST_BALANCE = 1000000, OWNER_ROOM = 32, WORD_ROOM = 8 };

struct call {
    char kind;
    long long first, second, third;
    char owner[OWNER_ROOM];
};

enum statement { BEGIN, COMMIT, ADD, GET, SET, SUM, DROP, STATEMENTS };

static const char *TEXTS[STATEMENTS] = {
    "begin",
    "commit",
    "insert into acct values (?, ?, ?)",
    "select bal from acct where id = ?",
    "update acct set bal = ? where id = ?",
    "select sum(bal) from acct where owner = ?",
    "delete from acct where id = ?",
};

static sqlite3 *store;
static sqlite3_stmt *statements[STATEMENTS];

static void stop(const char *why) {
    fprintf(stderr, "%s: %s\n", why, store ? sqlite3_errmsg(store) : "no store");
    exit(1);
}

static sqlite3_stmt *bound(enum statement which, long long first) {
    sqlite3_bind_int64(statements[which], 1, first);
    return statements[which];
}

/* Runs a statement to its end, and gives the number in its first row, if it has one. */
static long long run(sqlite3_stmt *statement) {
    long long found = 0;
    int step = sqlite3_step(statement);
    if (step == SQLITE_ROW) {
        found = sqlite3_column_int64(statement, 0);
        step = sqlite3_step(statement);
    }
    if (step != SQLITE_DONE) stop("step");
    sqlite3_reset(statement);
    return found;
}

static void add(long long key, const char *owner, long long balance) {
    sqlite3_bind_text(statements[ADD], 2, owner, -1, SQLITE_STATIC);
    sqlite3_bind_int64(statements[ADD], 3, balance);
    run(bound(ADD, key));
}

static void change(long long key, long long amount) {
    long long balance = run(bound(GET, key));
    sqlite3_bind_int64(statements[SET], 2, key);
    run(bound(SET, balance + amount));
}

static void make(const struct call *call) {
    run(statements[BEGIN]);
    if (call->kind == 'a') {
        add(call->first, call->owner, call->second);
    } else if (call->kind == 'p') {
        change(call->first, -call->third);
        change(call->second, call->third);
    } else if (call->kind == 's') {
        sqlite3_bind_text(statements[SUM], 1, call->owner, -1, SQLITE_STATIC);
        run(statements[SUM]);
    } else {
        run(bound(DROP, call->first));
    }
    run(statements[COMMIT]);
}

static int read_call(struct call *call) {
    char word[WORD_ROOM];
    if (scanf("%7s", word) != 1) return 0;
    call->kind = word[0];
    if (word[0] == 'a') return scanf("%lld %31s %lld", &call->first, call->owner, &call->second) == 3;
    if (word[0] == 'p') return scanf("%lld %lld %lld", &call->first, &call->second, &call->third) == 3;
    if (word[0] == 's') return scanf("%31s", call->owner) == 1;
    return scanf("%lld", &call->first) == 1;
}

static void open_store(void) {
    if (sqlite3_open(":memory:", &store)) stop("open");
    if (sqlite3_exec(store, "create table acct (id integer primary key, owner text, bal integer); create index by_owner on acct (owner)", 0, 0, 0)) {
        stop("create");
    }
    for (int which = 0; which < STATEMENTS; which++) {
        if (sqlite3_prepare_v2(store, TEXTS[which], -1, &statements[which], 0)) stop(TEXTS[which]);
    }
}

static void add_accounts(long long accounts) {
    char owner[OWNER_ROOM];
    run(statements[BEGIN]);
    for (long long key = 0; key < accounts; key++) {
        snprintf(owner, sizeof owner, "owner%lld", key / ROWS_OF_AN_OWNER);
        add(key, owner, FIRST_BALANCE);
    }
    run(statements[COMMIT]);
}

static double seconds(void) {
    struct timespec now;
    clock_gettime(CLOCK_PROCESS_CPUTIME_ID, &now);
    return now.tv_sec + now.tv_nsec / 1e9;
}

int main(void) {
    long long accounts;
    size_t count = 0, room = 1024;
    struct call *calls = malloc(room * sizeof *calls);
    if (!calls || scanf("%lld", &accounts) != 1) stop("input");
    while (read_call(&calls[count])) {
        if (++count < room) continue;
        calls = realloc(calls, (room *= 2) * sizeof *calls);
        if (!calls) stop("memory");
    }
    open_store();
    add_accounts(accounts);
    double begin = seconds();
    for (size_t number = 0; number < count; number++) make(&calls[number]);
    printf("%.6f\n", seconds() - begin);
    return 0;
}
