/* Makes calls on SQLite in memory, with prepared statements and one transaction a call, and prints the seconds of a processor that they took, and how
   many their procedure refused. A file of a workload includes this one with INSIDE set, gives SCHEMA, TEXTS and PROCEDURES, and includes it again. Each line of
   standard input is a call: the name of a procedure and its arguments, which are numbers. A line `begin` stands before the first call that is
   timed. All are read before the first is made. */
#ifdef INSIDE
#undef INSIDE
#include <sqlite3.h>
#include <stdio.h>
#include <stdlib.h>
#include <string.h>
#include <time.h>

enum { WORD_ROOM = 24, ARGUMENTS = 16, COLUMNS = 12, NAME_ROOM = 64 };

struct procedure {
    const char *word;
    int arguments;
    void (*make)(const long long *given);
};

/* A call; without a procedure it is the line `begin`. */
struct call {
    const struct procedure *procedure;
    long long given[ARGUMENTS];
};

static sqlite3 *store;
static sqlite3_stmt **statements;
static long long refused;
/* the numbers of the first row that a statement gave */
static long long found[COLUMNS];

static void stop(const char *why) {
    fprintf(stderr, "%s: %s\n", why, store ? sqlite3_errmsg(store) : "no store");
    exit(1);
}

/* Runs a statement to its end, and gives how many rows it had. The first one is then in `found`. */
static int run(int which) {
    sqlite3_stmt *statement = statements[which];
    int rows = 0, step;
    while ((step = sqlite3_step(statement)) == SQLITE_ROW) {
        for (int at = 0; rows == 0 && at < sqlite3_column_count(statement) && at < COLUMNS; at++) found[at] = sqlite3_column_int64(statement, at);
        rows++;
    }
    if (step != SQLITE_DONE) stop("step");
    sqlite3_reset(statement);
    return rows;
}

static int run_bound(int which, const long long *values, size_t count) {
    for (size_t at = 0; at < count; at++) sqlite3_bind_int64(statements[which], (int)at + 1, values[at]);
    return run(which);
}

/* Runs a statement with numbers, from its first parameter on. */
#define RUN(which, ...) run_bound(which, (const long long[]){__VA_ARGS__}, sizeof((const long long[]){__VA_ARGS__}) / sizeof(long long))

static inline void bind_text(int which, int place, const char *text) {
    sqlite3_bind_text(statements[which], place, text, -1, SQLITE_TRANSIENT);
}

#else

enum { PROCEDURE_COUNT = sizeof PROCEDURES / sizeof *PROCEDURES, TEXT_COUNT = sizeof TEXTS / sizeof *TEXTS, BEGIN = TEXT_COUNT, COMMIT, ROLLBACK, ALL };

static const struct procedure *procedure_of(const char *word) {
    for (int at = 0; at < PROCEDURE_COUNT; at++) {
        if (!strcmp(word, PROCEDURES[at].word)) return &PROCEDURES[at];
    }
    return NULL;
}

static int read_call(struct call *call) {
    char word[WORD_ROOM];
    if (scanf("%23s", word) != 1) return 0;
    call->procedure = procedure_of(word);
    if (!call->procedure && strcmp(word, "begin")) stop(word);
    for (int at = 0; call->procedure && at < call->procedure->arguments; at++) {
        if (scanf("%lld", &call->given[at]) != 1) stop(word);
    }
    return 1;
}

static double seconds(void) {
    struct timespec now;
    clock_gettime(CLOCK_PROCESS_CPUTIME_ID, &now);
    return now.tv_sec + now.tv_nsec / 1e9;
}

static void prepare(int which, const char *text) {
    if (sqlite3_prepare_v2(store, text, -1, &statements[which], 0)) stop(text);
}

static void open_store(void) {
    if (sqlite3_open(":memory:", &store)) stop("open");
    if (sqlite3_exec(store, SCHEMA, 0, 0, 0)) stop("create");
    statements = calloc(ALL, sizeof *statements);
    if (!statements) stop("memory");
    for (int which = 0; which < TEXT_COUNT; which++) prepare(which, TEXTS[which]);
    prepare(BEGIN, "begin");
    prepare(COMMIT, "commit");
    prepare(ROLLBACK, "rollback");
}

static void make(const struct call *call) {
    long long before = refused;
    run(BEGIN);
    call->procedure->make(call->given);
    run(refused == before ? COMMIT : ROLLBACK);
}

int main(void) {
    size_t count = 0, room = 1024;
    struct call *calls = malloc(room * sizeof *calls);
    while (calls && read_call(&calls[count])) {
        if (++count == room) calls = realloc(calls, (room *= 2) * sizeof *calls);
    }
    if (!calls) stop("memory");
    open_store();
    double begin = seconds();
    for (size_t number = 0; number < count; number++) {
        if (calls[number].procedure) {
            make(&calls[number]);
        } else {
            begin = seconds();
            refused = 0;
        }
    }
    printf("%.6f %lld\n", seconds() - begin, refused);
    return 0;
}
#endif
