/* YCSB on SQLite in memory, as sqlite_calls.h says: the table and procedures of ycsb.app. The text of a field is one letter, by its number, 100 times. */
#define INSIDE
#include "sqlite_calls.h"

enum { FIELD_BYTES = 100, FIELDS = 10 };
enum { ADD, READ, SCAN, CHANGE };

static const char *SCHEMA =
    "create table usertable (key_number integer primary key, field0 text, field1 text, field2 text, field3 text, field4 text,"
    " field5 text, field6 text, field7 text, field8 text, field9 text);";

static const char *TEXTS[] = {
    "insert into usertable values (?, ?, ?, ?, ?, ?, ?, ?, ?, ?, ?)",
    "select * from usertable where key_number = ?",
    "select * from usertable where key_number between ?1 and ?1 + ?2 - 1",
    "update usertable set field0 = ?2 where key_number = ?1",
    "update usertable set field1 = ?2 where key_number = ?1",
    "update usertable set field2 = ?2 where key_number = ?1",
    "update usertable set field3 = ?2 where key_number = ?1",
    "update usertable set field4 = ?2 where key_number = ?1",
    "update usertable set field5 = ?2 where key_number = ?1",
    "update usertable set field6 = ?2 where key_number = ?1",
    "update usertable set field7 = ?2 where key_number = ?1",
    "update usertable set field8 = ?2 where key_number = ?1",
    "update usertable set field9 = ?2 where key_number = ?1",
};

static void bind_value(int which, int place, long long letter) {
    char value[FIELD_BYTES + 1];
    memset(value, (int)letter, FIELD_BYTES);
    value[FIELD_BYTES] = 0;
    bind_text(which, place, value);
}

static void add(const long long *given) {
    for (int field = 0; field < FIELDS; field++) bind_value(ADD, 2 + field, given[1]);
    RUN(ADD, given[0]);
}

/* Looks at each text of each row, since `run` looks at numbers of the first one alone. */
static void look(int which) {
    sqlite3_stmt *statement = statements[which];
    while (sqlite3_step(statement) == SQLITE_ROW) {
        for (int field = 1; field <= FIELDS; field++) sqlite3_column_text(statement, field);
    }
    sqlite3_reset(statement);
}

static void read_record(const long long *given) {
    sqlite3_bind_int64(statements[READ], 1, given[0]);
    look(READ);
}

static void scan(const long long *given) {
    sqlite3_bind_int64(statements[SCAN], 1, given[0]);
    sqlite3_bind_int64(statements[SCAN], 2, given[1]);
    look(SCAN);
}

static void change(const long long *given) {
    bind_value(CHANGE + (int)given[1], 2, given[2]);
    RUN(CHANGE + (int)given[1], given[0]);
}

static void read_modify_write(const long long *given) {
    read_record(given);
    change(given);
}

static const struct procedure PROCEDURES[] = {
    {"add", 2, add}, {"read", 1, read_record}, {"scan", 2, scan}, {"change", 3, change}, {"read_modify_write", 3, read_modify_write},
};

#include "sqlite_calls.h"
