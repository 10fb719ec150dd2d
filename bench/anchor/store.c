// The tables, by statements that are prepared once.
#include "anchor.h"
#include <stdarg.h>
#include <stdio.h>
#include <stdlib.h>

#define NODE "SELECT id, kind, aclflag, owner, grp FROM node WHERE "
static const char *const TEXTS[QUERIES] = {
    [BEGIN] = "BEGIN",
    [COMMIT] = "COMMIT",
    [FIND_SESSION] = "SELECT owner, slots, open FROM session WHERE sid = ?1",
    [ADD_SESSION] = "INSERT INTO session (sid, owner, slots, open) VALUES (?1, ?2, ?3, 1)",
    [FIND_SLOT] = "SELECT seq, request, reply FROM kept WHERE sid = ?1 AND slot = ?2",
    [SET_SLOT] = "UPDATE kept SET seq = ?3, request = ?4, reply = ?5 WHERE sid = ?1 AND slot = ?2",
    [ADD_SLOT] = "INSERT INTO kept (sid, slot, seq, request, reply) VALUES (?1, ?2, ?3, ?4, ?5)",
    [FIND_ROOT] = NODE "id = 1",
    [FIND_CHILD] = NODE "parent = ?1 AND name = ?2",
    [CHILDREN] = NODE "parent = ?1",
    [COUNT_CHILDREN] = "SELECT count(*) FROM node WHERE parent = ?1",
    [NAMES] = "SELECT name, kind FROM node WHERE parent = ?1 ORDER BY name",
    [ENTRIES] = "SELECT type, flag, mask, who FROM entry WHERE node = ?1 ORDER BY place",
    [DROP_ENTRIES] = "DELETE FROM entry WHERE node = ?1",
    [ADD_ENTRY] = "INSERT INTO entry (node, place, type, flag, mask, who) VALUES (?1, ?2, ?3, ?4, ?5, ?6)",
    [SET_ACLFLAG] = "UPDATE node SET aclflag = ?2 WHERE id = ?1",
    [FIND_NEXT] = "SELECT next FROM room WHERE one = 1",
    [SET_NEXT] = "UPDATE room SET next = ?1 WHERE one = 1",
    [ADD_NODE] = "INSERT INTO node (id, parent, name, kind, owner, grp, aclflag) VALUES (?1, ?2, ?3, ?4, ?5, ?6, 1)",
    [MOVE_NODE] = "UPDATE node SET parent = ?2, name = ?3 WHERE id = ?1",
    [FIND_BYTES] = "SELECT bytes FROM doc WHERE node = ?1",
    [FIND_SIZE] = "SELECT length(bytes) FROM doc WHERE node = ?1",
    [ADD_BYTES] = "INSERT INTO doc (node, bytes) VALUES (?1, ?2)",
    [SET_BYTES] = "UPDATE doc SET bytes = ?2 WHERE node = ?1",
};
static sqlite3 *store;
static sqlite3_stmt *prepared[QUERIES];

_Noreturn void fail(const char *what)
{
    fprintf(stderr, "anchor: %s: %s\n", what, store ? sqlite3_errmsg(store) : "");
    exit(1);
}

void open_store(const char *file)
{
    const char *how = "PRAGMA journal_mode = WAL; PRAGMA synchronous = FULL; PRAGMA foreign_keys = ON";
    if (sqlite3_open_v2(file, &store, SQLITE_OPEN_READWRITE, 0) || sqlite3_exec(store, how, 0, 0, 0))
        fail(file);
    for (enum query it = 0; it < QUERIES; it++)
        if (sqlite3_prepare_v3(store, TEXTS[it], -1, SQLITE_PREPARE_PERSISTENT, &prepared[it], 0))
            fail(TEXTS[it]);
}

sqlite3_stmt *ask(enum query query, const char *form, ...)
{
    sqlite3_stmt *it = prepared[query];
    va_list values;
    va_start(values, form);
    for (int at = 1; *form; form++, at++) {
        if (*form == 'n') {
            sqlite3_bind_int64(it, at, va_arg(values, sqlite3_int64));
        } else if (*form == 't') {
            sqlite3_bind_text(it, at, va_arg(values, const char *), -1, SQLITE_STATIC);
        } else {
            struct piece one = va_arg(values, struct piece);
            if (*form == 'p')
                sqlite3_bind_text(it, at, one.at, (int)one.length, SQLITE_STATIC);
            else
                sqlite3_bind_blob(it, at, one.length ? one.at : "", (int)one.length, SQLITE_STATIC);
        }
    }
    va_end(values);
    return it;
}

bool row(sqlite3_stmt *it)
{
    int told = sqlite3_step(it);
    if (told != SQLITE_ROW && told != SQLITE_DONE)
        fail(sqlite3_sql(it));
    return told == SQLITE_ROW;
}

void done(sqlite3_stmt *it)
{
    sqlite3_reset(it);
}

int run(sqlite3_stmt *it)
{
    row(it);
    done(it);
    return sqlite3_changes(store);
}

struct piece bytes_at(sqlite3_stmt *it, int column)
{
    const char *at = sqlite3_column_blob(it, column);
    return (struct piece){at, (size_t)sqlite3_column_bytes(it, column)};
}
