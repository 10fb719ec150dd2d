// A room served by C over libsqlite3, written by hand: what the speed of the program is measured by (bench/side).
//
// It keeps the program's tables (docs/TABLES.md) with a write-ahead log and full synchronisation, speaks its wire
// (docs/WIRE.md) and decides by its lists (docs/LISTS.md): OPEN, and in a slot MKDIR, CREATE, READ, APPEND, STAT,
// LIST, SETLIST and RENAME, each of them one transaction with its slot's row. It serves one user, one connection at a
// time. Where memory or the store fails it ends. A text with an escape it refuses; that one is UTF-8 it does not look
// at.
#include <sqlite3.h>
#include <stdbool.h>
#include <stddef.h>

enum {
    MAX_HEAD = 8192, MAX_BODY = 131072, MAX_BYTES = 65536, MAX_NAMES = 16, MAX_NAME = 64, MAX_CHILDREN = 256,
    MAX_MADE = 1000000, MAX_OWN = 32, MAX_ENTRIES = 17 * MAX_OWN, WHO = 33
};
enum { ALLOW, DENY };
enum { FILE_INHERIT = 1, FOLDER_INHERIT = 2, NO_PROPAGATE = 4, INHERIT_ONLY = 8, GROUP_NAME = 0x40, MARK = 0x80 };
enum {
    READ_DATA = 1, ADD_FILE = 2, APPEND_DATA = 4, ADD_FOLDER = 4, EXECUTE = 0x20, DELETE_CHILD = 0x40,
    READ_ATTRIBUTES = 0x80, DELETE = 0x10000, OWNER_RIGHTS = 0x60000, WRITE_ACL = 0x40000, ALL_RIGHTS = 0x1F07FF
};
enum { NOENT = 1, NOTDIR, ISDIR, EXIST, ACCESS, INVAL = 7, ATTRNOTSUPP, FBIG, TOO_DEEP, FOLDER_FULL, ROOM_FULL };

struct piece {  // bytes that are somebody else's
    const char *at;
    size_t length;
};
struct text {  // bytes that grow, and are used again
    char *at;
    size_t length, room;
};
struct entry {
    int type, flag, mask;
    char who[WHO];
};
struct list {
    int count;
    struct entry entries[MAX_ENTRIES];
};
enum kind { MKDIR, CREATE, READ, APPEND, STAT, LIST, SETLIST, RENAME, KINDS };
struct path {
    struct piece whole, names[MAX_NAMES];
    int depth;
};
struct command {
    enum kind kind;
    int aclflag;
    struct path path, to;
    struct piece data;
    struct text bytes;  // what `data` says in base64
    struct list list;
};

// text.c
void put(struct text *to, const void *at, size_t length);
void put_text(struct text *to, const char *it);
void put_form(struct text *to, const char *form, ...);  // of 255 bytes at most
void put_base64(struct text *to, struct piece bytes);
bool read_base64(struct text *to, struct piece it);
bool is(struct piece it, const char *text);

// command.c
bool read_command(struct piece body, struct command *to);
void put_command(struct text *to, const struct command *it);

// store.c
enum query {
    BEGIN, COMMIT, FIND_SESSION, ADD_SESSION, FIND_SLOT, SET_SLOT, ADD_SLOT, FIND_ROOT, FIND_CHILD, CHILDREN,
    COUNT_CHILDREN, NAMES, ENTRIES, DROP_ENTRIES, ADD_ENTRY, SET_ACLFLAG, FIND_NEXT, SET_NEXT, ADD_NODE, MOVE_NODE,
    FIND_BYTES, FIND_SIZE, ADD_BYTES, SET_BYTES, QUERIES
};
void open_store(const char *file);
sqlite3_stmt *ask(enum query it, const char *form, ...);  // n a number, t a text, p a piece of one, b of bytes
bool row(sqlite3_stmt *it);
void done(sqlite3_stmt *it);
int run(sqlite3_stmt *it);  // how many rows it changed
struct piece bytes_at(sqlite3_stmt *it, int column);
_Noreturn void fail(const char *what);

// room.c
struct caller {
    const char *user;
    char **groups;
    int count;
};
void do_command(const struct caller *caller, const struct command *it, struct text *reply);
