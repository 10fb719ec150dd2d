// What each command does: the walk, the rights, and the rows.
#include "anchor.h"
#include <string.h>

typedef sqlite3_int64 number;
static const char *const REFUSALS[] = {
    [NOENT] = "NOENT", [NOTDIR] = "NOTDIR", [ISDIR] = "ISDIR", [EXIST] = "EXIST", [INVAL] = "INVAL",
    [ATTRNOTSUPP] = "ATTRNOTSUPP", [FBIG] = "FBIG", [TOO_DEEP] = "TOO_DEEP", [FOLDER_FULL] = "FOLDER_FULL",
    [ROOM_FULL] = "ROOM_FULL"
};

struct node {
    number id;
    int kind, aclflag;  // kind 1 is a folder
    char owner[WHO], group[WHO];
};
struct asked {  // a command of a caller, and its reply
    const struct caller *caller;
    const struct command *it;
    struct text *reply;
    const struct path *path;  // the one that is walked
};

static bool refuse(struct asked *by, int code)
{
    put_form(by->reply, "{\"code\":%d,\"error\":\"%s\"}", code, REFUSALS[code]);
    return false;
}

static void read_node(struct node *to, sqlite3_stmt *from)
{
    to->id = sqlite3_column_int64(from, 0);
    to->kind = sqlite3_column_int(from, 1);
    to->aclflag = sqlite3_column_int(from, 2);
    strcpy(to->owner, (const char *)sqlite3_column_text(from, 3));
    strcpy(to->group, (const char *)sqlite3_column_text(from, 4));
}

static bool find(struct node *to, sqlite3_stmt *from)
{
    bool there = row(from);
    if (there)
        read_node(to, from);
    done(from);
    return there;
}

static number find_number(sqlite3_stmt *from)
{
    number it = row(from) ? sqlite3_column_int64(from, 0) : 0;
    done(from);
    return it;
}

static bool is_in(const struct caller *caller, const char *group)
{
    for (int n = 0; n < caller->count; n++)
        if (!strcmp(caller->groups[n], group))
            return true;
    return false;
}

static bool applies(const struct caller *caller, const struct node *to, int flag, const char *who)
{
    if (flag & INHERIT_ONLY)
        return false;
    if (!strcmp(who, "OWNER@"))
        return !strcmp(caller->user, to->owner);
    if (!strcmp(who, "GROUP@"))
        return is_in(caller, to->group);
    if (!strcmp(who, "EVERYONE@"))
        return true;
    return flag & GROUP_NAME ? is_in(caller, who) : !strcmp(caller->user, who);
}

// The lowest of the wanted rights that an object's list does not allow, or 0. It reads no more entries than it takes.
static int missing(const struct caller *caller, const struct node *it, int wanted)
{
    int open = strcmp(caller->user, it->owner) ? wanted : wanted & ~OWNER_RIGHTS, denied = 0;
    sqlite3_stmt *entry = ask(ENTRIES, "n", it->id);
    while (open && row(entry))
        if (applies(caller, it, sqlite3_column_int(entry, 1), (const char *)sqlite3_column_text(entry, 3))) {
            int named = open & sqlite3_column_int(entry, 2);
            open &= ~named;
            denied |= sqlite3_column_int(entry, 0) == DENY ? named : 0;
        }
    done(entry);
    return (denied | open) & -(denied | open);
}

// The refusal for a right on the object at the first names of the path.
static bool deny(struct asked *by, int depth, int bit)
{
    const struct piece *last = depth ? &by->path->names[depth - 1] : 0;
    const char *begin = by->path->whole.at;
    put_form(by->reply, "{\"bit\":%d,\"code\":%d,\"error\":\"ACCESS\",\"path\":\"", bit, ACCESS);
    put(by->reply, begin, last ? (size_t)(last->at + last->length - begin) : 1);
    put_text(by->reply, "\"}");
    return false;
}

// Whether its list allows a right.
static bool may(struct asked *by, const struct node *it, int depth, int wanted)
{
    int bit = missing(by->caller, it, wanted);
    return !bit || deny(by, depth, bit);
}

// The folder that the path's last name is in. The root is in none.
static bool walk(struct asked *by, struct node *folder)
{
    find(folder, ask(FIND_ROOT, ""));
    for (int depth = 0; depth < by->path->depth; depth++) {
        if (depth && !find(folder, ask(FIND_CHILD, "np", folder->id, by->path->names[depth - 1])))
            return refuse(by, NOENT);
        if (!folder->kind)
            return refuse(by, NOTDIR);
        if (!may(by, folder, depth, EXECUTE))
            return false;
    }
    return true;
}

// The object at the path, and the folder that it is in.
static bool find_object(struct asked *by, struct node *folder, struct node *it)
{
    int depth = by->path->depth;
    if (!walk(by, folder))
        return false;
    *it = *folder;
    return !depth || find(it, ask(FIND_CHILD, "np", folder->id, by->path->names[depth - 1])) || refuse(by, NOENT);
}

static bool find_file(struct asked *by, struct node *it, int wanted)
{
    struct node folder;
    return find_object(by, &folder, it) && (!it->kind || refuse(by, ISDIR)) && may(by, it, by->path->depth, wanted);
}

static void read_list(struct list *to, number id)
{
    sqlite3_stmt *from = ask(ENTRIES, "n", id);
    for (to->count = 0; to->count < MAX_ENTRIES && row(from); to->count++) {
        struct entry *it = &to->entries[to->count];
        it->type = sqlite3_column_int(from, 0);
        it->flag = sqlite3_column_int(from, 1);
        it->mask = sqlite3_column_int(from, 2);
        strcpy(it->who, (const char *)sqlite3_column_text(from, 3));
    }
    done(from);
}

// The flag of an entry as a child gets it, 0 where it gets none.
static int handed_down(int flag, int kind)
{
    int to_files = flag & FILE_INHERIT, to_folders = flag & FOLDER_INHERIT, kept = MARK | (flag & GROUP_NAME);
    if (!kind)
        return to_files ? kept : 0;
    if (flag & NO_PROPAGATE)
        return to_folders ? kept : 0;
    return to_folders ? kept | to_folders | to_files : to_files ? kept | INHERIT_ONLY | FILE_INHERIT : 0;
}

static void inherit(struct list *to, const struct list *above, int kind)
{
    for (int n = 0; n < above->count; n++) {
        int flag = handed_down(above->entries[n].flag, kind);
        if (flag && to->count < MAX_ENTRIES) {
            to->entries[to->count] = above->entries[n];
            to->entries[to->count++].flag = flag;
        }
    }
}

// The own entries of a list, and what the list above hands down.
static void follow(struct list *to, const struct list *was, const struct list *above, int kind)
{
    for (to->count = 0; to->count < was->count && !(was->entries[to->count].flag & MARK); to->count++)
        to->entries[to->count] = was->entries[to->count];
    inherit(to, above, kind);
}

static void add_list(number id, const struct list *it)
{
    for (int n = 0; n < it->count; n++) {
        const struct entry *one = &it->entries[n];
        run(ask(ADD_ENTRY, "nnnnnt", id, (number)n, (number)one->type, (number)one->flag, (number)one->mask, one->who));
    }
}

static bool differs(const struct list *a, const struct list *b)
{
    for (int n = 0; n < a->count && a->count == b->count; n++) {
        const struct entry *one = &a->entries[n], *other = &b->entries[n];
        if (one->type != other->type || one->flag != other->flag || one->mask != other->mask
            || strcmp(one->who, other->who))
            return true;
    }
    return a->count != b->count;
}

// Puts a list that has changed, and those below it that change with it.
static void renew(number id, int kind, const struct list *it)
{
    struct node below[MAX_CHILDREN];
    struct list was, now;
    int count = 0;
    run(ask(DROP_ENTRIES, "n", id));
    add_list(id, it);
    sqlite3_stmt *child = ask(CHILDREN, "n", id);
    while (kind && count < MAX_CHILDREN && row(child))
        read_node(&below[count++], child);
    done(child);
    for (int n = 0; n < count; n++) {
        if ((below[n].aclflag & 3) != 1)
            continue;
        read_list(&was, below[n].id);
        follow(&now, &was, it, below[n].kind);
        if (differs(&was, &now))
            renew(below[n].id, below[n].kind, &now);
    }
}

static bool set_list(struct asked *by, struct node *it)
{
    struct list was, now = {0}, above;
    struct node folder;
    bool follows = by->path->depth && (by->it->aclflag & 3) == 1;
    if (!find_object(by, &folder, it) || !may(by, it, by->path->depth, WRITE_ACL))
        return false;
    for (int n = 0; n < by->it->list.count; n++)
        if (!follows || !(by->it->list.entries[n].flag & MARK)) {
            now.entries[now.count] = by->it->list.entries[n];
            now.entries[now.count++].flag &= ~MARK;
        }
    if (now.count > MAX_OWN)
        return refuse(by, INVAL);
    for (int n = 0; n < now.count; n++) {
        int flag = now.entries[n].flag & 15, down = flag & (FILE_INHERIT | FOLDER_INHERIT);
        if (it->kind ? flag & INHERIT_ONLY && !down : flag)
            return refuse(by, ATTRNOTSUPP);
    }
    run(ask(SET_ACLFLAG, "nn", it->id, (number)by->it->aclflag));
    if (follows) {
        read_list(&above, folder.id);
        inherit(&now, &above, it->kind);
    }
    read_list(&was, it->id);
    if (differs(&was, &now))
        renew(it->id, it->kind, &now);
    return true;
}

static bool make(struct asked *by, struct node *folder, int kind)
{
    const struct command *it = by->it;
    struct node there;
    struct list above, list = {0};
    int depth = by->path->depth;
    if (!depth)
        return refuse(by, EXIST);
    if (!walk(by, folder))
        return false;
    struct piece name = by->path->names[depth - 1];
    if (find(&there, ask(FIND_CHILD, "np", folder->id, name)))
        return refuse(by, EXIST);
    if (!may(by, folder, depth - 1, kind ? ADD_FOLDER : ADD_FILE))
        return false;
    if (!kind && it->bytes.length > MAX_BYTES)
        return refuse(by, FBIG);
    if (find_number(ask(COUNT_CHILDREN, "n", folder->id)) >= MAX_CHILDREN)
        return refuse(by, FOLDER_FULL);
    number id = find_number(ask(FIND_NEXT, ""));
    if (id > MAX_MADE)
        return refuse(by, ROOM_FULL);
    run(ask(ADD_NODE, "nnpntt", id, folder->id, name, (number)kind, by->caller->user, folder->group));
    run(ask(SET_NEXT, "n", id + 1));
    if (!kind)
        run(ask(ADD_BYTES, "nb", id, (struct piece){it->bytes.at, it->bytes.length}));
    read_list(&above, folder->id);
    inherit(&list, &above, kind);
    add_list(id, &list);
    return true;
}

// Whether the path is at or below another.
static bool is_below(const struct path *it, const struct path *other)
{
    size_t length = other->whole.length;
    return it->whole.length >= length && !memcmp(it->whole.at, other->whole.at, length)
        && (it->whole.length == length || it->whole.at[length] == '/');
}

// How many names lead from an object to the deepest below it.
static int depth_below(number id)
{
    number below[MAX_CHILDREN];
    int count = 0, most = 0;
    sqlite3_stmt *child = ask(CHILDREN, "n", id);
    while (count < MAX_CHILDREN && row(child))
        below[count++] = sqlite3_column_int64(child, 0);
    done(child);
    for (int n = 0; n < count; n++) {
        int depth = 1 + depth_below(below[n]);
        most = depth > most ? depth : most;
    }
    return most;
}

// Whether an object may be taken out of its folder: by either of two rights.
static bool may_leave(struct asked *by, const struct node *folder, const struct node *it)
{
    return !missing(by->caller, it, DELETE) || !missing(by->caller, folder, DELETE_CHILD)
        || deny(by, by->path->depth, DELETE);
}

// Moves an object, with the list that its new folder hands down.
static bool move(struct asked *by, struct node *it)
{
    const struct path *from = by->path, *to = &by->it->to;
    struct node old, folder, there;
    struct list was, now, above;
    if (!from->depth || !to->depth || is_below(to, from))
        return refuse(by, INVAL);
    if (!find_object(by, &old, it))
        return false;
    by->path = to;
    if (!walk(by, &folder))
        return false;
    struct piece name = to->names[to->depth - 1];
    if (find(&there, ask(FIND_CHILD, "np", folder.id, name)))
        return refuse(by, EXIST);
    by->path = from;
    if (!may_leave(by, &old, it))
        return false;
    by->path = to;
    if (!may(by, &folder, to->depth - 1, it->kind ? ADD_FOLDER : ADD_FILE))
        return false;
    if (to->depth > from->depth && to->depth + depth_below(it->id) > MAX_NAMES)
        return refuse(by, TOO_DEEP);
    if (folder.id != old.id && find_number(ask(COUNT_CHILDREN, "n", folder.id)) >= MAX_CHILDREN)
        return refuse(by, FOLDER_FULL);
    run(ask(MOVE_NODE, "nnp", it->id, folder.id, name));
    if (folder.id == old.id || (it->aclflag & 3) != 1)
        return true;
    read_list(&above, folder.id);
    read_list(&was, it->id);
    follow(&now, &was, &above, it->kind);
    if (differs(&was, &now))
        renew(it->id, it->kind, &now);
    return true;
}

static bool append(struct asked *by, struct node *it)
{
    static struct text bytes;
    if (!find_file(by, it, APPEND_DATA))
        return false;
    sqlite3_stmt *doc = ask(FIND_BYTES, "n", it->id);
    row(doc);
    struct piece was = bytes_at(doc, 0);
    if (was.length + by->it->bytes.length > MAX_BYTES)
        return done(doc), refuse(by, FBIG);
    bytes.length = 0;
    put(&bytes, was.at, was.length);
    put(&bytes, by->it->bytes.at, by->it->bytes.length);
    done(doc);
    run(ask(SET_BYTES, "nb", it->id, (struct piece){bytes.at, bytes.length}));
    put_form(by->reply, "{\"code\":0,\"size\":%zu}", bytes.length);
    return true;
}

static void read_bytes(struct asked *by, struct node *it)
{
    sqlite3_stmt *doc = ask(FIND_BYTES, "n", it->id);
    row(doc);
    put_text(by->reply, "{\"code\":0,\"data\":\"");
    put_base64(by->reply, bytes_at(doc, 0));
    put_text(by->reply, "\"}");
    done(doc);
}

static void list_names(struct asked *by, struct node *it)
{
    sqlite3_stmt *child = ask(NAMES, "n", it->id);
    put_text(by->reply, "{\"code\":0,\"names\":[");
    for (const char *before = "[\""; row(child); before = ",[\"") {
        struct piece name = bytes_at(child, 0);
        put_text(by->reply, before);
        put(by->reply, name.at, name.length);
        put_text(by->reply, sqlite3_column_int(child, 1) ? "\",\"folder\"]" : "\",\"file\"]");
    }
    put_text(by->reply, "]}");
    done(child);
}

static void stat(struct asked *by, struct node *it)
{
    number size = find_number(ask(it->kind ? COUNT_CHILDREN : FIND_SIZE, "n", it->id));
    put_form(by->reply, "{\"aclflag\":%d,\"code\":0,\"group\":\"%s\",\"kind\":\"%s\",\"owner\":\"%s\",\"size\":%lld}",
             it->aclflag, it->group, it->kind ? "folder" : "file", it->owner, (long long)size);
}

void do_command(const struct caller *caller, const struct command *it, struct text *reply)
{
    struct asked by = {caller, it, reply, &it->path};
    struct node folder, at;
    if (it->kind == MKDIR && make(&by, &at, 1))
        put_text(reply, "{\"code\":0}");
    else if (it->kind == CREATE && make(&by, &at, 0))
        put_form(reply, "{\"code\":0,\"size\":%zu}", it->bytes.length);
    else if (it->kind == READ && find_file(&by, &at, READ_DATA))
        read_bytes(&by, &at);
    else if (it->kind == APPEND)
        append(&by, &at);
    else if (it->kind == STAT && find_object(&by, &folder, &at) && may(&by, &at, it->path.depth, READ_ATTRIBUTES))
        stat(&by, &at);
    else if (it->kind == LIST && find_object(&by, &folder, &at) && (at.kind || refuse(&by, NOTDIR))
             && may(&by, &at, it->path.depth, READ_DATA))
        list_names(&by, &at);
    else if ((it->kind == SETLIST && set_list(&by, &at)) || (it->kind == RENAME && move(&by, &at)))
        put_text(reply, "{\"code\":0}");
}
