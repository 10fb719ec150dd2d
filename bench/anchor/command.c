// Commands in JSON: an object with exactly the members of its command, in any order.
#include "anchor.h"
#include <string.h>

enum { M_ACLFLAG = 1, M_CMD = 2, M_DATA = 4, M_ENTRIES = 8, M_PATH = 16, M_TO = 32 };
enum { M_FLAG = 1, M_MASK = 2, M_TYPE = 4, M_WHO = 8, M_ENTRY = 15 };
static const char *const COMMANDS[KINDS] = {"MKDIR", "CREATE", "READ", "APPEND", "STAT", "LIST", "SETLIST",
                                             "RENAME"};
static const char PRINCIPAL[] = "ABCDEFGHIJKLMNOPQRSTUVWXYZabcdefghijklmnopqrstuvwxyz0123456789._-";

struct reader {
    const char *at, *end;
    bool bad;
};

static char next(struct reader *in)
{
    while (in->at < in->end && (*in->at == ' ' || *in->at == '\t' || *in->at == '\r' || *in->at == '\n'))
        in->at++;
    return in->at < in->end ? *in->at : 0;
}

static bool take(struct reader *in, char it)
{
    bool there = next(in) == it;
    in->at += there;
    return there;
}

static void need(struct reader *in, bool fact)
{
    in->bad |= !fact;
}

static struct piece read_string(struct reader *in)
{
    static const bool ends[256] = {[0 ... ' ' - 1] = true, ['"'] = true, ['\\'] = true};
    need(in, take(in, '"'));
    const char *begin = in->at;
    while (!ends[(unsigned char)*in->at])  // (a zero stands behind the body, if only behind all that was read)
        in->at++;
    struct piece it = {begin, (size_t)(in->at - begin)};
    need(in, take(in, '"'));
    return it;
}

static int read_number(struct reader *in, int most)
{
    long it = 0;
    char first = next(in);
    const char *begin = in->at;
    while (in->at < in->end && *in->at >= '0' && *in->at <= '9' && it <= most)
        it = 10 * it + (*in->at++ - '0');
    need(in, in->at > begin && it <= most && (first != '0' || in->at == begin + 1));
    return (int)it;
}

typedef int member(struct reader *in, struct piece name, void *to);  // reads its value: which it is, 0 for another

// Reads an object, and returns which members it has.
static int read_object(struct reader *in, member *each, void *to)
{
    int seen = 0;
    need(in, take(in, '{'));
    do {
        struct piece name = read_string(in);
        need(in, take(in, ':'));
        int which = in->bad ? 0 : each(in, name, to);
        need(in, which && !(seen & which));
        seen |= which;
    } while (!in->bad && take(in, ','));
    need(in, take(in, '}'));
    return seen;
}

static int read_who(struct reader *in, struct entry *to)
{
    struct piece it = read_string(in);
    bool special = is(it, "OWNER@") || is(it, "GROUP@") || is(it, "EVERYONE@");
    need(in, special || (it.length && it.length < WHO && strspn(it.at, PRINCIPAL) >= it.length));
    if (!in->bad)
        memcpy(to->who, it.at, it.length), to->who[it.length] = 0;
    return M_WHO;
}

static int entry_member(struct reader *in, struct piece name, void *to)
{
    struct entry *it = to;
    if (is(name, "flag"))
        return it->flag = read_number(in, 255), need(in, !(it->flag & 0x30)), M_FLAG;
    if (is(name, "mask"))
        return it->mask = read_number(in, ALL_RIGHTS), need(in, !(it->mask & ~ALL_RIGHTS)), M_MASK;
    if (is(name, "type"))
        return it->type = read_number(in, DENY), M_TYPE;
    return is(name, "who") ? read_who(in, it) : 0;
}

static int read_list(struct reader *in, struct list *to)
{
    to->count = 0;
    need(in, take(in, '['));
    if (take(in, ']'))
        return M_ENTRIES;
    do {
        need(in, to->count < MAX_ENTRIES);
        if (!in->bad)
            need(in, read_object(in, entry_member, &to->entries[to->count++]) == M_ENTRY);
    } while (!in->bad && take(in, ','));
    need(in, take(in, ']'));
    return M_ENTRIES;
}

static bool is_name(struct piece it)
{
    for (size_t at = 0; at < it.length; at++)
        if (it.at[at] == 0x7F)
            return false;
    return it.length && it.length <= MAX_NAME && !is(it, ".") && !is(it, "..");
}

static void read_path(struct reader *in, struct path *to)
{
    struct piece all = to->whole = read_string(in);
    to->depth = 0;
    need(in, all.length && all.at[0] == '/');
    for (size_t at = 1; !in->bad && all.length > 1 && at <= all.length;) {
        const char *slash = memchr(all.at + at, '/', all.length - at);
        struct piece name = {all.at + at, slash ? (size_t)(slash - all.at) - at : all.length - at};
        need(in, is_name(name) && to->depth < MAX_NAMES);
        if (!in->bad)
            to->names[to->depth++] = name;
        at += name.length + 1;
    }
}

static int command_member(struct reader *in, struct piece name, void *to)
{
    struct command *it = to;
    if (is(name, "path"))
        return read_path(in, &it->path), M_PATH;
    if (is(name, "to"))
        return read_path(in, &it->to), M_TO;
    if (is(name, "data"))
        return it->data = read_string(in), M_DATA;
    if (is(name, "aclflag"))
        return it->aclflag = read_number(in, 7), M_ACLFLAG;
    if (is(name, "entries"))
        return read_list(in, &it->list);
    if (!is(name, "cmd"))
        return 0;
    struct piece cmd = read_string(in);
    for (it->kind = 0; it->kind < KINDS && !is(cmd, COMMANDS[it->kind]);)
        it->kind++;
    return need(in, it->kind < KINDS), M_CMD;
}

bool read_command(struct piece body, struct command *to)
{
    struct reader in = {body.at, body.at + body.length, false};
    int seen = read_object(&in, command_member, to), due = M_CMD | M_PATH;
    need(&in, !next(&in) && in.at == in.end && seen & M_CMD);
    to->bytes.length = 0;
    if (!(seen & M_DATA))
        to->data = (struct piece){"", 0};
    if (in.bad)
        return false;
    due |= to->kind == CREATE || to->kind == APPEND ? M_DATA : to->kind == SETLIST ? M_ACLFLAG | M_ENTRIES
        : to->kind == RENAME ? M_TO : 0;
    return seen == due;
}

// Compact, with the members in the order of their names: what is kept and compared.
void put_command(struct text *to, const struct command *it)
{
    put_text(to, "{");
    if (it->kind == SETLIST)
        put_form(to, "\"aclflag\":%d,", it->aclflag);
    put_form(to, "\"cmd\":\"%s\"", COMMANDS[it->kind]);
    if (it->kind == CREATE || it->kind == APPEND) {
        put_text(to, ",\"data\":\"");
        put(to, it->data.at, it->data.length);
        put_text(to, "\"");
    }
    if (it->kind == SETLIST)
        put_text(to, ",\"entries\":[");
    for (int n = 0; it->kind == SETLIST && n < it->list.count; n++) {
        const struct entry *one = &it->list.entries[n];
        put_form(to, "%s{\"flag\":%d,\"mask\":%d,\"type\":%d,\"who\":\"%s\"}", n ? "," : "", one->flag, one->mask,
                 one->type, one->who);
    }
    put_text(to, it->kind == SETLIST ? "],\"path\":\"" : ",\"path\":\"");
    put(to, it->path.whole.at, it->path.whole.length);
    if (it->kind == RENAME) {
        put_text(to, "\",\"to\":\"");
        put(to, it->to.whole.at, it->to.whole.length);
    }
    put_text(to, "\"}");
}
