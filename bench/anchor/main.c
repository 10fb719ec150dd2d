// anchor FILE PORT USER [GROUP..]: serves the room in this file to one user, a connection after the other.
#include "anchor.h"
#include <arpa/inet.h>
#include <netinet/tcp.h>
#include <signal.h>
#include <stdio.h>
#include <stdlib.h>
#include <string.h>
#include <strings.h>
#include <sys/socket.h>
#include <unistd.h>

typedef sqlite3_int64 number;
enum { BADSESSION = 20, BADSLOT, SEQ_MISORDERED, SEQ_FALSE_RETRY, SESSION_TAKEN };
enum { BAD_HTTP = 40, BAD_ROUTE, UNKNOWN_USER, BAD_REQUEST };
static const struct { int code, status; const char *name, *phrase; } REFUSALS[] = {
    {BADSESSION, 409, "BADSESSION", "Conflict"}, {BADSLOT, 409, "BADSLOT", "Conflict"},
    {SEQ_MISORDERED, 409, "SEQ_MISORDERED", "Conflict"}, {SEQ_FALSE_RETRY, 409, "SEQ_FALSE_RETRY", "Conflict"},
    {SESSION_TAKEN, 409, "SESSION_TAKEN", "Conflict"}, {BAD_HTTP, 400, "BAD_HTTP", "Bad Request"},
    {BAD_ROUTE, 404, "BAD_ROUTE", "Not Found"}, {UNKNOWN_USER, 403, "UNKNOWN_USER", "Forbidden"},
    {BAD_REQUEST, 400, "BAD_REQUEST", "Bad Request"}, {0, 200, "", "OK"}
};

struct message {
    struct piece target, user, body;
    bool is_last;
};
struct slot {
    const char *sid;  // 32 letters
    number slot, seq;
};
static struct caller caller;
static struct command command;
static struct text request, reply;

static bool is_field(const char *line, const char *name)
{
    return !strncasecmp(line, name, strlen(name));
}

// Reads a head that ends with an empty line: the length of its body, or -1.
static long read_head(struct message *to, const char *at)
{
    const char *space = strncmp(at, "POST ", 5) ? 0 : strchr(at + 5, ' '), *end = strstr(at, "\r\n");
    long length = 0;
    if (!space || end - space != 9 || strncmp(space, " HTTP/1.", 8))
        return -1;
    *to = (struct message){.target = {at + 5, (size_t)(space - at - 5)}, .is_last = space[8] == '0'};
    for (const char *line = end + 2; *line != '\r'; line = end + 2) {
        end = strstr(line, "\r\n");
        const char *colon = memchr(line, ':', (size_t)(end - line));
        if (!colon)
            return -1;
        struct piece value = {colon + 1 + strspn(colon + 1, " "), 0};
        value.length = (size_t)(end - value.at);
        if (is_field(line, "content-length:"))
            length = strtol(value.at, 0, 10);
        else if (is_field(line, "room-user:"))
            to->user = value;
        else if (is_field(line, "connection:"))
            to->is_last |= is(value, "close");
    }
    return length > MAX_BODY ? -1 : length;
}

static int open_session(struct piece sid, struct piece body)
{
    long slots = body.length > 10 && !strncmp(body.at, "{\"slots\":", 9) ? strtol(body.at + 9, 0, 10) : 0;
    if (slots < 1 || slots > 16)
        return BAD_REQUEST;
    sqlite3_stmt *found = ask(FIND_SESSION, "p", sid);
    bool there = row(found), is_own = there && is(bytes_at(found, 0), caller.user);
    bool same = is_own && sqlite3_column_int(found, 1) == slots;
    done(found);
    if (there && !same)
        return SESSION_TAKEN;
    if (!there)
        run(ask(ADD_SESSION, "ptn", sid, caller.user, (number)slots));
    put_form(&reply, "{\"code\":0,\"slots\":%ld}", slots);
    return 0;
}

static struct piece sid_of(const struct slot *it)
{
    return (struct piece){it->sid, 32};
}

// Whether the session is the caller's, and has the slot.
static int check_session(const struct slot *it)
{
    sqlite3_stmt *found = ask(FIND_SESSION, "p", sid_of(it));
    bool open = row(found) && is(bytes_at(found, 0), caller.user) && sqlite3_column_int(found, 2);
    int code = !open ? BADSESSION : it->slot >= sqlite3_column_int(found, 1) ? BADSLOT : 0;
    done(found);
    return code;
}

// Whether a slot keeps this request: its reply then.
static bool is_kept(sqlite3_stmt *slot, struct piece asked)
{
    struct piece was = bytes_at(slot, 1), answered = bytes_at(slot, 2);
    bool same = was.length == asked.length && !memcmp(was.at, asked.at, was.length);
    if (same)
        put(&reply, answered.at, answered.length);
    return same;
}

// A request with the number of the kept one. Where its body is the kept text it is not read.
static int ask_again(sqlite3_stmt *slot, struct piece body)
{
    if (is_kept(slot, body))
        return 0;
    if (!read_command(body, &command))
        return BAD_REQUEST;
    request.length = 0;
    put_command(&request, &command);
    if (is_kept(slot, (struct piece){request.at, request.length}))
        return 0;  // (its data was good as it came first)
    return read_base64(&command.bytes, command.data) ? SEQ_FALSE_RETRY : BAD_REQUEST;
}

// Another one. Where there is a code, it is refused with that, if its body is a command.
static int ask_anew(const struct slot *it, struct piece body, int code)
{
    if (!read_command(body, &command) || !read_base64(&command.bytes, command.data))
        return BAD_REQUEST;
    if (code)
        return code;
    request.length = 0;
    put_command(&request, &command);
    do_command(&caller, &command, &reply);
    struct piece asked = {request.at, request.length}, told = {reply.at, reply.length};
    if (!run(ask(SET_SLOT, "pnnbb", sid_of(it), it->slot, it->seq, asked, told)))
        run(ask(ADD_SLOT, "pnnbb", sid_of(it), it->slot, it->seq, asked, told));
    return 0;
}

static int ask_slot(const struct slot *it, struct piece body)
{
    int code = check_session(it);
    sqlite3_stmt *slot = ask(FIND_SLOT, "pn", sid_of(it), it->slot);
    bool there = !code && row(slot);
    number kept = there ? sqlite3_column_int64(slot, 0) : 0;
    bool again = there && it->seq == kept;
    if (again)
        code = ask_again(slot, body);
    else if (!code && it->seq != ((kept + 1) & 0xFFFFFFFF))
        code = SEQ_MISORDERED;
    done(slot);
    return again ? code : ask_anew(it, body, code);
}

// Answers into `reply`, in one transaction. The code of a refused message, or 0.
static int answer(const struct message *it)
{
    static const char BASE[] = "/v1/sessions/", SLOTS[] = "/slots/";
    struct slot slot = {it->target.at + sizeof BASE - 1, -1, -1};
    const char *rest = slot.sid + 32, *end = it->target.at + it->target.length;
    char *behind;
    if (it->target.length < sizeof BASE + 31 || strncmp(it->target.at, BASE, sizeof BASE - 1))
        return BAD_ROUTE;
    if (rest < end) {
        slot.slot = strncmp(rest, SLOTS, sizeof SLOTS - 1) ? -1 : strtol(rest + sizeof SLOTS - 1, &behind, 10);
        slot.seq = slot.slot < 0 || *behind != '/' ? -1 : strtol(behind + 1, &behind, 10);
        if (slot.seq < 0 || behind != end)
            return BAD_ROUTE;
    }
    if (!is(it->user, caller.user))
        return UNKNOWN_USER;
    if (strspn(slot.sid, "0123456789abcdef") < 32)
        return BAD_REQUEST;
    run(ask(BEGIN, ""));
    int code = rest < end ? ask_slot(&slot, it->body) : open_session((struct piece){slot.sid, 32}, it->body);
    run(ask(COMMIT, ""));
    return code;
}

static bool send_answer(int line, int code, bool is_last)
{
    static struct text whole;
    int at = 0;
    while (REFUSALS[at].code && REFUSALS[at].code != code)
        at++;
    if (code) {
        reply.length = 0;
        put_form(&reply, "{\"code\":%d,\"error\":\"%s\"}", code, REFUSALS[at].name);
    }
    whole.length = 0;
    put_form(&whole, "HTTP/1.1 %d %s\r\ncontent-type: application/json\r\ncontent-length: %zu\r\n%s\r\n",
             REFUSALS[at].status, REFUSALS[at].phrase, reply.length, is_last ? "connection: close\r\n" : "");
    put(&whole, reply.at, reply.length);
    for (size_t sent = 0; sent < whole.length;) {
        ssize_t more = write(line, whole.at + sent, whole.length - sent);
        if (more <= 0)
            return false;
        sent += (size_t)more;
    }
    return true;
}

static void serve(int line)
{
    static char input[MAX_HEAD + MAX_BODY + 1];
    struct message it = {0};
    size_t held = 0;
    for (bool goes_on = true; goes_on;) {
        input[held] = 0;
        char *end = strstr(input, "\r\n\r\n");
        long length = end ? read_head(&it, input) : held < MAX_HEAD ? 0 : -1;
        size_t whole = end ? (size_t)(end + 4 - input) + (size_t)length : held + 1;
        if (length >= 0 && held < whole) {
            ssize_t more = read(line, input + held, sizeof input - 1 - held);
            goes_on = more > 0;
            held += more > 0 ? (size_t)more : 0;
            continue;
        }
        it.body = (struct piece){end + 4, (size_t)length};
        it.is_last |= length < 0;
        reply.length = 0;
        goes_on = send_answer(line, length < 0 ? BAD_HTTP : answer(&it), it.is_last) && !it.is_last;
        memmove(input, input + whole, held -= goes_on ? whole : held);
    }
    close(line);
}

int main(int count, char **words)
{
    struct sockaddr_in at = {.sin_family = AF_INET, .sin_addr = {htonl(INADDR_LOOPBACK)}};
    int port = socket(AF_INET, SOCK_STREAM, 0), yes = 1;
    if (count < 4)
        fail("anchor FILE PORT USER [GROUP..]");
    signal(SIGPIPE, SIG_IGN);
    caller = (struct caller){words[3], words + 4, count - 4};
    open_store(words[1]);
    at.sin_port = htons((unsigned short)atoi(words[2]));
    setsockopt(port, SOL_SOCKET, SO_REUSEADDR, &yes, sizeof yes);
    if (bind(port, (struct sockaddr *)&at, sizeof at) || listen(port, 128))
        fail("port");
    for (int line; (line = accept(port, 0, 0)) >= 0;) {
        setsockopt(line, IPPROTO_TCP, TCP_NODELAY, &yes, sizeof yes);
        serve(line);
    }
    return 0;
}
