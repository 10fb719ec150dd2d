// load PORT ANSWERS < MESSAGES: sends messages over one connection, each after the answer to the one before.
//
// A message is its length in decimal, LF, and its bytes. Written are the nanoseconds of each, a line each; the answers
// go to the file ANSWERS, heads and bodies as they came, each with LF behind it.
#include <arpa/inet.h>
#include <netinet/tcp.h>
#include <stdio.h>
#include <stdlib.h>
#include <string.h>
#include <sys/socket.h>
#include <time.h>
#include <unistd.h>

enum { MOST = 1 << 18 };
static char message[MOST], answer[MOST];

static void fail(const char *what)
{
    perror(what);
    exit(1);
}

static long long now(void)
{
    struct timespec it;
    clock_gettime(CLOCK_MONOTONIC, &it);
    return it.tv_sec * 1000000000LL + it.tv_nsec;
}

// Reads an answer: its length.
static size_t read_answer(int line)
{
    size_t held = 0, whole = MOST;
    while (held < whole) {
        ssize_t more = read(line, answer + held, MOST - 1 - held);
        if (more <= 0)
            fail("the answer");
        held += (size_t)more;
        answer[held] = 0;
        char *end = whole < MOST ? 0 : strstr(answer, "\r\n\r\n");
        char *length = end ? strstr(answer, "content-length: ") : 0;
        if (length)
            whole = (size_t)(end + 4 - answer) + strtoul(length + 16, 0, 10);
    }
    return held;
}

int main(int count, char **words)
{
    struct sockaddr_in at = {.sin_family = AF_INET, .sin_addr = {htonl(INADDR_LOOPBACK)}};
    int line = socket(AF_INET, SOCK_STREAM, 0), yes = 1;
    FILE *answers = count == 3 ? fopen(words[2], "w") : 0;
    if (!answers)
        fail("load PORT ANSWERS");
    at.sin_port = htons((unsigned short)atoi(words[1]));
    if (connect(line, (struct sockaddr *)&at, sizeof at))
        fail("connect");
    setsockopt(line, IPPROTO_TCP, TCP_NODELAY, &yes, sizeof yes);
    for (size_t length; scanf("%zu%*1[\n]", &length) == 1;) {
        if (length > MOST || fread(message, 1, length, stdin) != length)
            fail("a message");
        long long begin = now();
        for (size_t sent = 0; sent < length;) {
            ssize_t more = write(line, message + sent, length - sent);
            if (more <= 0)
                fail("send");
            sent += (size_t)more;
        }
        size_t held = read_answer(line);
        printf("%lld\n", now() - begin);
        fwrite(answer, 1, held, answers);
        fputc('\n', answers);
    }
    return fclose(answers) != 0;
}
