// Loaded before the C library: fails calls on a program's input and output. FAIL_READ and FAIL_WRITE say how, by
// three words STEP KIND AT: a call takes at most STEP bytes (0: all that it asks for); and KIND is a, for a call that
// fails once AT bytes were taken, n, for an AT-th call that takes none, or -. A failure says that the device is broken;
// a call after one that failed, or that took none, ends the process with status TRIED_AGAIN.
long __read(int fd, void *to, unsigned long length);
long __write(int fd, const void *from, unsigned long length);
int *__errno_location(void);
char *getenv(const char *name);
long strtol(const char *text, char **end, int base);

void _exit(int status) __attribute__((noreturn));

enum { IN, OUT, BROKEN = 5, TRIED_AGAIN = 77 };

static struct plan {
    long step, at, calls, bytes;
    char kind, is_over;
} plans[2];

__attribute__((constructor)) static void begin(void) {
    const char *said[2] = {getenv("FAIL_READ"), getenv("FAIL_WRITE")};
    for (int fd = IN; fd <= OUT; fd++) {
        char *rest;
        if (!said[fd])
            continue;
        plans[fd].step = strtol(said[fd], &rest, 10);
        plans[fd].kind = rest[1];
        plans[fd].at = strtol(rest + 2, &rest, 10);
    }
}

// How many of these bytes the call may have, -1 where it is to fail.
static long allowed(struct plan *it, long length) {
    long left = it->at - it->bytes;
    if (it->is_over)
        _exit(TRIED_AGAIN);
    it->calls++;
    if (it->step && length > it->step)
        length = it->step;
    it->is_over = it->kind == 'n' ? it->calls == it->at : it->kind == 'a' && left <= 0;
    if (it->is_over)
        return it->kind == 'n' ? 0 : -1;
    return it->kind == 'a' && length > left ? left : length;
}

static long counted(struct plan *it, long taken) {
    it->bytes += taken > 0 ? taken : 0;
    return taken;
}

static long broken(void) {
    *__errno_location() = BROKEN;
    return -1;
}

long read(int fd, void *to, unsigned long length) {
    if (fd != IN || !length)
        return __read(fd, to, length);
    long most = allowed(&plans[IN], (long)length);
    return most < 0 ? broken() : counted(&plans[IN], __read(fd, to, (unsigned long)most));
}

long write(int fd, const void *from, unsigned long length) {
    if (fd != OUT || !length)
        return __write(fd, from, length);
    long most = allowed(&plans[OUT], (long)length);
    return most < 0 ? broken() : most == 0 ? 0 : counted(&plans[OUT], __write(fd, from, (unsigned long)most));
}
