// Loaded before the C library: ends a program in the middle of what it writes into files, or leaves it no room.
// STOP says at which call, counted from 1 over those that change a file or flush it, and how: 'k 3' kills it before the
// third, 'h 3' after half of that write, 'n 3' has each write and change of length fail from the third call on, as on a
// full disk, 'o 3' the third alone, and 's 3' the third, where it is a flush.
long syscall(long number, ...);
int *__errno_location(void);
char *getenv(const char *name);
long strtol(const char *text, char **end, int base);

enum { PWRITE = 18, GETPID = 39, KILL = 62, FSYNC = 74, FDATASYNC = 75, FTRUNCATE = 77 };
enum { SIGKILL = 9, BROKEN = 5, NO_ROOM = 28 };

static long at, calls;
static char how = '-';

__attribute__((constructor)) static void begin(void) {
    const char *said = getenv("STOP");
    if (said) {
        how = said[0];
        at = strtol(said + 1, 0, 10);
    }
}

static void end(void) {
    syscall(KILL, syscall(GETPID), SIGKILL);
}

// Counts a call: whether it is the one.
static int is_it(void) {
    calls++;
    if (calls == at && how == 'k')
        end();
    return calls == at;
}

static int is_full(int is_now) {
    return (how == 'n' && calls >= at) || (how == 'o' && is_now);
}

static long failed(int why) {
    *__errno_location() = why;
    return -1;
}

static int flushed(long number, int fd) {
    return is_it() && how == 's' ? (int)failed(BROKEN) : (int)syscall(number, fd);
}

long pwrite(int fd, const void *from, unsigned long length, long place) {
    int is_now = is_it();
    if (is_full(is_now))
        return failed(NO_ROOM);
    if (is_now && how == 'h') {
        syscall(PWRITE, fd, from, length / 2, place);
        end();
    }
    return syscall(PWRITE, fd, from, length, place);
}

int ftruncate(int fd, long length) {
    return is_full(is_it()) ? (int)failed(NO_ROOM) : (int)syscall(FTRUNCATE, fd, length);
}

int fsync(int fd) {
    return flushed(FSYNC, fd);
}

int fdatasync(int fd) {
    return flushed(FDATASYNC, fd);
}
