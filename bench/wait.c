// Loaded before the C library: a flush is a wait of as many microseconds as FLUSH_WAIT says, so that there is a disk of
// any speed.
char *getenv(const char *name);
long strtol(const char *text, char **end, int base);
int nanosleep(const long *time, long *rest);
int prctl(int what, ...);

enum { SET_TIMER_SLACK = 29 };
static long wait[2];

__attribute__((constructor)) static void begin(void) {
    const char *said = getenv("FLUSH_WAIT");
    wait[1] = said ? 1000 * strtol(said, 0, 10) : 0;
    prctl(SET_TIMER_SLACK, 1L);
}

int fdatasync(int file) { return file < 0 || !wait[1] ? 0 : nanosleep(wait, 0); }

int fsync(int file) { return fdatasync(file); }
