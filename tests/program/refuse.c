// Loaded before the C library: refuses one growth of memory at a time. The first words of the file that REFUSE_PAGE
// names, which this library and a script both have in memory, say which growth from now is refused (0: none), how many
// were refused, and how many came.
void *__libc_malloc(unsigned long size);
void *__libc_realloc(void *old, unsigned long size);
char *getenv(const char *name);
int open(const char *path, int flags, ...);
void *mmap(void *at, unsigned long length, int access, int flags, int fd, long offset);

enum { READ_AND_WRITE = 2, ACCESS = 3, SHARED = 1 };

struct page {
    unsigned long left, refused, came;
};
static volatile struct page *page;

__attribute__((constructor)) static void begin(void) {
    const char *path = getenv("REFUSE_PAGE");
    int fd = path ? open(path, READ_AND_WRITE) : -1;
    if (fd >= 0)
        page = mmap(0, sizeof *page, ACCESS, SHARED, fd, 0);
}

static int is_refused(void) {
    if (!page)
        return 0;
    page->came++;
    if (page->left == 0 || --page->left != 0)
        return 0;
    page->refused++;
    return 1;
}

void *malloc(unsigned long size) { return is_refused() ? 0 : __libc_malloc(size); }

void *realloc(void *old, unsigned long size) { return is_refused() ? 0 : __libc_realloc(old, size); }
