/* Loaded before libc: call number FAIL of malloc or realloc fails, counted from 1. */
typedef unsigned long size;
extern void *__libc_malloc(size);
extern void *__libc_realloc(void *, size);
extern char *getenv(const char *);
extern long atol(const char *);

static int fails(void) {
    static long calls;
    const char *fail = getenv("FAIL");
    return ++calls == (fail ? atol(fail) : 0);
}

void *malloc(size bytes) { return fails() ? 0 : __libc_malloc(bytes); }
void *realloc(void *old, size bytes) { return fails() ? 0 : __libc_realloc(old, bytes); }
