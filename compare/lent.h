/* What the drivers of the comparisons lend: bytes after which lies a page that may not be touched, with a margin before them. */
#include <stdint.h>
#include <stdio.h>
#include <sys/mman.h>
#include <unistd.h>

enum { MARGIN = 32, MOST = 1 << 17 };

static void fail(const char *what) {
    fprintf(stderr, "driver: %s\n", what);
    _exit(3);
}

/* Gives the end of MOST writable bytes, after which nothing may be touched. */
static uint8_t *lent_end(void) {
    size_t page = (size_t)sysconf(_SC_PAGESIZE);
    uint8_t *at = mmap(NULL, MOST + page, PROT_READ | PROT_WRITE, MAP_PRIVATE | MAP_ANONYMOUS, -1, 0);
    if (at == MAP_FAILED || mprotect(at + MOST, page, PROT_NONE) != 0) fail("no memory");
    return at + MOST;
}

static void put(const void *bytes, size_t length) {
    if (fwrite(bytes, 1, length, stdout) != length) fail("cannot write");
}

/* Writes out all that was put. */
static void flush(void) {
    if (fflush(stdout) != 0) fail("cannot write");
}
