/* Preloaded before a program: counts its requests for memory, and refuses the Nth and every later one, or the Nth alone.
   REQUESTS_REFUSE=N refuses from the Nth on, and REQUESTS_ALONE=N the Nth; REQUESTS_COUNT=FILE gets the number of
   requests at the end.

   With REQUESTS_MARKED requests count only between two marks that the program writes to standard output. The first is
   `requests from N`, where the Nth and every later one is refused, or `requests alone N`, where the Nth is; number 0
   refuses none. It is not written on. In place of the second, `requests end`, the number of requests is written. */
#define _GNU_SOURCE
#include <dlfcn.h>
#include <errno.h>
#include <fcntl.h>
#include <stdlib.h>
#include <string.h>
#include <unistd.h>

static unsigned long requests, refuse_from, refuse_alone;
static int waits;
static ssize_t (*real_write)(int, const void *, size_t);
static void *(*real_malloc)(size_t);
static void *(*real_realloc)(void *, size_t);
static void *(*real_calloc)(size_t, size_t);
static int (*real_posix_memalign)(void **, size_t, size_t);
static void *(*real_aligned_alloc)(size_t, size_t);

static unsigned long number_in(const char *variable) {
    const char *text = getenv(variable);
    return text ? strtoul(text, NULL, 10) : 0;
}

__attribute__((constructor)) static void begin(void) {
    real_malloc = dlsym(RTLD_NEXT, "malloc");
    real_realloc = dlsym(RTLD_NEXT, "realloc");
    real_calloc = dlsym(RTLD_NEXT, "calloc");
    real_posix_memalign = dlsym(RTLD_NEXT, "posix_memalign");
    real_aligned_alloc = dlsym(RTLD_NEXT, "aligned_alloc");
    real_write = dlsym(RTLD_NEXT, "write");
    refuse_from = number_in("REQUESTS_REFUSE");
    refuse_alone = number_in("REQUESTS_ALONE");
    waits = getenv("REQUESTS_MARKED") != NULL;
    requests = 0;
}

static int refused(void) {
    if (waits) return 0;
    requests++;
    return (refuse_from && requests >= refuse_from) || requests == refuse_alone;
}

void *malloc(size_t n) {
    if (!real_malloc) real_malloc = dlsym(RTLD_NEXT, "malloc");
    if (refused()) { errno = ENOMEM; return NULL; }
    return real_malloc(n);
}

void *realloc(void *p, size_t n) {
    if (!real_realloc) real_realloc = dlsym(RTLD_NEXT, "realloc");
    if (refused()) { errno = ENOMEM; return NULL; }
    return real_realloc(p, n);
}

void *calloc(size_t n, size_t size) {
    if (!real_calloc) return NULL;
    if (refused()) { errno = ENOMEM; return NULL; }
    return real_calloc(n, size);
}

int posix_memalign(void **p, size_t align, size_t n) {
    if (refused()) return ENOMEM;
    return real_posix_memalign(p, align, n);
}

void *aligned_alloc(size_t align, size_t n) {
    if (refused()) { errno = ENOMEM; return NULL; }
    return real_aligned_alloc(align, n);
}

static int begins_with(const char *text, size_t n, const char *front) {
    return n > strlen(front) && memcmp(text, front, strlen(front)) == 0;
}

/* The number's decimal digits, at the end of the 32 octets. */
static char *digits_of(unsigned long number, char *text) {
    int n = 0;
    do { text[31 - ++n] = (char)('0' + number % 10); number /= 10; } while (number);
    text[31] = '\n';
    return text + 31 - n;
}

ssize_t write(int fd, const void *text, size_t n) {
    char room[32], *digits;
    if (!real_write) real_write = dlsym(RTLD_NEXT, "write");
    if (fd != 1 || !getenv("REQUESTS_MARKED") || !begins_with(text, n, "requests ")) return real_write(fd, text, n);
    refuse_from = refuse_alone = 0;
    if (begins_with(text, n, "requests from ")) refuse_from = strtoul((const char *)text + 14, NULL, 10);
    if (begins_with(text, n, "requests alone ")) refuse_alone = strtoul((const char *)text + 15, NULL, 10);
    waits = begins_with(text, n, "requests end");
    if (!waits) {
        requests = 0;
    } else {
        digits = digits_of(requests, room);
        if (real_write(fd, digits, (size_t)(room + 32 - digits)) < 0) return -1;
    }
    return (ssize_t)n;
}

__attribute__((destructor)) static void end(void) {
    const char *file = getenv("REQUESTS_COUNT");
    char room[32], *digits;
    int fd;
    if (!file) return;
    digits = digits_of(requests, room);
    fd = open(file, O_WRONLY | O_CREAT | O_TRUNC, 0644);
    if (fd < 0) return;
    if (real_write(fd, digits, (size_t)(room + 31 - digits)) < 0) { }
    close(fd);
}
