/*
 * The functions by which the library asks for memory, over malloc, realloc and free, which align to 16. A program with an
 * allocator of its own may define the three in this file's place. They return in two registers whether there is memory, and
 * where.
 */
#include <stddef.h>
#include <stdlib.h>

struct rattle_tried {
    unsigned char there;
    void *at;
};

static char nothing;

static struct rattle_tried tried(void *at) {
    struct rattle_tried answer = {at != NULL, at != NULL ? at : &nothing};
    return answer;
}

struct rattle_tried rattle_alloc(size_t size, size_t align) { return tried(malloc(size != 0 ? size : align)); }

struct rattle_tried rattle_realloc(void *at, size_t old, size_t size, size_t align) {
    (void)old;
    return tried(realloc(at, size != 0 ? size : align));
}

void rattle_dealloc(void *at) { free(at); }
