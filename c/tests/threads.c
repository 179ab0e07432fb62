/*
 * Four threads on small stacks make every call side by side, and each finds as much data as it would alone. RDATA of 2,048 options
 * in no order needs no more stack. Four threads on larger stacks do the same with OPT of 65,532 octets.
 *
 * Each stack ends at a page that cannot be touched. Where the system's threads need larger stacks than these, as on aarch64, the
 * octets that a thread has written are counted instead. They are printed in any case.
 *   ./threads [SMALL LARGE]    other sizes than 40 and 96 KiB, in octets, as for an archive of another compiler
 */
#define _GNU_SOURCE
#include "at.h"

#include <pthread.h>
#include <stdio.h>
#include <stdlib.h>
#include <string.h>
#include <sys/mman.h>
#include <unistd.h>

enum { THREADS = 4, ROUNDS = 5000, STACK = 40 * 1024, LARGE_STACK = 96 * 1024, SIZE = 60 };

static const uint16_t types[] = {1, 5, 6, 13, 15, 16, 28, 33, 35, 37, 41, 62, 64, 65, 257};

struct work {
    uint64_t seed;
    unsigned long good;
    uint8_t out[65536];
};

/* Makes each call on the data, and counts those that are as wanted. */
static unsigned long calls(const uint8_t *message, uint16_t length, uint16_t type) {
    char text[600];
    uint8_t out[600];
    size_t count = 0;
    int32_t order = 5, equal = 5;
    struct dns_rdata_refusal why;
    if (dns_rdata_check(at(message, SIZE, 0, length, type), &why) != DNS_RDATA_OK)
        return 0;
    unsigned long good = dns_rdata_compare(at(message, SIZE, 0, length, type), at(message, SIZE, 0, length, type), &order) == DNS_RDATA_OK && order == 0;
    good += dns_rdata_equal(at(message, SIZE, 0, length, type), at(message, SIZE, 0, length, type), &equal) == DNS_RDATA_OK && equal == 1;
    good += dns_rdata_wire(at(message, SIZE, 0, length, type), out, sizeof out, &count) == DNS_RDATA_OK;
    good += dns_rdata_canonical(at(message, SIZE, 0, length, type), out, sizeof out, &count) == DNS_RDATA_OK;
    good += dns_rdata_text(at(message, SIZE, 0, length, type), text, sizeof text, &count) == DNS_RDATA_OK
        && dns_rdata_parse(text, count, type, (const uint8_t *)"", 1, out, sizeof out, &count) == DNS_RDATA_OK;
    size_t begin = 0;
    uint16_t number = 0;
    good += dns_rdata_name(at(message, SIZE, 0, length, type), 0, out, sizeof out, &count, &begin) != DNS_RDATA_MEMORY;
    good += dns_rdata_part(at(message, SIZE, 0, length, type), 0, &number, &begin, &count) != DNS_RDATA_MEMORY;
    static const uint8_t name[] = "\3www\7example";
    good += dns_rdata_name_text(name, sizeof name, 0, text, sizeof text, &count) == DNS_RDATA_OK
        && dns_rdata_name_from_text(text, count, (const uint8_t *)"", 1, out, sizeof out, &count) == DNS_RDATA_OK && count == sizeof name;
    struct dns_rdata_text_fault fault;
    good += dns_rdata_parse_why("10 a..b", 7, 15, (const uint8_t *)"", 1, text, sizeof text, &count, &fault) == DNS_RDATA_OK && fault.begin == 3;
    return good;
}

/* RDATA of OPT: so many options without octets in no order, and the same options from the last one on. */
enum { FEW = 2048, MOST = 16383, OPT = 41 };
static uint8_t few[2][FEW * 4], most[2][MOST * 4];

static void fill(uint8_t *octets, unsigned count, int turned) {
    for (unsigned i = 0; i < count; i++) {
        unsigned code = (turned ? count - 1 - i : i) * 5003 % 16384 + 100;
        octets[4 * i] = (uint8_t)(code >> 8);
        octets[4 * i + 1] = (uint8_t)code;
    }
}

/* Compares both and makes the canonical octets of the first, into a buffer of the caller's. */
static unsigned long many(const uint8_t *one, const uint8_t *other, uint16_t length, uint8_t *out) {
    size_t count = 0;
    int32_t order = 5, equal = 5;
    unsigned long good = dns_rdata_compare(at(one, length, 0, length, OPT), at(other, length, 0, length, OPT), &order) == DNS_RDATA_OK && order == 0;
    good += dns_rdata_equal(at(one, length, 0, length, OPT), at(other, length, 0, length, OPT), &equal) == DNS_RDATA_OK && equal == 1;
    good += dns_rdata_canonical(at(one, length, 0, length, OPT), out, length, &count) == DNS_RDATA_OK && count == length;
    return good;
}

static void *run(void *given) {
    struct work *work = (struct work *)given;
    uint8_t message[SIZE];
    work->good += many(few[0], few[1], sizeof few[0], work->out);
    for (int round = 0; round < ROUNDS; round++) {
        for (int i = 0; i < SIZE; i++) {
            work->seed = work->seed * 6364136223846793005u + 1442695040888963407u;
            message[i] = (uint8_t)((work->seed >> 33) % 7);
        }
        uint16_t type = types[(work->seed >> 40) % (sizeof types / sizeof *types)];
        for (uint16_t length = 0; length < 24; length = (uint16_t)(length + 3))
            work->good += calls(message, length, type);
    }
    return NULL;
}

static void *run_most(void *given) {
    struct work *work = (struct work *)given;
    work->good += many(most[0], most[1], sizeof most[0], work->out);
    return NULL;
}

enum { UNTOUCHED = 0xa5 };

/* A stack of at least `size` octets, after a page that cannot be touched, or NULL. */
static uint8_t *stack_of(size_t size) {
    size_t page = (size_t)sysconf(_SC_PAGESIZE);
    uint8_t *at = (uint8_t *)mmap(NULL, page + size, PROT_READ | PROT_WRITE, MAP_PRIVATE | MAP_ANONYMOUS, -1, 0);
    if (at == MAP_FAILED || mprotect(at, page, PROT_NONE) != 0)
        return NULL;
    memset(at + page, UNTOUCHED, size);
    return at + page;
}

/* The octets of a stack, which grows downwards, from the lowest one that was written to its top. */
static size_t used_of(const uint8_t *stack, size_t size) {
    size_t left = 0;
    while (left < size && stack[left] == UNTOUCHED)
        left++;
    return size - left;
}

/* Starts a thread on a stack of its own. */
static int start(pthread_t *thread, uint8_t *stack, size_t size, void *(*what)(void *), struct work *work) {
    pthread_attr_t attributes;
    pthread_attr_init(&attributes);
    return stack == NULL || pthread_attr_setstack(&attributes, stack, size) != 0 || pthread_create(thread, &attributes, what, work) != 0;
}

/* Four threads on stacks of this size, and each alone: 1 if one finds another number of results that are as wanted, else 0. */
static int side_by_side(void *(*what)(void *), size_t most_used) {
    static struct work works[THREADS], alone[THREADS];
    pthread_t threads[THREADS];
    uint8_t *stacks[THREADS];
    size_t least = (size_t)sysconf(_SC_THREAD_STACK_MIN), size = most_used < least ? least : most_used, used = 0;
    for (int i = 0; i < THREADS; i++) {
        works[i].seed = alone[i].seed = (uint64_t)i + 1;
        works[i].good = alone[i].good = 0;
        stacks[i] = stack_of(size);
        if (start(&threads[i], stacks[i], size, what, &works[i]) != 0)
            return 1;
    }
    int failed = 0;
    for (int i = 0; i < THREADS; i++) {
        pthread_join(threads[i], NULL);
        what(&alone[i]);
        printf("%lu calls are as wanted, %lu alone\n", works[i].good, alone[i].good);
        failed |= works[i].good != alone[i].good || works[i].good == 0;
        if (used_of(stacks[i], size) > used)
            used = used_of(stacks[i], size);
    }
    printf("stack: %zu octets, of %zu\n", used, most_used);
    return failed | (used > most_used);
}

int main(int argc, char **argv) {
    size_t small = argc == 3 ? strtoul(argv[1], NULL, 10) : STACK, large = argc == 3 ? strtoul(argv[2], NULL, 10) : LARGE_STACK;
    for (int turned = 0; turned < 2; turned++) {
        fill(few[turned], FEW, turned);
        fill(most[turned], MOST, turned);
    }
    int failed = side_by_side(run, small);
    return side_by_side(run_most, large) | failed;
}
