/*
 * Each request for memory of each call refused in turn: the answer is DNS_RDATA_MEMORY, or the very answer that is given with
 * that memory, where the call can do without, and nothing stays held. This file stands in the place of heap.c.
 */
#include "at.h"

#include <stdio.h>
#include <stdlib.h>
#include <string.h>

struct rattle_tried {
    unsigned char there;
    void *at;
};

static unsigned long requests, refuse;
static long held;
static char nothing;

static int refused(void) { return ++requests == refuse; }

struct rattle_tried rattle_alloc(size_t size, size_t align) {
    void *at = refused() ? NULL : malloc(size != 0 ? size : align);
    held += at != NULL;
    return (struct rattle_tried){at != NULL, at != NULL ? at : &nothing};
}

struct rattle_tried rattle_realloc(void *old, size_t kept, size_t size, size_t align) {
    void *at = refused() ? NULL : realloc(old, size != 0 ? size : align);
    (void)kept;
    return (struct rattle_tried){at != NULL, at != NULL ? at : &nothing};
}

void rattle_dealloc(void *at) {
    held--;
    free(at);
}

static const uint8_t name[] = "\x3fxxxxxxxxxxxxxxxxxxxxxxxxxxxxxxxxxxxxxxxxxxxxxxxxxxxxxxxxxxxxxxx\x07" "example\x00\x00\x0a\xc0\x00";
static const char texts[][64] = {"10 mail.example.com.", "1 . alpn=h2,h3 ipv4hint=192.0.2.1", "\"a\" \"b c\"", "ten"};
static const uint16_t kinds[] = {15, 64, 16, 15};
static char text[512];
static uint8_t out[512];
static const uint8_t service[] = {0, 1, 1, 'x', 0, 0, 1, 0, 3, 2, 'h', '2', 0, 3, 0, 2, 1, 0xbb};
static size_t count, begin;
static uint16_t number;
static struct dns_rdata_refusal why;
static struct dns_rdata_text_fault fault;
static struct dns_rdata_parts parts;
static const uint8_t response[] = {0, 1, 0x80, 0, 0, 0, 0, 1, 0, 0, 0, 0, 1, 'x', 0, 0, 15, 0, 1, 0, 0, 0, 0, 0, 4, 0, 10, 0xc0, 12};
static struct dns_rdata_records records;
static struct dns_rdata_record record;
static int32_t order;

static dns_rdata_status call(int n) {
    size_t length = sizeof name - 1, place = length - 4;
    switch (n) {
    case 0: return dns_rdata_check(at(name, length, place, 4, 15), &why);
    case 2: return dns_rdata_canonical(at(name, length, place, 4, 15), out, sizeof out, &count);
    case 3: return dns_rdata_wire(at(name, length, place, 4, 15), out, sizeof out, &count);
    case 4: return dns_rdata_compare(at(name, length, place, 4, 15), at(name, length, place, 4, 15), &order);
    case 5: return dns_rdata_type_text(4711, text, sizeof text, &count);
    case 6: return dns_rdata_equal(at(name, length, place, 4, 15), at(name, length, place, 4, 15), &order);
    case 7: return dns_rdata_text(at(name, length, place, 4, 15), text, sizeof text, &count);
    case 8: return dns_rdata_name(at(name, length, place, 4, 15), 0, out, sizeof out, &count, &begin);
    case 9: return dns_rdata_part(at(service, sizeof service, 0, sizeof service, 64), 1, &number, &begin, &count);
    case 18:
        if (dns_rdata_parts_begin(at(service, sizeof service, 0, sizeof service, 64), &parts) != DNS_RDATA_OK) return DNS_RDATA_MEMORY;
        return dns_rdata_parts_next(at(service, sizeof service, 0, 0, 0), &parts, &number, &begin, &count);
    case 19:
        if (dns_rdata_records_begin(response, sizeof response, &records) != DNS_RDATA_OK) return DNS_RDATA_MEMORY;
        return dns_rdata_records_next(response, sizeof response, &records, &record);
    case 10: case 11: case 12: case 13:
        return dns_rdata_parse(texts[n - 10], strlen(texts[n - 10]), kinds[n - 10], name, 73, out, sizeof out, &count);
    case 20: return dns_rdata_name_length(name, length, place + 2, &count);
    case 21: return dns_rdata_name_text(name, length, place + 2, text, sizeof text, &count);
    case 22: return dns_rdata_name_from_text("mail", 4, name, 73, out, sizeof out, &count);
    case 23: return dns_rdata_parse_why("10 a..b", 7, 15, name, 73, (char *)out, sizeof out, &count, &fault);
    default: return dns_rdata_type_number("TYPE4711", 8, &number);
    }
}

int main(void) {
    int failed = 0;
    for (int n = 0; n < 24; n++) {
        requests = refuse = 0;
        memset(out, 0xee, sizeof out);
        dns_rdata_status wanted = call(n);
        unsigned long all = requests, without = 0;
        uint8_t first[sizeof out];
        size_t first_count = count;
        memcpy(first, out, sizeof out);
        for (unsigned long k = 1; k <= all; k++) {
            requests = 0;
            refuse = k;
            memset(out, 0xee, sizeof out);
            dns_rdata_status status = call(n);
            if (n == 0 && status == DNS_RDATA_MEMORY && (why.cause != DNS_RDATA_MEMORY || why.read || why.len || why.number || why.offset))
                failed = 1, printf("what the check tells where memory ran out\n");
            int same = status == wanted && count == first_count && memcmp(out, first, count) == 0;
            without += same;
            if ((status != DNS_RDATA_MEMORY && !same) || held != 0) failed = 1, printf("call %d, request %lu: %u, %ld held\n", n, k, status, held);
        }
        printf("call %d: status %u, %lu requests, %lu of them dispensable\n", n, wanted, all, without);
    }
    printf("%s\n", failed ? "failed" : "all as wanted");
    return failed;
}
