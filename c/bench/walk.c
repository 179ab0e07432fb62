/*
 * Nanoseconds to go over a response of 20 records: dns_rdata_records_next, and a plain C loop that checks the same of the same types.
 * Each figure is the least of PARTS parts, by turns. Prints both, and how many times as long the library takes. Then the nanoseconds a
 * record of messages of more and more records, up to 64 KiB: the time is linear in the message if these are the same.
 */
#include "dns_rdata.h"

#include <stdio.h>
#include <stdlib.h>
#include <string.h>
#include <time.h>

enum { PARTS = 9, ROUNDS = 20000, RECORDS = 20 };

static uint8_t message[65536];
static size_t size;
static volatile unsigned long sink;

static void put(const void *octets, size_t count) {
    memcpy(message + size, octets, count);
    size += count;
}

static void put_number(unsigned n) {
    uint8_t octets[] = {(uint8_t)(n >> 8), (uint8_t)n};
    put(octets, 2);
}

/* A record whose owner is a pointer to the name of the question, at 12. */
static void put_record(unsigned type, const char *rdata, size_t length) {
    put("\xc0\x0c", 2);
    put_number(type);
    put_number(1);
    put_number(0);
    put_number(300);
    put_number((unsigned)length);
    put(rdata, length);
}

#define PUT(type, text) put_record(type, text, sizeof text - 1)

/* What a name server sends: addresses, mail and name servers with compressed names, texts, an SOA. */
static void make_response(void) {
    put("\x12\x34\x84\x00\x00\x01\x00\x14\x00\x00\x00\x00", 12);
    put("\x03www\x07" "example\x03" "com\x00\x00\xff\x00\x01", 21);
    for (int i = 0; i < 4; i++) {
        PUT(1, "\xc0\x00\x02\x01");
        PUT(28, "\x20\x01\x0d\xb8\0\0\0\0\0\0\0\0\0\0\0\x01");
        PUT(15, "\x00\x0a\x04mail\xc0\x10");
    }
    for (int i = 0; i < 3; i++) {
        PUT(2, "\x02ns\xc0\x10");
        PUT(16, "\x0bv=spf1 -all\x05hello");
    }
    PUT(33, "\x00\x01\x00\x02\x01\xbb\x03www\x07" "example\x03net\x00");
    PUT(6, "\x02ns\xc0\x10\x05" "admin\xc0\x10\x78\xc3\x4b\x98\x00\x00\x1c\x20\x00\x00\x03\x84\x00\x12\x75\x00\x00\x01\x51\x80");
}

/* So many records of MX, each owner a name of its own that ends with a pointer, each exchange a pointer to its owner. */
static void make_long(unsigned records) {
    size = 0;
    put("\x12\x34\x84\x00\x00\x01", 6);
    put_number(records);
    put("\0\0\0\0\x03www\x07" "example\x03" "com\x00\x00\xff\x00\x01", 25);
    for (unsigned i = 0; i < records; i++) {
        char name[3] = {2, (char)('a' + i % 26), (char)('a' + i / 26 % 26)};
        put(name, 3);
        put_record(15, "\x00\x0a\xc0\x0c", 4);
    }
}

/* ---- a plain loop */

/* The offset after the name at an offset, or 0: labels of at most 63 octets, 254 before the last 0, pointers before their run. */
static size_t name_end(size_t at, unsigned *pointers) {
    size_t end = 0, start = at, most = size, octets = 0;
    for (;;) {
        if (at >= most) return 0;
        unsigned first = message[at];
        if (first == 0) return end != 0 ? end : at + 1;
        if (first >= 192) {
            if (most - at < 2) return 0;
            size_t target = (size_t)(first - 192) << 8 | message[at + 1];
            if (target >= start) return 0;
            if (end == 0) end = at + 2;
            ++*pointers;
            most = start;
            start = at = target;
            continue;
        }
        if (first >= 64 || most - at <= first || octets + first >= 254) return 0;
        at += first + 1;
        octets += first + 1;
    }
}

static int is_rdata(unsigned type, size_t at, size_t length, unsigned *pointers) {
    size_t end = at + length;
    switch (type) {
    case 1: return length == 4;
    case 28: return length == 16;
    case 2: return name_end(at, pointers) == end;
    case 15: return length >= 2 && name_end(at + 2, pointers) == end;
    case 33: return length >= 6 && name_end(at + 6, pointers) == end;
    case 6:
        at = name_end(at, pointers);
        if (at == 0) return 0;
        at = name_end(at, pointers);
        return at != 0 && at + 20 == end;
    case 16:
        while (at < end) at += (size_t)message[at] + 1;
        return at == end;
    default: return 1;
    }
}

static unsigned number_at(size_t at) { return (unsigned)message[at] << 8 | message[at + 1]; }

static unsigned long plain(void) {
    unsigned pointers = 0;
    unsigned long sum = 0;
    size_t at = name_end(12, &pointers);
    if (at == 0 || size - at < 4) return 0;
    at += 4;
    for (unsigned i = number_at(6); i > 0; i--) {
        size_t fixed = name_end(at, &pointers);
        if (fixed == 0 || size - fixed < 10) return 0;
        unsigned type = number_at(fixed), length = number_at(fixed + 8);
        if (size - fixed - 10 < length) return 0;
        if (!is_rdata(type, fixed + 10, length, &pointers) || pointers > 65536) return 0;
        sum += type + number_at(fixed + 2) + number_at(fixed + 4) + number_at(fixed + 6) + fixed;
        at = fixed + 10 + length;
    }
    return sum;
}

static unsigned long library(void) {
    struct dns_rdata_records records;
    struct dns_rdata_record record;
    unsigned long sum = 0;
    if (dns_rdata_records_begin(message, size, &records) != DNS_RDATA_OK) return 0;
    while (dns_rdata_records_next(message, size, &records, &record) == DNS_RDATA_OK)
        sum += record.type + record.rrclass + (record.ttl >> 16) + (record.ttl & 65535) + record.rdata - 10;
    return sum;
}

static double now(void) {
    struct timespec t;
    clock_gettime(CLOCK_PROCESS_CPUTIME_ID, &t);
    return (double)t.tv_sec * 1e9 + (double)t.tv_nsec;
}

static double part(unsigned long (*walk)(void), int rounds) {
    double start = now();
    for (int i = 0; i < rounds; i++) sink += walk();
    return (now() - start) / rounds;
}

static int show_growth(void) {
    for (unsigned records = 16; records <= 3000; records = records < 1024 ? 4 * records : records + 1976) {
        make_long(records);
        if (library() == 0 || library() != plain()) return 0;
        double least = 1e18;
        for (int i = 0; i < PARTS; i++) {
            double a = part(library, (int)(ROUNDS * RECORDS / 4 / records));
            if (a < least) least = a;
        }
        printf("%u records in %zu octets: %.1f ns a record\n", records, size, least / records);
    }
    return 1;
}

int main(void) {
    make_response();
    if (library() == 0 || library() != plain()) return printf("the two do not agree\n"), 1;
    double least[2] = {1e18, 1e18};
    for (int i = 0; i < PARTS; i++) {
        double a = part(library, ROUNDS), b = part(plain, ROUNDS);
        if (a < least[0]) least[0] = a;
        if (b < least[1]) least[1] = b;
    }
    printf("%d records in %zu octets: the library %.0f ns, a plain loop %.0f ns, %.2f times\n", RECORDS, size, least[0], least[1],
           least[0] / least[1]);
    return show_growth() ? 0 : (printf("the two do not agree\n"), 1);
}
