/*
 * Microseconds to go over the worst messages of 64 KiB that are known, by dns_rdata_records_next: under the limit of a walk, and without
 * a limit. The least of several walks. A line: what the message holds, the two times, and the status with which each walk ended.
 */
#include "dns_rdata.h"

#include <stdint.h>
#include <stdio.h>
#include <string.h>
#include <time.h>

enum { WALKS = 9 };

static uint8_t message[65536];
static size_t size;

static void put(const void *octets, size_t count) {
    memcpy(message + size, octets, count);
    size += count;
}

static void put_number(unsigned n) {
    uint8_t octets[] = {(uint8_t)(n >> 8), (uint8_t)n};
    put(octets, 2);
}

static void set_number(size_t at, unsigned n) {
    message[at] = (uint8_t)(n >> 8);
    message[at + 1] = (uint8_t)n;
}

/* The header, and a question, whose name at offset 12 has the most labels that a name can have. */
static void begin_labels(void) {
    size = 0;
    put("\0\0\x80\0\0\1\0\0\0\0\0\0", 12);
    for (int i = 0; i < 127; i++)
        put("\1a", 2);
    put("\0\0\1\0\1", 5);
}

/* The header, a question, and a record without a format whose RDATA is so many pointers, each to the one before: the chain. Returns the
   offset of the last pointer. */
static unsigned begin_chain(unsigned many) {
    unsigned target = 12;
    size = 0;
    put("\0\0\x80\0\0\1\0\1\0\0\0\0", 12);
    put("\1a\0\0\1\0\1", 7);
    put("\0\xff\x01\0\1\0\0\0\0", 9);
    put_number(2 * many);
    for (unsigned i = 0; i < many; i++) {
        unsigned here = (unsigned)size;
        put_number(0xc000 | target);
        target = here;
    }
    return target;
}

/* Fills the message with records of this type and RDATA, whose owner and names are pointers to this offset. */
static void fill_records(unsigned type, unsigned rdlength, const char *rdata, size_t length, unsigned target) {
    unsigned many = (unsigned)(message[6] << 8 | message[7]);
    while (size + 12 + length + 24 <= sizeof message && many < 65535) {
        put_number(0xc000 | target);
        put_number(type);
        put("\0\1\0\0\0\0", 6);
        put_number(rdlength);
        for (size_t i = 0; i < length; i++) {
            if ((uint8_t)rdata[i] == 0xc0) {
                put_number(0xc000 | target);
                i++;
            } else {
                put(rdata + i, 1);
            }
        }
        many++;
    }
    set_number(6, many);
}

static void fill_questions(void) {
    unsigned many = 1;
    while (size + 6 <= sizeof message) {
        put("\xc0\x0c\0\1\0\1", 6);
        many++;
    }
    set_number(4, many);
}

static dns_rdata_status walk(int is_limited) {
    struct dns_rdata_records records;
    struct dns_rdata_record record;
    dns_rdata_status status = dns_rdata_records_begin(message, size, &records);
    if (!is_limited && status == DNS_RDATA_OK)
        records.left = SIZE_MAX;
    while (status != DNS_RDATA_ABSENT && status < DNS_RDATA_DAMAGED)
        status = dns_rdata_records_next(message, size, &records, &record);
    return status;
}

static double least(int is_limited, dns_rdata_status *status) {
    double best = 1e9;
    for (int i = 0; i < WALKS; i++) {
        clock_t start = clock();
        *status = walk(is_limited);
        double time = (double)(clock() - start) * 1e6 / CLOCKS_PER_SEC;
        if (time < best)
            best = time;
    }
    return best;
}

static void tell(const char *what) {
    dns_rdata_status limited, unlimited;
    double first = least(1, &limited), second = least(0, &unlimited);
    printf("%-60s %9.0f %9.0f us   %s; %s\n", what, first, second, dns_rdata_strerror(limited), dns_rdata_strerror(unlimited));
}

int main(void) {
    begin_labels();
    fill_records(6, 4, "\xc0\x0c\xc0\x0c", 4, 12);
    tell("SOA of 4 octets, names of 127 labels");
    begin_labels();
    fill_records(2, 3, "\xc0\x0c\0", 3, 12);
    tell("NS of 3 octets, names of 127 labels");
    begin_labels();
    fill_records(2, 2, "\xc0\x0c", 2, 12);
    tell("NS, names of 127 labels");
    begin_labels();
    fill_questions();
    tell("questions, names of 127 labels");
    unsigned last = begin_chain(8000);
    fill_records(2, 2, "\xc0\x0c", 2, last);
    tell("NS, names of 8,000 pointers");
    last = begin_chain(8000);
    fill_records(15, 5, "\0\1\xc0\x0c\0", 5, last);
    tell("MX of 5 octets, names of 8,000 pointers");
    last = begin_chain(8000);
    fill_records(6, 4, "\xc0\x0c\xc0\x0c", 4, last);
    tell("SOA of 4 octets, names of 8,000 pointers");
    return 0;
}
