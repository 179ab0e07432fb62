/*
 * Random octets, offsets, lengths, types and buffers through every call, and what holds of their results. Every buffer ends at a
 * page that can be neither read nor written, so an access past a buffer stops the program, also one of the library, which the
 * sanitizers do not see since it is not instrumented. ./hostile ROUNDS [SEED]
 */
#define _DEFAULT_SOURCE
#include "at.h"

#include <stdio.h>
#include <stdlib.h>
#include <string.h>
#include <sys/mman.h>
#include <unistd.h>

static uint64_t state = 88172645463325252ull;

static uint64_t next(void) {
    state ^= state << 13;
    state ^= state >> 7;
    state ^= state << 17;
    return state;
}

static uint32_t below(uint32_t n) { return (uint32_t)(next() % n); }

/* Regions that are used again, each with a page after it that cannot be touched; a buffer is the end of one. */
enum { REGIONS = 16, ROOM = 1 << 16 };
static uint8_t *ends[REGIONS];
static int taken[REGIONS];

static uint8_t *guarded_region(void) {
    size_t page = (size_t)sysconf(_SC_PAGESIZE);
    uint8_t *at = (uint8_t *)mmap(NULL, ROOM + page, PROT_READ | PROT_WRITE, MAP_PRIVATE | MAP_ANONYMOUS, -1, 0);
    if (at == MAP_FAILED || mprotect(at + ROOM, page, PROT_NONE) != 0) exit(3);
    return at + ROOM;
}

static void *block(size_t n) {
    for (int i = 0; i < REGIONS && n <= ROOM; i++)
        if (!taken[i]) {
            if (ends[i] == NULL) ends[i] = guarded_region();
            taken[i] = 1;
            return ends[i] - n;
        }
    printf("no region for %zu octets\n", n);
    exit(3);
}

static void release(void *block) {
    uint8_t *at = (uint8_t *)block;
    for (int i = 0; i < REGIONS; i++)
        if (ends[i] != NULL && at >= ends[i] - ROOM && at <= ends[i]) taken[i] = 0;
}

static unsigned long round;

#define WANT(holds) do { if (!(holds)) { printf("round %lu: %s\n", round, #holds); exit(1); } } while (0)

static const uint16_t types[] = {0, 1, 2, 5, 6, 10, 12, 13, 15, 16, 28, 33, 35, 37, 41, 44, 52, 53, 61, 62, 64, 65, 251, 252, 255, 257, 65305, 48, 4711};
static const char *const words[] = {"10", "mail", "example.com.", "\"a b\"", "(", ")", ";x\n", "\\", "\"", "1.2.3.4", "::1", "0", "issue", "alpn=h2",
    "port=443", "no-default-alpn", "YWJj", "00ff", "A", "TYPE65535", "1h", "65536", "\xff", "@", ".", "\\065", "key7=x", "300", "\\#", "2", "4", "00ff0011", "alpn=\"h2,h3\"", "\\255x"};

/* The cursor gives what dns_rdata_part gives, part for part. */
static void parts_by_cursor(const uint8_t *message, size_t size, size_t place, uint16_t length, uint16_t type) {
    struct dns_rdata_parts parts = {1, 2};
    dns_rdata_status status = dns_rdata_parts_begin(at(message, size, place, length, type), &parts);
    WANT(status == DNS_RDATA_OK || (parts.next == 0 && parts.end == 0));
    for (size_t i = 0;; i++) {
        uint16_t number = 1, other = 1;
        size_t begin = 2, count = 3, other_begin = 2, other_count = 3;
        dns_rdata_status wanted = dns_rdata_part(at(message, size, place, length, type), i, &other, &other_begin, &other_count);
        if (i == 0) WANT(status == wanted);
        if (status == DNS_RDATA_OK) status = dns_rdata_parts_next(at(message, size, 0, 0, 0), &parts, &number, &begin, &count);
        WANT(status == wanted && number == other && begin == other_begin && count == other_count);
        if (status != DNS_RDATA_OK) return;
    }
}

/* A cursor of any numbers gives a part in the message, or none and sets nothing. */
static void any_cursor(const uint8_t *message, size_t size) {
    struct dns_rdata_parts parts = {below(4) ? below((uint32_t)size + 2) : (size_t)next(), below(4) ? below((uint32_t)size + 2) : (size_t)next()};
    struct dns_rdata_parts before = parts;
    uint16_t number = 79;
    size_t begin = 78, count = 77;
    if (dns_rdata_parts_next(at(message, size, 0, 0, 0), &parts, &number, &begin, &count) == DNS_RDATA_OK)
        WANT(begin == before.next + 4 && begin + count <= before.end && before.end <= size && parts.next == begin + count && parts.end == before.end);
    else
        WANT(number == 79 && begin == 78 && count == 77 && parts.next == before.next && parts.end == before.end);
}

/* A walk over records from any cursor: each record that is told is in the message, one after the other, as dns_rdata_check finds it. */
static void walk_records(const uint8_t *message, size_t size, struct dns_rdata_records records) {
    for (;;) {
        struct dns_rdata_records before = records;
        struct dns_rdata_record record = {1, 2, 3, 4, 5, 6, 7, 8, 9};
        dns_rdata_status status = dns_rdata_records_next(message, size, &records, &record);
        WANT(status == DNS_RDATA_OK || status == DNS_RDATA_ABSENT || (status >= DNS_RDATA_REFUSED && status <= DNS_RDATA_LIMIT));
        if (status == DNS_RDATA_ABSENT || status >= DNS_RDATA_DAMAGED) {
            WANT(record.owner == 1 && record.rdata == 2 && record.has_data == 9);
            if (status == DNS_RDATA_ABSENT) WANT(memcmp(&before, &records, sizeof records) == 0);
            else WANT(dns_rdata_records_next(message, size, &records, &record) == DNS_RDATA_ABSENT);
            return;
        }
        WANT(record.owner == before.next && record.rdata >= record.owner + 11 && record.rdata + record.length == records.next && records.next <= size);
        WANT(records.passed == before.passed + 1 && records.until == before.until && records.left <= before.left && records.left > 0);
        WANT(record.section >= 1 && record.section <= 3 && record.index < 65536);
        struct dns_rdata_refusal why;
        if (record.has_data) WANT(dns_rdata_check(at(message, size, record.rdata, record.length, record.type), &why) == status);
        else WANT(status == DNS_RDATA_OK && record.length == 0 && (record.rrclass == 254 || record.rrclass == 255));
    }
}

/* The records of a message with these octets after a header that counts a few, and from a cursor of any numbers. */
static void any_records(const uint8_t *octets, size_t size) {
    struct dns_rdata_records records = {below(4) ? below((uint32_t)size + 14) : (size_t)next(), below(3), below(6), below(4) ? below(9) : (size_t)next()};
    uint8_t *message = (uint8_t *)block(size + 12);
    memset(message, 0, 12);
    for (int i = 4; i < 12; i += 2) message[i + 1] = (uint8_t)below(3);
    memcpy(message + 12, octets, size);
    walk_records(message, size + 12, records);
    if (dns_rdata_records_begin(message, size + 12, &records) == DNS_RDATA_OK) {
        WANT(records.passed == 0 && records.until <= 6 && records.next <= size + 12);
        walk_records(message, size + 12, records);
    } else
        WANT(records.next == 0 && records.passed == 0 && records.until == 0 && records.left == 0);
    release(message);
}

/* Each option or parameter stands behind its number and its length, and each name is data of a record with a name at its place. */
static void parts_and_names(const uint8_t *message, size_t size, size_t place, uint16_t length, uint16_t type) {
    size_t count = 0, begin = 0, end = 0, again = 0, i = 0;
    uint16_t number = 0;
    int32_t equal = 5;
    while (dns_rdata_part(at(message, size, place, length, type), i, &number, &begin, &count) == DNS_RDATA_OK) {
        WANT(begin >= place + 4 && begin + count <= place + length && (end == 0 || begin == end + 4));
        WANT(message[begin - 4] * 256u + message[begin - 3] == number && message[begin - 2] * 256u + message[begin - 1] == count);
        end = begin + count;
        i++;
    }
    WANT(i == 0 || end == place + length);
    WANT(dns_rdata_part(at(message, size, place, length, type), i, &number, &begin, &count) == DNS_RDATA_ABSENT);
    WANT(type == 41 || type == 64 || type == 65 || i == 0);
    uint8_t name[255];
    for (i = 0; dns_rdata_name(at(message, size, place, length, type), i, name, sizeof name, &count, &begin) == DNS_RDATA_OK; i++) {
        WANT(count <= sizeof name && begin >= place && begin < place + length && name[count - 1] == 0);
        uint8_t *exact = (uint8_t *)block(count);
        WANT(dns_rdata_name(at(message, size, place, length, type), i, exact, count - 1, &again, &end) == DNS_RDATA_BUFFER && again == count && end == begin);
        WANT(dns_rdata_name(at(message, size, place, length, type), i, exact, count, &again, &end) == DNS_RDATA_OK && again == count && end == begin);
        WANT(memcmp(exact, name, count) == 0);
        release(exact);
        /* at its place there is data of NS with the same name, of some length up to its first pointer or its end */
        size_t after = begin;
        while (message[after] != 0 && message[after] < 0xc0) after += message[after] + 1u;
        after += message[after] == 0 ? 1 : 2;
        WANT(dns_rdata_equal(at(message, size, begin, (uint16_t)(after - begin), 2), at(name, count, 0, (uint16_t)count, 2), &equal) == DNS_RDATA_OK && equal == 1);
    }
    WANT(dns_rdata_name(at(message, size, place, length, type), i, name, sizeof name, &count, &begin) == DNS_RDATA_ABSENT);
    WANT(i == (type == 6 ? 2 : type == 2 || type == 5 || type == 12 || type == 15 || type == 33 || type == 35 || type == 64 || type == 65 || type == 65305));
}

/* The name at an offset: its length and its text, which is read again as its octets; none is RDATA of NS if there is no name. */
static void name_at(const uint8_t *message, size_t size, size_t place) {
    size_t length = 77, count = 77, again = 77, begin = 0;
    char none;
    dns_rdata_status status = dns_rdata_name_length(message, size, place, &length);
    if (status != DNS_RDATA_OK) {
        struct dns_rdata_refusal why;
        WANT(status == (place > size ? DNS_RDATA_MISSING_OCTETS : DNS_RDATA_NAME) && length == 77);
        WANT(dns_rdata_name_text(message, size, place, &none, 1, &count) == status && count == 77);
        WANT(dns_rdata_check(at(message, size, place, (uint16_t)below(256), 2), &why) != DNS_RDATA_OK);
        return;
    }
    uint8_t *name = (uint8_t *)block(255), *read = (uint8_t *)block(255);
    WANT(dns_rdata_name(at(message, size, place, (uint16_t)length, 2), 0, name, 255, &count, &begin) == DNS_RDATA_OK && begin == place);
    WANT(dns_rdata_name_text(message, size, place, &none, 0, &again) == DNS_RDATA_BUFFER && again <= 1004);
    char *text = (char *)block(again + 1);
    WANT(dns_rdata_name_text(message, size, place, text, again, &again) == DNS_RDATA_BUFFER);
    WANT(dns_rdata_name_text(message, size, place, text, again + 1, &again) == DNS_RDATA_OK && text[again] == 0 && strlen(text) == again);
    WANT(dns_rdata_name_from_text(text, again, (const uint8_t *)"\1o", 3, read, 255, &again) == DNS_RDATA_OK);
    WANT(again == count && memcmp(read, name, count) == 0);
    release(text);
    release(read);
    release(name);
}

/* Octets that are no data may have parts all the same, and these stand within them. */
static void part_of_damaged(const uint8_t *message, size_t size, size_t place, uint16_t length, uint16_t type) {
    uint16_t part = 79;
    size_t begin = 78, count = 77;
    dns_rdata_status status = dns_rdata_part(at(message, size, place, length, type), below(3), &part, &begin, &count);
    if (status == DNS_RDATA_OK)
        WANT(begin >= place + 4 && begin + count <= place + length && place + length <= size);
    else {
        WANT(status == DNS_RDATA_ABSENT || status == DNS_RDATA_MISSING_OCTETS || status == DNS_RDATA_NAME || status == DNS_RDATA_LENGTH);
        WANT(part == 79 && begin == 78 && count == 77);
    }
    WANT(type == 41 || type == 64 || type == 65 || status == DNS_RDATA_ABSENT);
}

int main(int argc, char **argv) {
    unsigned long rounds = argc > 1 ? strtoul(argv[1], NULL, 10) : 100000, accepted = 0, zones = 0;
    if (argc > 2) state ^= strtoull(argv[2], NULL, 10) * 0x9e3779b97f4a7c15ull | 1;
    for (round = 0; round < rounds; round++) {
        /* a message: random, or mostly small octets, so that labels and lengths are often right */
        size_t size = below(4) ? below(64) : below(700);
        uint8_t *message = (uint8_t *)block(size);
        unsigned kind = below(3);
        for (size_t i = 0; i < size; i++)
            message[i] = (uint8_t)(kind == 0 ? next() : kind == 1 ? below(6) : below(5) ? below(4) + ('a' & -(int)below(2)) : 0xc0);
        size_t place = below(8) ? below((uint32_t)size + 2) : below(64) ? 0 : (size_t)next();
        uint16_t length = (uint16_t)(below(6) ? (place <= size ? size - place : 0) : below(16) ? below(32) : next());
        uint16_t type = below(16) ? types[below(sizeof types / sizeof *types)] : (uint16_t)next();
        parts_by_cursor(message, size, place, length, type);
        any_cursor(message, size);
        any_records(message, size);
        name_at(message, size, place);
        struct dns_rdata_refusal why = {1, 2, 3, 4, 5};
        dns_rdata_status status = dns_rdata_check(at(message, size, place, length, type), &why);
        size_t count = 77, again = 78, need;
        WANT(status != DNS_RDATA_MEMORY);
        WANT(status == DNS_RDATA_OK || status >= DNS_RDATA_REFUSED);
        if (status == DNS_RDATA_OK) {
            accepted++;
            /* text: asked for, exact, one short */
            dns_rdata_status s = dns_rdata_text(at(message, size, place, length, type), (char *)&count, 0, &count);
            WANT(s == DNS_RDATA_BUFFER);
            char *zone = (char *)block(count + 1);
            WANT(dns_rdata_text(at(message, size, place, length, type), zone, count, &again) == DNS_RDATA_BUFFER && again == count);
            WANT(dns_rdata_text(at(message, size, place, length, type), zone, count + 1, &again) == DNS_RDATA_OK && again == count);
            WANT(zone[count] == 0);
            for (size_t i = 0; i < count; i++) WANT(zone[i] >= ' ' && zone[i] <= '~');
            /* which is read again, whatever the origin, as the octets without pointers that are asked for below */
            static const uint8_t far[] = {1, 'o', 0};
            uint8_t *read = (uint8_t *)block(4096);
            size_t read_count = 0, origin_length = below(2) ? sizeof far : 0;
            WANT(dns_rdata_parse(zone, count, type, far, origin_length, read, 4096, &read_count) == DNS_RDATA_OK);
            release(zone);
            parts_and_names(message, size, place, length, type);
            /* canonical octets, which are data again with the same canonical octets */
            uint8_t none = 0;
            s = dns_rdata_canonical(at(message, size, place, length, type), &none, 0, &count);
            WANT(s == DNS_RDATA_BUFFER || (s == DNS_RDATA_OK && count == 0));
            need = count;
            uint8_t *octets = (uint8_t *)block(need), *other = (uint8_t *)block(need);
            if (need) WANT(dns_rdata_canonical(at(message, size, place, length, type), octets, need - 1, &again) == DNS_RDATA_BUFFER && again == need);
            WANT(dns_rdata_canonical(at(message, size, place, length, type), octets, need, &again) == DNS_RDATA_OK && again == need);
            WANT(dns_rdata_check(at(octets, need, 0, (uint16_t)need, type), &why) == DNS_RDATA_OK);
            WANT(dns_rdata_canonical(at(octets, need, 0, (uint16_t)need, type), other, need, &again) == DNS_RDATA_OK && again == need);
            WANT(need == 0 || memcmp(octets, other, need) == 0);
            WANT(dns_rdata_compare_canonical(octets, need, other, need) == 0);
            int32_t order = 5;
            WANT(dns_rdata_compare(at(message, size, place, length, type), at(octets, need, 0, (uint16_t)need, type), &order) == DNS_RDATA_OK && order == 0);
            int32_t equal = 5;
            WANT(dns_rdata_equal(at(message, size, place, length, type), at(octets, need, 0, (uint16_t)need, type), &equal) == DNS_RDATA_OK && equal == 1);
            /* a neighbour */
            if (need) {
                other[below((uint32_t)need)] ^= (uint8_t)(1 + below(255));
                if (dns_rdata_check(at(other, need, 0, (uint16_t)need, type), &why) == DNS_RDATA_OK) {
                    int32_t turned = 5;
                    WANT(dns_rdata_compare(at(message, size, place, length, type), at(other, need, 0, (uint16_t)need, type), &order) == DNS_RDATA_OK);
                    WANT(dns_rdata_compare(at(other, need, 0, (uint16_t)need, type), at(message, size, place, length, type), &turned) == DNS_RDATA_OK);
                    WANT(order == -turned && order >= -1 && order <= 1);
                    WANT(dns_rdata_equal(at(message, size, place, length, type), at(other, need, 0, (uint16_t)need, type), &equal) == DNS_RDATA_OK);
                    WANT(equal == (order == 0));
                }
            }
            release(other);
            /* octets without pointers: data again, equal */
            s = dns_rdata_wire(at(message, size, place, length, type), &none, 0, &count);
            WANT(s == DNS_RDATA_BUFFER || (s == DNS_RDATA_OK && count == 0));
            uint8_t *wire = (uint8_t *)block(count);
            WANT(dns_rdata_wire(at(message, size, place, length, type), wire, count, &again) == DNS_RDATA_OK && again == count);
            WANT(read_count == count && memcmp(read, wire, count) == 0);
            release(read);
            WANT(dns_rdata_compare(at(wire, count, 0, (uint16_t)count, type), at(octets, need, 0, (uint16_t)need, type), &order) == DNS_RDATA_OK && order == 0);
            release(wire);
            release(octets);
        } else {
            char text[4];
            /* the record's own error, and where reading stopped */
            WANT(why.cause == status || status == DNS_RDATA_LENGTH);
            WANT(why.cause == DNS_RDATA_OK || why.cause >= DNS_RDATA_REFUSED);
            WANT(place > size ? why.offset == place : why.offset >= place && why.offset <= size);
            if (status == DNS_RDATA_LENGTH && why.cause != DNS_RDATA_LENGTH)
                WANT(why.read == why.offset - place && why.len == length && why.read != length);
            if (status != DNS_RDATA_LENGTH && status != DNS_RDATA_NEVER && place <= size) WANT(why.offset == place + length);
            WANT(dns_rdata_canonical(at(message, size, place, length, type), (uint8_t *)text, sizeof text, &count) == status && count == 77);
            WANT(dns_rdata_wire(at(message, size, place, length, type), (uint8_t *)text, sizeof text, &count) == status && count == 77);
            WANT(dns_rdata_text(at(message, size, place, length, type), text, sizeof text, &count) == status && count == 77);
            WANT(dns_rdata_name(at(message, size, place, length, type), below(3), (uint8_t *)text, sizeof text, &count, &again) == status);
            WANT(count == 77 && again == 78);
            part_of_damaged(message, size, place, length, type);
            int32_t equal = 5;
            WANT(dns_rdata_equal(at(message, size, place, length, type), at(message, size, place, length, type), &equal) == status && equal == 5);
            WANT(dns_rdata_compare(at(message, size, place, length, type), at(message, size, place, length, type), &equal) == status && equal == 5);
        }
        release(message);

        /* a text of words, and one of random octets */
        char line[256];
        size_t n = 0;
        if (below(4)) {
            for (unsigned i = 1 + below(7); i > 0; i--) {
                const char *word = words[below(sizeof words / sizeof *words)];
                if (n + strlen(word) + 1 < sizeof line) {
                    memcpy(line + n, word, strlen(word));
                    n += strlen(word);
                    line[n++] = ' ';
                }
            }
        } else
            for (n = 0; n < below(40); n++) line[n] = (char)next();
        char *text = (char *)block(n);
        memcpy(text, line, n);
        uint16_t ttype = types[below(sizeof types / sizeof *types)];
        static const uint8_t origins[] = {1, 'x', 0, 7, 'y'};
        size_t from = below(5), many = below((uint32_t)(sizeof origins - from) + 1);
        uint8_t *origin = (uint8_t *)block(many);
        memcpy(origin, origins + from, many);
        size_t room = below(2) ? 4096 : below(8);
        uint8_t *out = (uint8_t *)block(room);
        status = dns_rdata_parse(text, n, ttype, origin, many, out, room, &count);
        WANT(status != DNS_RDATA_MEMORY && status < 64);
        if (status == DNS_RDATA_OK) {
            zones++;
            WANT(count <= room);
            WANT(dns_rdata_check(at(out, count, 0, (uint16_t)count, ttype), &why) == DNS_RDATA_OK);
        }
        struct dns_rdata_text_fault fault = {1, 1, 1, 1, 1};
        dns_rdata_status said = dns_rdata_parse_why(text, n, ttype, origin, many, line, sizeof line, &again, &fault);
        WANT(said == (status >= DNS_RDATA_NO_DATA_TEXT ? DNS_RDATA_OK : status == DNS_RDATA_ORIGIN ? status : DNS_RDATA_ABSENT));
        if (said == DNS_RDATA_OK) {
            WANT(line[again] == 0 && strlen(line) == again && fault.begin <= fault.end && fault.end <= n && fault.field + fault.field_length <= again);
            WANT((fault.cause != 0) == (status == DNS_RDATA_WRONG_VALUE) && (again > 0) == (status < DNS_RDATA_UNSUPPORTED_TYPE));
            WANT(fault.end == 0 || fault.field_length > 0);
        } else
            WANT(fault.begin == 1 && fault.cause == 1);
        status = dns_rdata_name_from_text(text, n, origin, many, out, room, &count);
        WANT(status == DNS_RDATA_OK || status == DNS_RDATA_BUFFER || status == DNS_RDATA_ORIGIN || status == DNS_RDATA_MISSING_WORD || status == DNS_RDATA_WRONG_WORD);
        if (status == DNS_RDATA_OK) WANT(dns_rdata_name_length(out, count, 0, &again) == DNS_RDATA_OK && again == count && count <= 255);
        uint16_t number = 9;
        status = dns_rdata_type_number(text, n, &number);
        WANT(status == DNS_RDATA_OK || status == DNS_RDATA_NO_TYPE || status == DNS_RDATA_NOT_UTF8);
        number = (uint16_t)next();
        char name[16];
        WANT(dns_rdata_type_text(number, name, sizeof name, &count) == DNS_RDATA_OK);
        uint16_t back = 0;
        WANT(dns_rdata_type_number(name, count, &back) == DNS_RDATA_OK && back == number);
        release(text);
        release(origin);
        release(out);
    }
    printf("%lu rounds, %lu data, %lu texts of a zone file\n", rounds, accepted, zones);
    return 0;
}
