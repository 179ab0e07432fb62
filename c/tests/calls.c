/* Each call at least once: prints what it gives, which run.sh compares with calls.out. */
#include "at.h"

#include <stdio.h>
#include <stdlib.h>
#include <string.h>
#include <time.h>

static int failed;

static void want(int holds, const char *what) {
    if (!holds) {
        failed = 1;
        printf("not as wanted: %s\n", what);
    }
}

static void print_octets(const char *label, const uint8_t *octets, size_t count) {
    printf("%s", label);
    for (size_t i = 0; i < count; i++)
        printf("%02x", octets[i]);
    printf("\n");
}

/* A response: a header, the question for mail of Example.com, and two answers whose names are pointers. */
static const uint8_t message[] = {
    0x12, 0x34, 0x81, 0x80, 0, 1, 0, 2, 0, 0, 0, 0,
    7, 'E', 'x', 'a', 'm', 'p', 'l', 'e', 3, 'c', 'o', 'm', 0, 0, 15, 0, 1, /* 12 */
    0xc0, 12, 0, 15, 0, 1, 0, 0, 1, 0x2c, 0, 9, /* 29 */
    0, 10, 4, 'm', 'a', 'i', 'l', 0xc0, 12, /* 41 */
    0xc0, 12, 0, 15, 0, 1, 0, 0, 1, 0x2c, 0, 4, /* 50 */
    0, 5, 0xc0, 43, /* 62 */
};

struct key {
    uint8_t octets[512];
    size_t count;
};

static int by_octets(const void *a, const void *b) {
    const struct key *x = (const struct key *)a, *y = (const struct key *)b;
    return dns_rdata_compare_canonical(x->octets, x->count, y->octets, y->count);
}

/* Checks octets that are the whole message, and compares the status, the record's own error, and where reading stopped. */
static struct dns_rdata_refusal rejection(const uint8_t *octets, size_t count, size_t place, uint16_t length, uint16_t type,
                                          dns_rdata_status status, dns_rdata_status cause, size_t offset, const char *what) {
    struct dns_rdata_refusal why = {9, 9, 9, 9, 9};
    want(dns_rdata_check(at(octets, count, place, length, type), &why) == status, what);
    want(why.cause == cause && why.offset == offset, what);
    if (status == DNS_RDATA_LENGTH && cause != DNS_RDATA_LENGTH)
        want(why.read == offset - place && why.len == length, what);
    else if (status != DNS_RDATA_LENGTH)
        want(why.read == 0 && why.len == 0, what);
    return why;
}

/* The number of octets is tested before the record's own error, which is the cause. */
static void rejected(void) {
    static const uint8_t address[] = {192, 0, 2};
    static const uint8_t addresses[] = {192, 0, 2, 1, 0};
    static const uint8_t mail[] = {0, 10, 0xc0, 4, 0}; /* a compression pointer forward */
    static const uint8_t issuer[] = {0, 5, 'i', 's', 's', 'u', '-', 'c', 'a'}; /* "-" ends the tag, and a value follows */
    static const uint8_t sync[] = {0, 0, 0, 1, 0, 4, 0, 1, 0x40}; /* an unknown flag, then a bitmap */
    static const uint8_t service[] = {0, 1, 0, 0, 3, 0, 2, 1, 187, 0}; /* port 443, and one octet */
    static const uint8_t strings[] = {3, 'a', 'b', 'c'};
    static const uint8_t options[] = {0, 8, 0, 4, 0, 3, 0, 0}; /* a client subnet of family 3 */
    static const uint8_t certificate[] = {1, 2, 3, 4};
    struct dns_rdata_refusal why;
    rejection(address, 3, 0, 4, 1, DNS_RDATA_LENGTH, DNS_RDATA_MISSING_OCTETS, 3, "the message ends inside an A");
    rejection(mail, 5, 0, 4, 15, DNS_RDATA_LENGTH, DNS_RDATA_NAME, 2, "a pointer forward in MX");
    rejection(issuer, 9, 0, 9, 257, DNS_RDATA_LENGTH, DNS_RDATA_CAA_TAG, 7, "a bad tag in CAA");
    why = rejection(sync, 9, 0, 9, 62, DNS_RDATA_LENGTH, DNS_RDATA_CSYNC_FLAGS, 6, "an unknown flag in CSYNC");
    want(why.number == 4, "the unknown flag");
    rejection(addresses, 5, 0, 5, 1, DNS_RDATA_LENGTH, DNS_RDATA_OK, 4, "five octets of A");
    rejection(addresses, 5, 1, 3, 1, DNS_RDATA_LENGTH, DNS_RDATA_OK, 5, "three octets of A");
    rejection(service, 10, 0, 10, 64, DNS_RDATA_LENGTH, DNS_RDATA_OK, 9, "an octet after the parameters of SVCB");
    rejection(strings, 4, 0, 3, 16, DNS_RDATA_LENGTH, DNS_RDATA_OK, 4, "a string that passes the length");
    why = rejection(options, 8, 0, 8, 41, DNS_RDATA_ADDRESS_FAMILY, DNS_RDATA_ADDRESS_FAMILY, 8, "an unknown family");
    want(why.number == 3, "the unknown family");
    rejection(certificate, 4, 0, 4, 37, DNS_RDATA_LENGTH, DNS_RDATA_LENGTH, 0, "a CERT without room for a certificate");
    rejection(issuer, 9, 0, 7, 257, DNS_RDATA_CAA_TAG, DNS_RDATA_CAA_TAG, 7, "a bad tag at the end of CAA");
    why = rejection(sync, 9, 0, 6, 62, DNS_RDATA_CSYNC_FLAGS, DNS_RDATA_CSYNC_FLAGS, 6, "an unknown flag at the end of CSYNC");
    want(why.number == 4, "the unknown flag");
    rejection(address, 3, 4, 4, 1, DNS_RDATA_MISSING_OCTETS, DNS_RDATA_MISSING_OCTETS, 4, "an offset past the end of the message");
    why = rejection(address, 3, 1, 2, 255, DNS_RDATA_NEVER, DNS_RDATA_NEVER, 1, "ANY");
    want(why.number == 255, "the number of ANY");
}

/* All of so many options without octets, one after the other. Returns the processor time. */
static clock_t all_options(size_t many) {
    static uint8_t octets[4 * 16000];
    struct dns_rdata_parts parts;
    uint16_t code = 0;
    size_t begin = 0, count = 0, seen = 0;
    clock_t start = clock();
    for (size_t i = 0; i < many; i++)
        octets[4 * i + 1] = 12;
    dns_rdata_status status = dns_rdata_parts_begin(at(octets, 4 * many, 0, (uint16_t)(4 * many), 41), &parts);
    while (status == DNS_RDATA_OK) {
        status = dns_rdata_parts_next(at(octets, 4 * many, 0, 0, 0), &parts, &code, &begin, &count);
        if (status == DNS_RDATA_OK) {
            want(code == 12 && count == 0 && begin == 4 * seen + 4, "an option in its order");
            seen++;
        }
    }
    want(status == DNS_RDATA_ABSENT && seen == many, "all options");
    return clock() - start;
}

/* The least time of several walks over so many options. */
static clock_t least_time(size_t many) {
    clock_t least = all_options(many);
    for (int i = 0; i < 8; i++) {
        clock_t time = all_options(many);
        if (time < least)
            least = time;
    }
    return least;
}

/* Eight times as many options take eight times as long, and not 64 times: the least of several walks, with room for a machine that
   is slow or busy, and for a clock of 10 milliseconds. */
static void many_options(void) {
    want(least_time(16000) < 32 * (least_time(2000) + CLOCKS_PER_SEC / 1000), "16,000 options in linear time");
}

/* SVCB with a compressed target. Its RDATA has one octet more when it is uncompressed; past 65535 no text of it can be read. */
static void long_text(void) {
    static uint8_t octets[3 + 65535];
    static char text[400000];
    size_t count = 5;
    uint8_t *rdata = octets + 3;
    octets[0] = 1, octets[1] = 'x'; /* the name x. */
    rdata[1] = 1;
    rdata[2] = 0xc0; /* a compression pointer to it */
    rdata[4] = 0xff, rdata[6] = 0xff, rdata[7] = 0xf7; /* key65280 with 65,527 octets */
    want(dns_rdata_text(at(octets, sizeof octets, 3, 65535, 64), text, sizeof text, &count) == DNS_RDATA_TOO_LONG && count == 5, "65,536 octets uncompressed");
    rdata[7] = 0xf6;
    want(dns_rdata_text(at(octets, sizeof octets, 3, 65534, 64), text, sizeof text, &count) == DNS_RDATA_OK, "65,535 octets uncompressed");
    static uint8_t read[65535];
    want(dns_rdata_parse(text, count, 64, octets, 0, read, sizeof read, &count) == DNS_RDATA_OK && count == 65535, "whose text is read");
}

/* The records of a message are told one after the other. Rejected RDATA does not end the walk, and damage before it does. */
static void records_of_message(void) {
    struct dns_rdata_records records;
    struct dns_rdata_record record;
    uint8_t copy[sizeof message];
    dns_rdata_status status = dns_rdata_records_begin(message, sizeof message, &records);
    want(status == DNS_RDATA_OK && records.next == 29 && records.passed == 0 && records.until == 2 && records.left == 262143, "a walk");
    while ((status = dns_rdata_records_next(message, sizeof message, &records, &record)) == DNS_RDATA_OK)
        printf("record %zu of section %u: owner at %zu, type %u, class %u, TTL %u, %u octets at %zu, data %u\n", record.index,
               (unsigned)record.section, record.owner, record.type, record.rrclass, (unsigned)record.ttl, record.length, record.rdata,
               record.has_data);
    want(status == DNS_RDATA_ABSENT && records.next == sizeof message, "the end of the records");
    want(dns_rdata_records_next(message, sizeof message, &records, &record) == DNS_RDATA_ABSENT, "none after the last");

    want(dns_rdata_records_begin(message, 11, &records) == DNS_RDATA_HEADER, "no header");
    want(dns_rdata_records_next(message, sizeof message, &records, &record) == DNS_RDATA_ABSENT, "no records after an error");
    want(dns_rdata_records_begin(message, 28, &records) == DNS_RDATA_QUESTION, "the message ends in its question");

    memcpy(copy, message, sizeof message);
    copy[43] = 64; /* no length of a label: the RDATA of the first record is rejected */
    want(dns_rdata_records_begin(copy, sizeof copy, &records) == DNS_RDATA_OK, "a walk over rejected RDATA");
    status = dns_rdata_records_next(copy, sizeof copy, &records, &record);
    want(status == DNS_RDATA_LENGTH && record.index == 0 && record.rdata == 41 && record.length == 9 && record.type == 15, "rejected RDATA");
    status = dns_rdata_records_next(copy, sizeof copy, &records, &record);
    want(status == DNS_RDATA_LENGTH && record.index == 1 && record.rdata == 62, "the record after it, whose name points there");
    want(dns_rdata_records_next(copy, sizeof copy, &records, &record) == DNS_RDATA_ABSENT, "the end after rejected RDATA");

    copy[40] = 200; /* RDLENGTH passes the end of the message */
    want(dns_rdata_records_begin(copy, sizeof copy, &records) == DNS_RDATA_OK, "a walk over a damaged record");
    want(dns_rdata_records_next(copy, sizeof copy, &records, &record) == DNS_RDATA_RECORD, "a damaged record");
    want(records.next == 29 && records.passed == 0 && records.until == 0 && records.left == 262143, "where the walk has ended");
    want(dns_rdata_records_next(copy, sizeof copy, &records, &record) == DNS_RDATA_ABSENT, "the walk has ended");

    want(dns_rdata_records_begin(message, sizeof message, &records) == DNS_RDATA_OK, "a walk with a limit");
    records.left = 3; /* two steps, and the owner of the first record has three: a pointer and two labels */
    want(dns_rdata_records_next(message, sizeof message, &records, &record) == DNS_RDATA_LIMIT, "too many labels and pointers");
    want(records.next == 29 && records.passed == 0 && records.until == 0 && records.left == 3, "where the walk has ended");
    want(dns_rdata_records_next(message, sizeof message, &records, &record) == DNS_RDATA_ABSENT, "the walk has ended there");

    /* an UPDATE that deletes all addresses of a name: class ANY, no data (RFC 2136, section 2.5.2) */
    static const uint8_t update[] = {0, 1, 40, 0, 0, 1, 0, 0, 0, 1, 0, 0, 1, 'x', 0, 0, 6, 0, 1, 0xc0, 12, 0, 1, 0, 255, 0, 0, 0, 0, 0, 0};
    want(dns_rdata_records_begin(update, sizeof update, &records) == DNS_RDATA_OK, "an UPDATE");
    status = dns_rdata_records_next(update, sizeof update, &records, &record);
    want(status == DNS_RDATA_OK && record.section == 2 && record.has_data == 0 && record.length == 0 && record.rrclass == 255, "no data");
}

/* Names of a message, and names of text. */
static void names(void) {
    /* Example.com at 12, mail.Example.com with a pointer at 43; a label with a dot, a blank and an octet that is no letter */
    static const uint8_t odd[] = {4, 'a', '.', ' ', 0xff, 0, 0xc0, 0, 0xc0, 8, 1};
    static const uint8_t origin[] = {3, 'o', 'r', 'g', 0};
    char text[1005];
    uint8_t octets[255];
    size_t count = 7;
    want(dns_rdata_name_length(message, sizeof message, 12, &count) == DNS_RDATA_OK && count == 13, "the length of a name");
    want(dns_rdata_name_length(message, sizeof message, 43, &count) == DNS_RDATA_OK && count == 7, "up to its pointer");
    want(dns_rdata_name_length(odd, sizeof odd, 6, &count) == DNS_RDATA_OK && count == 2, "a pointer alone");
    want(dns_rdata_name_length(odd, sizeof odd, 5, &count) == DNS_RDATA_OK && count == 1, "the root");
    count = 7;
    want(dns_rdata_name_length(odd, sizeof odd, 8, &count) == DNS_RDATA_NAME && count == 7, "a pointer to itself");
    want(dns_rdata_name_length(odd, sizeof odd, 10, &count) == DNS_RDATA_NAME && count == 7, "a label that is cut off");
    want(dns_rdata_name_length(odd, sizeof odd, 11, &count) == DNS_RDATA_NAME && count == 7, "no octet");
    want(dns_rdata_name_length(odd, sizeof odd, 12, &count) == DNS_RDATA_MISSING_OCTETS && count == 7, "past the end");
    want(dns_rdata_name_text(message, sizeof message, 43, text, sizeof text, &count) == DNS_RDATA_OK, "the text of a name");
    printf("name %s, of %zu\n", text, count);
    want(dns_rdata_name_text(message, sizeof message, 43, text, count, &count) == DNS_RDATA_BUFFER && count == 17, "no room for the 0");
    want(dns_rdata_name_text(message, sizeof message, 43, text, count + 1, &count) == DNS_RDATA_OK && count == 17, "room for it");
    want(dns_rdata_name_text(odd, sizeof odd, 6, text, sizeof text, &count) == DNS_RDATA_OK, "the text of an odd name");
    printf("name %s, of %zu\n", text, count);
    want(dns_rdata_name_from_text(text, count, origin, 0, octets, sizeof octets, &count) == DNS_RDATA_OK, "which is read");
    want(count == 6 && memcmp(octets, odd, 6) == 0, "as that name");
    want(dns_rdata_name_text(odd, sizeof odd, 5, text, sizeof text, &count) == DNS_RDATA_OK && strcmp(text, ".") == 0, "the text of the root");
    count = 7;
    want(dns_rdata_name_text(odd, sizeof odd, 8, text, sizeof text, &count) == DNS_RDATA_NAME && count == 7, "no name");
    want(dns_rdata_name_text(odd, sizeof odd, 12, text, sizeof text, &count) == DNS_RDATA_MISSING_OCTETS && count == 7, "past the end");

    static const char *const texts[] = {"Mail", "mail.", "@", ".", "a\\.b\\066 ; a comment"};
    for (int i = 0; i < 5; i++) {
        want(dns_rdata_name_from_text(texts[i], strlen(texts[i]), origin, sizeof origin, octets, sizeof octets, &count) == DNS_RDATA_OK, texts[i]);
        print_octets("name ", octets, count);
    }
    want(dns_rdata_name_from_text("Mail", 4, origin, 0, octets, 6, &count) == DNS_RDATA_OK && count == 6, "no origin");
    want(dns_rdata_name_from_text("Mail", 4, origin, 0, octets, 5, &count) == DNS_RDATA_BUFFER && count == 6, "one octet short");
    want(dns_rdata_name_from_text("Mail", 4, origin, 4, octets, sizeof octets, &count) == DNS_RDATA_ORIGIN, "no name as origin");
    want(dns_rdata_name_from_text("@", 1, origin, 0, octets, sizeof octets, &count) == DNS_RDATA_WRONG_WORD, "no origin to name");
    want(dns_rdata_name_from_text(" ; x", 4, origin, 0, octets, sizeof octets, &count) == DNS_RDATA_MISSING_WORD, "no token");
    static const char *const wrong[] = {"a b", "\"a\"", "a..b", "a\\", "(a"};
    for (int i = 0; i < 5; i++)
        want(dns_rdata_name_from_text(wrong[i], strlen(wrong[i]), origin, 0, octets, sizeof octets, &count) == DNS_RDATA_WRONG_WORD, wrong[i]);

    /* the longest name, and the longest text */
    uint8_t longest[255];
    for (int i = 0; i < 4; i++) {
        memset(longest + 64 * i, 1, 64 - (i == 3));
        longest[64 * i] = (uint8_t)(i == 3 ? 61 : 63);
    }
    longest[254] = 0;
    want(dns_rdata_name_text(longest, sizeof longest, 0, text, sizeof text, &count) == DNS_RDATA_OK && count == 1004, "the longest text");
    want(dns_rdata_name_from_text(text, count, origin, 0, octets, sizeof octets, &count) == DNS_RDATA_OK && count == 255, "the longest name");
    want(memcmp(octets, longest, 255) == 0, "as it was");
}

/* Why texts are rejected: the reason, the token, the field in the reason, and the status of the octets. */
static void reason(const char *text, uint16_t type, const char *wanted, size_t begin, size_t end, const char *field, dns_rdata_status cause) {
    struct dns_rdata_text_fault fault = {9, 9, 9, 9, 9};
    char out[256];
    size_t count = 7;
    want(dns_rdata_parse_why(text, strlen(text), type, (const uint8_t *)"", 1, out, sizeof out, &count, &fault) == DNS_RDATA_OK, text);
    want(strcmp(out, wanted) == 0 && count == strlen(wanted), wanted);
    want(fault.begin == begin && fault.end == end && fault.cause == cause, text);
    want(fault.field_length == strlen(field) && strncmp(out + fault.field, field, fault.field_length) == 0, field);
    fault.begin = 9;
    want(dns_rdata_parse_why(text, strlen(text), type, (const uint8_t *)"", 1, out, count, &count, &fault) == DNS_RDATA_BUFFER, "no room for the 0");
    want(fault.begin == begin && count == strlen(wanted), "what is set without room");
}

static void reasons(void) {
    struct dns_rdata_text_fault fault = {9, 9, 9, 9, 9};
    char out[256];
    size_t count = 7;
    reason("10 a..b", DNS_RDATA_TYPE_MX, "empty label in a domain name in MX exchange token", 3, 7, "MX exchange", 0);
    reason(" ten mail", DNS_RDATA_TYPE_MX, "Invalid digit found in MX preference token", 1, 4, "MX preference", 0);
    reason("10", DNS_RDATA_TYPE_MX, "MX exchange", 0, 0, "MX exchange", 0);
    reason("\"a", DNS_RDATA_TYPE_TXT, "quotes without an end", 0, 0, "", 0);
    reason("\\# 3 0a0000", DNS_RDATA_TYPE_A, "", 0, 0, "", DNS_RDATA_MISSING_OCTETS);
    reason("\\# 5 0a00000000", DNS_RDATA_TYPE_A, "", 0, 0, "", DNS_RDATA_LENGTH);
    reason("x", DNS_RDATA_TYPE_OPT, "", 0, 0, "", 0);
    want(dns_rdata_parse_why("10 mail", 7, 15, (const uint8_t *)"", 1, out, sizeof out, &count, &fault) == DNS_RDATA_ABSENT, "a text that is read");
    want(dns_rdata_parse_why("10 mail", 7, 15, (const uint8_t *)"\1", 1, out, sizeof out, &count, &fault) == DNS_RDATA_ORIGIN, "no name as origin");
    want(count == 7 && fault.begin == 9 && fault.cause == 9, "nothing is set");
}

/* Each status has a text of its own, and a number that is none another one. */
static void texts_of_statuses(void) {
    static const dns_rdata_status all[] = {0, 1, 2, 3, 6, 7, 9, 10, 16, 17, 18, 19, 20, 21, 22, 23, 24, 25, 26, 27, 28, 32, 33, 34, 35, 48, 49, 50, 52};
    enum { MANY = sizeof all / sizeof *all };
    const char *unknown = dns_rdata_strerror(4711);
    int known = 0;
    for (dns_rdata_status n = 0; n < 100; n++)
        known += strcmp(dns_rdata_strerror(n), unknown) != 0;
    want(known == MANY, "as many texts as statuses");
    for (int i = 0; i < MANY; i++) {
        want(strcmp(dns_rdata_strerror(all[i]), unknown) != 0, "a status with a text");
        for (int j = 0; j < i; j++)
            want(strcmp(dns_rdata_strerror(all[i]), dns_rdata_strerror(all[j])) != 0, "two statuses with two texts");
    }
    printf("%s: %s\n", dns_rdata_strerror(DNS_RDATA_NAME), unknown);
    char version[32];
    snprintf(version, sizeof version, "%d.%d.%d", DNS_RDATA_VERSION_MAJOR, DNS_RDATA_VERSION_MINOR, DNS_RDATA_VERSION_PATCH);
    want(strcmp(dns_rdata_version(), DNS_RDATA_VERSION) == 0 && strcmp(version, DNS_RDATA_VERSION) == 0, "the version");
    want(DNS_RDATA_TYPE_A == 1 && DNS_RDATA_TYPE_HTTPS == 65 && DNS_RDATA_TYPE_CAA == 257, "the types");
}

int main(void) {
    char text[256];
    uint8_t octets[512];
    size_t count = 0;
    uint16_t type = 0;
    struct dns_rdata_refusal why = {0, 0, 0, 0, 0};
    int32_t order = 7;
    dns_rdata_status status;

    want(dns_rdata_type_number("MX", 2, &type) == DNS_RDATA_OK && type == 15, "the number of MX");
    want(dns_rdata_type_number("mx", 2, &type) == DNS_RDATA_OK && type == 15, "the number of mx");
    want(dns_rdata_type_number("Loc", 3, &type) == DNS_RDATA_OK && type == 29, "the number of Loc");
    want(dns_rdata_type_number("type29", 6, &type) == DNS_RDATA_NO_TYPE && type == 29, "no type type29");
    want(dns_rdata_type_text(4711, text, sizeof text, &count) == DNS_RDATA_OK, "the text of 4711");
    printf("type 4711 is %s, of %zu\n", text, count);

    want(dns_rdata_check(at(message, sizeof message, 41, 9, 15), &why) == DNS_RDATA_OK, "the first is data of MX");
    status = dns_rdata_check(at(message, sizeof message, 41, 8, 15), &why);
    printf("of 8 octets: status %u, read %zu, length %zu\n", status, why.read, why.len);
    status = dns_rdata_check(at(message, sizeof message, 41, 8, 255), &why);
    printf("of ANY: status %u, number %u\n", status, why.number);

    want(dns_rdata_text(at(message, sizeof message, 41, 9, 15), text, sizeof text, &count) == DNS_RDATA_OK, "a text");
    printf("text %s, of %zu\n", text, count);
    status = dns_rdata_text(at(message, sizeof message, 41, 9, 15), text, 0, &count);
    want(status == DNS_RDATA_BUFFER && count == strlen(text), "the length of a text");
    want(dns_rdata_text(at(message, sizeof message, 41, 9, 15), text, count, &count) == DNS_RDATA_BUFFER, "no room for the 0");
    want(dns_rdata_text(at(message, sizeof message, 41, 9, 15), text, count + 1, &count) == DNS_RDATA_OK, "room for it");

    want(dns_rdata_canonical(at(message, sizeof message, 41, 9, 15), octets, sizeof octets, &count) == DNS_RDATA_OK, "canonical");
    print_octets("canonical ", octets, count);
    want(dns_rdata_wire(at(message, sizeof message, 41, 9, 15), octets, sizeof octets, &count) == DNS_RDATA_OK, "wire");
    print_octets("wire ", octets, count);

    static const uint8_t strings[] = {3, 'a', ' ', '"', 0};
    want(dns_rdata_text(at(strings, sizeof strings, 0, sizeof strings, 16), text, sizeof text, &count) == DNS_RDATA_OK, "strings");
    printf("text %s, of %zu\n", text, count);

    size_t begin = 0;
    want(dns_rdata_name(at(message, sizeof message, 41, 9, 15), 0, octets, sizeof octets, &count, &begin) == DNS_RDATA_OK, "a name");
    printf("at %zu ", begin);
    print_octets("name ", octets, count);
    want(dns_rdata_name(at(message, sizeof message, 41, 9, 15), 1, octets, sizeof octets, &count, &begin) == DNS_RDATA_ABSENT, "no second name");
    static const uint8_t start[] = {1, 'x', 0, 1, 'Y', 0xc0, 0, 0, 0, 0, 1, 0, 0, 0, 2, 0, 0, 0, 3, 0, 0, 0, 4, 0, 0, 0, 5};
    want(dns_rdata_name(at(start, sizeof start, 0, sizeof start, 6), 1, octets, sizeof octets, &count, &begin) == DNS_RDATA_OK, "the second of SOA");
    printf("at %zu ", begin);
    print_octets("name ", octets, count);

    static const uint8_t service[] = {0, 1, 1, 'x', 0, 0, 1, 0, 3, 2, 'h', '2', 0, 3, 0, 2, 1, 0xbb};
    for (size_t i = 0; dns_rdata_part(at(service, sizeof service, 0, sizeof service, 64), i, &type, &begin, &count) == DNS_RDATA_OK; i++)
        printf("parameter %u, %zu octets at %zu\n", type, count, begin);
    static const uint8_t options[] = {0, 10, 0, 2, 1, 2, 0, 12, 0, 0};
    for (size_t i = 0; dns_rdata_part(at(options, sizeof options, 0, sizeof options, 41), i, &type, &begin, &count) == DNS_RDATA_OK; i++)
        printf("option %u, %zu octets at %zu\n", type, count, begin);
    struct dns_rdata_parts parts;
    for (status = dns_rdata_parts_begin(at(service, sizeof service, 0, sizeof service, 64), &parts); status == DNS_RDATA_OK;)
        if ((status = dns_rdata_parts_next(at(service, sizeof service, 0, 0, 0), &parts, &type, &begin, &count)) == DNS_RDATA_OK)
            printf("next parameter %u, %zu octets at %zu\n", type, count, begin);
    want(status == DNS_RDATA_ABSENT, "the end of the parameters");
    want(dns_rdata_parts_begin(at(options, sizeof options, 0, 9, 41), &parts) == DNS_RDATA_LENGTH, "three octets after an option");
    want(dns_rdata_parts_next(at(options, sizeof options, 0, 0, 0), &parts, &type, &begin, &count) == DNS_RDATA_ABSENT, "no parts after an error");
    want(dns_rdata_parts_begin(at(options, sizeof options, 0, 8, 41), &parts) == DNS_RDATA_ABSENT, "a truncated OPT has no options");
    want(dns_rdata_parts_begin(at(message, sizeof message, 41, 9, 15), &parts) == DNS_RDATA_ABSENT, "MX has no parts");
    records_of_message();
    names();
    reasons();
    texts_of_statuses();
    rejected();
    many_options();
    long_text();

    want(dns_rdata_compare(at(message, sizeof message, 41, 9, 15), at(message, sizeof message, 62, 4, 15), &order) == DNS_RDATA_OK, "cmp");
    printf("10 against 5: %d\n", order);
    want(dns_rdata_compare(at(message, sizeof message, 41, 9, 15), at(message, sizeof message, 62, 4, 16), &order) == DNS_RDATA_OTHER_TYPE, "MX and TXT");

    int32_t equal = 7;
    want(dns_rdata_equal(at(message, sizeof message, 41, 9, 15), at(message, sizeof message, 62, 4, 15), &equal) == DNS_RDATA_OK, "equal");
    printf("10 and 5 are equal: %d\n", equal);

    const char *mail = "10 MAIL ; a comment";
    static const uint8_t origin[] = {7, 'e', 'x', 'a', 'm', 'p', 'l', 'e', 3, 'c', 'o', 'm', 0};
    status = dns_rdata_parse(mail, strlen(mail), 15, origin, sizeof origin, octets, sizeof octets, &count);
    want(status == DNS_RDATA_OK, "a text is read");
    print_octets("parsed ", octets, count);
    want(dns_rdata_compare(at(message, sizeof message, 41, 9, 15), at(octets, count, 0, (uint16_t)count, 15), &order) == DNS_RDATA_OK, "again");
    want(dns_rdata_equal(at(message, sizeof message, 41, 9, 15), at(octets, count, 0, (uint16_t)count, 15), &equal) == DNS_RDATA_OK, "equal");
    printf("as the first: %d, and equal: %d\n", order, equal);

    const char *zone_mail = "( 10 MAIL ) ; a comment";
    want(dns_rdata_parse(zone_mail, strlen(zone_mail), 15, origin, sizeof origin, octets, sizeof octets, &count) == DNS_RDATA_OK, "a zone file's text is read");
    print_octets("parsed ", octets, count);
    want(dns_rdata_parse("\\# 2 abcd", 9, 4711, origin, 0, octets, sizeof octets, &count) == DNS_RDATA_OK, "unknown data is read");
    print_octets("parsed ", octets, count);
    want(dns_rdata_text(at(strings, sizeof strings, 0, sizeof strings, 16), text, sizeof text, &count) == DNS_RDATA_OK, "strings again");
    want(dns_rdata_parse(text, count, 16, origin, sizeof origin, octets, sizeof octets, &count) == DNS_RDATA_OK, "what is written is read");
    want(count == sizeof strings && memcmp(octets, strings, count) == 0, "as it was");
    want(dns_rdata_parse(text, 9, 16, origin, sizeof origin, octets, 4, &count) == DNS_RDATA_BUFFER && count == 5, "one octet short");
    status = dns_rdata_parse("ten mail", 8, 15, origin, sizeof origin, octets, sizeof octets, &count);
    printf("a wrong word: status %u\n", status);
    status = dns_rdata_parse("10", 2, 15, origin, sizeof origin, octets, sizeof octets, &count);
    printf("a missing word: status %u\n", status);
    status = dns_rdata_parse("x", 1, 41, origin, sizeof origin, octets, sizeof octets, &count);
    printf("no other text of OPT: status %u\n", status);
    status = dns_rdata_parse("\\# 3 0a0000", 11, 1, origin, sizeof origin, octets, sizeof octets, &count);
    printf("no data of A: status %u\n", status);

    /* Sorting: canonical octets once, and then no memory and no failure. */
    struct key *keys = (struct key *)malloc(3 * sizeof *keys);
    const char *texts[3] = {"20 b.example.", "10 c.example.", "10 A.example."};
    if (keys == NULL)
        return 3;
    for (int i = 0; i < 3; i++) {
        status = dns_rdata_parse(texts[i], strlen(texts[i]), 15, origin, sizeof origin, octets, sizeof octets, &count);
        want(status == DNS_RDATA_OK, "a text to sort");
        status = dns_rdata_canonical(at(octets, count, 0, (uint16_t)count, 15), keys[i].octets, sizeof keys[i].octets, &keys[i].count);
        want(status == DNS_RDATA_OK, "a key");
    }
    qsort(keys, 3, sizeof *keys, by_octets);
    for (int i = 0; i < 3; i++) {
        status = dns_rdata_text(at(keys[i].octets, keys[i].count, 0, (uint16_t)keys[i].count, 15), text, sizeof text, &count);
        want(status == DNS_RDATA_OK, "a sorted text");
        printf("%s\n", text);
    }
    free(keys);
    printf("%s\n", failed ? "failed" : "all as wanted");
    return failed;
}
