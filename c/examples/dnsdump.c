/*
 * Prints the records of DNS messages, a line each, as in a zone file: owner, TTL, class, type and RDATA.
 *
 *     dnsdump FILE       the messages of a capture file (pcap): UDP from or to port 53, over Ethernet (also with a
 *                        VLAN tag), Linux cooked capture (version 1) or raw IP; IPv4, and IPv6 without extension
 *                        headers
 *     dnsdump FOLDER     the messages of the files in a folder, one a file, in the order of the files' names
 *     dnsdump -b WHAT    reads all of these messages first, walks them for two seconds, and prints how many a second
 *
 * Lines that begin with a semicolon are comments: where a message begins, RDATA that is rejected, records of UPDATE
 * without data, and messages whose walk ends before the last record. Standard error has the counts. Status 0; 1 if
 * RDATA was rejected or a message is damaged; 2 if the words, a file or standard output cannot be used, and standard
 * error says why.
 */
#define _POSIX_C_SOURCE 200809L
#include "dns_rdata.h"

#include <dirent.h>
#include <stdio.h>
#include <stdlib.h>
#include <string.h>
#include <sys/stat.h>
#include <time.h>

enum { FIXED = 10, TYPE_NS = 2, STATUSES = 64, TYPES = 65536, LONGEST_MESSAGE = 65535, LONGEST_PACKET = 262144 };
enum { LINK_ETHERNET = 1, LINK_RAW_IP = 101, LINK_COOKED = 113, PROTOCOL_UDP = 17, PORT_DNS = 53 };

/* Octets, and how many there are. */
struct octets {
    const uint8_t *at;
    size_t length;
};

static struct {
    unsigned long messages, damaged, others, records, rejected, by_status[STATUSES], by_type[TYPES];
} counts;

/* Long enough for the text of any RDATA: that of CSYNC with all types has 644,187 octets. */
static char text[1 << 20];

/* What is read from a file: a packet or a message. */
static uint8_t room[LONGEST_PACKET];

/* Says why something cannot be used; the status of the program. */
static int fail(const char *name, const char *why) {
    fflush(stdout);
    fprintf(stderr, "dnsdump: %s: %s\n", name, why);
    return 2;
}

/* ---- records */

/* Whether a record was found: the walk goes on. */
static int is_record(dns_rdata_status status) {
    return status == DNS_RDATA_OK || (status >= DNS_RDATA_REFUSED && status < DNS_RDATA_DAMAGED);
}

static void count_status(dns_rdata_status status) { counts.by_status[status < STATUSES ? status : STATUSES - 1]++; }

static const char *type_text(uint16_t type) {
    static char name[16];
    size_t count;
    return dns_rdata_type_text(type, name, sizeof name, &count) == DNS_RDATA_OK ? name : "?";
}

/* Prints what precedes the RDATA: owner, TTL, class and type. The octets of the owner are RDATA of type NS. */
static void print_head(const char *before, struct octets message, const struct dns_rdata_record *record) {
    static char name[1024]; /* 255 octets, each of which is four characters at most */
    size_t count, length = record->rdata - FIXED - record->owner;
    struct dns_rdata owner = {message.at, message.length, record->owner, (uint16_t)length, TYPE_NS};
    int is_named = dns_rdata_text(&owner, name, sizeof name, &count) == DNS_RDATA_OK;
    printf("%s%s %lu ", before, is_named ? name : "?", (unsigned long)record->ttl);
    if (record->rrclass == 1)
        printf("IN %s", type_text(record->type));
    else
        printf("CLASS%u %s", (unsigned)record->rrclass, type_text(record->type));
}

/* Prints a record whose RDATA is rejected, and why: cause 0 is another number of octets than RDLENGTH. */
static void print_rejected(struct octets message, const struct dns_rdata_record *record, dns_rdata_status status) {
    struct dns_rdata data = dns_rdata_of_record(message.at, message.length, record);
    struct dns_rdata_refusal why;
    counts.rejected++;
    counts.by_type[record->type]++;
    count_status(status);
    print_head("; rejected: ", message, record);
    printf(": status %u", (unsigned)status);
    if (dns_rdata_check(&data, &why) != DNS_RDATA_OK)
        printf(", cause %u, offset %zu", (unsigned)why.cause, why.offset);
    printf("\n");
}

/* Prints a record whose RDATA is that of its type. If malloc fails it has no text, and counts as rejected. */
static void print_record(struct octets message, const struct dns_rdata_record *record) {
    struct dns_rdata data = dns_rdata_of_record(message.at, message.length, record);
    size_t count;
    dns_rdata_status status = record->has_data ? dns_rdata_text(&data, text, sizeof text, &count) : DNS_RDATA_OK;
    if (status != DNS_RDATA_OK) {
        print_rejected(message, record, status);
        return;
    }
    print_head(record->has_data ? "" : "; no data: ", message, record);
    if (record->has_data)
        printf(" %s", text);
    printf("\n");
}

/* Prints the records of a message, and counts them. Returns 0: the program can go on, as after the functions below. */
static int print_message(struct octets message) {
    struct dns_rdata_records records;
    struct dns_rdata_record record;
    dns_rdata_status status = dns_rdata_records_begin(message.at, message.length, &records);
    printf("; message %lu, %zu octets\n", ++counts.messages, message.length);
    if (status == DNS_RDATA_OK)
        while (is_record(status = dns_rdata_records_next(message.at, message.length, &records, &record))) {
            counts.records++;
            if (status == DNS_RDATA_OK)
                print_record(message, &record);
            else
                print_rejected(message, &record, status);
        }
    if (status != DNS_RDATA_ABSENT) {
        counts.damaged++;
        count_status(status);
        printf("; damaged: status %u\n", (unsigned)status);
    }
    return 0;
}

static void print_counts(void) {
    fflush(stdout);
    fprintf(stderr, "%lu messages, %lu of them damaged; %lu packets without a message\n", counts.messages,
            counts.damaged, counts.others);
    fprintf(stderr, "%lu records, %lu of them rejected\n", counts.records, counts.rejected);
    for (unsigned status = 0; status < STATUSES; status++)
        if (counts.by_status[status] > 0)
            fprintf(stderr, "status %u: %lu\n", status, counts.by_status[status]);
    for (unsigned type = 0; type < TYPES; type++)
        if (counts.by_type[type] > 0)
            fprintf(stderr, "rejected %s: %lu\n", type_text((uint16_t)type), counts.by_type[type]);
}

/* ---- packets */

/* The octets from an offset on: none if there are fewer. */
static struct octets from(struct octets octets, size_t offset) {
    size_t taken = offset < octets.length ? offset : octets.length;
    struct octets rest = {octets.at + taken, octets.length - taken};
    return rest;
}

/* The octet at an offset, and the number of two octets: 0 if the octets end before it does. */
static unsigned one_at(struct octets octets, size_t offset) { return offset < octets.length ? octets.at[offset] : 0; }

static unsigned two_at(struct octets octets, size_t offset) {
    return one_at(octets, offset) << 8 | one_at(octets, offset + 1);
}

/* The packet of IP in a frame: none if the frame has another protocol. */
static struct octets ip_of(uint32_t link, struct octets frame) {
    size_t kind = link == LINK_COOKED ? 14 : 12;
    if (link == LINK_RAW_IP)
        return frame;
    if (link == LINK_ETHERNET && two_at(frame, kind) == 0x8100) /* a VLAN tag */
        kind += 4;
    int is_ip = two_at(frame, kind) == 0x0800 || two_at(frame, kind) == 0x86dd;
    return from(frame, is_ip ? kind + 2 : frame.length);
}

/* The datagram of UDP in a packet of IP: none if it has another protocol, or is a fragment that is not the first. */
static struct octets udp_of(struct octets ip) {
    unsigned version = one_at(ip, 0) >> 4, header = (one_at(ip, 0) & 15) * 4;
    if (version == 4 && header >= 20 && one_at(ip, 9) == PROTOCOL_UDP && (two_at(ip, 6) & 0x1fff) == 0)
        return from(ip, header);
    if (version == 6 && one_at(ip, 6) == PROTOCOL_UDP)
        return from(ip, 40);
    return from(ip, ip.length);
}

/* Uses the message in a frame, if there is one: as much of it as was captured. */
static int use_frame(uint32_t link, struct octets frame, int (*use)(struct octets)) {
    struct octets udp = udp_of(ip_of(link, frame)), message = from(udp, 8);
    size_t length = two_at(udp, 4);
    if (udp.length < 8 || length < 8 || (two_at(udp, 0) != PORT_DNS && two_at(udp, 2) != PORT_DNS)) {
        counts.others++;
        return 0;
    }
    if (message.length > length - 8)
        message.length = length - 8;
    return use(message);
}

/* ---- files */

/* A number of four octets of a capture file, whose writer may have had the lowest one first. */
static uint32_t number_of(const uint8_t *at, int is_lowest_first) {
    uint32_t number = 0;
    for (int i = 0; i < 4; i++)
        number = number << 8 | at[is_lowest_first ? 3 - i : i];
    return number;
}

/* The header of a capture file: the link layer, and whether numbers have their lowest octet first. 0 if it is none. */
static int read_header(FILE *file, uint32_t *link, int *is_lowest_first) {
    uint8_t header[24];
    if (fread(header, 1, sizeof header, file) != sizeof header)
        return 0;
    *is_lowest_first = header[0] != 0xa1;
    uint32_t magic = number_of(header, *is_lowest_first);
    *link = number_of(header + 20, *is_lowest_first) & 0xffff;
    return magic == 0xa1b2c3d4 || magic == 0xa1b23c4d; /* times in microseconds, and in nanoseconds */
}

static int use_capture(const char *name, FILE *file, int (*use)(struct octets)) {
    uint8_t header[16];
    uint32_t link;
    int is_lowest_first, status = 0;
    size_t count = 0;
    if (!read_header(file, &link, &is_lowest_first))
        return fail(name, "is not a capture file (pcap)");
    if (link != LINK_ETHERNET && link != LINK_RAW_IP && link != LINK_COOKED)
        return fail(name, "has a link layer other than Ethernet, raw IP and Linux cooked capture");
    while (status == 0 && (count = fread(header, 1, sizeof header, file)) == sizeof header) {
        struct octets frame = {room, number_of(header + 8, is_lowest_first)};
        if (frame.length > sizeof room)
            return fail(name, "has a packet of more than 262144 octets");
        if (fread(room, 1, frame.length, file) != frame.length)
            return fail(name, "ends inside a packet, or cannot be read");
        status = use_frame(link, frame, use);
    }
    if (status == 0 && (count > 0 || ferror(file)))
        return fail(name, "ends inside a packet, or cannot be read");
    return status;
}

static int use_file(const char *name, FILE *file, int (*use)(struct octets)) {
    struct octets message = {room, fread(room, 1, LONGEST_MESSAGE + 1, file)};
    if (ferror(file))
        return fail(name, "cannot be read");
    if (message.length > LONGEST_MESSAGE)
        return fail(name, "has more than 65535 octets, and is no message");
    return use(message);
}

/* Uses the files of a folder, but for those whose names begin with a dot, and for folders in it. */
static int use_folder(const char *folder, int (*use)(struct octets)) {
    static char path[4096];
    struct dirent **entries;
    struct stat about;
    int status = 0, count = scandir(folder, &entries, NULL, alphasort);
    if (count < 0)
        return fail(folder, "cannot be read");
    for (int i = 0; i < count; free(entries[i++])) {
        if (status != 0 || entries[i]->d_name[0] == '.')
            continue;
        int length = snprintf(path, sizeof path, "%s/%s", folder, entries[i]->d_name);
        FILE *file = NULL;
        if (length < 0 || (size_t)length >= sizeof path || stat(path, &about) != 0)
            status = fail(path, "cannot be found");
        else if (S_ISREG(about.st_mode))
            status = (file = fopen(path, "rb")) == NULL ? fail(path, "cannot be opened") : use_file(path, file, use);
        if (file != NULL)
            fclose(file);
    }
    free(entries);
    return status;
}

/* Uses each message of a capture file or a folder. */
static int use_messages(const char *name, int (*use)(struct octets)) {
    struct stat about;
    if (stat(name, &about) != 0)
        return fail(name, "cannot be found");
    if (S_ISDIR(about.st_mode))
        return use_folder(name, use);
    FILE *file = fopen(name, "rb");
    if (file == NULL)
        return fail(name, "cannot be opened");
    int status = use_capture(name, file, use);
    fclose(file);
    return status;
}

/* ---- speed */

/* The messages that are measured. */
struct kept {
    struct kept *next;
    size_t length;
    uint8_t octets[];
};

static struct kept *first, **last = &first;
static size_t kept_count, kept_octets;

static int keep(struct octets message) {
    struct kept *kept = malloc(sizeof *kept + message.length);
    if (kept == NULL)
        return fail("-b", "out of memory");
    kept->next = NULL;
    kept->length = message.length;
    memcpy(kept->octets, message.at, message.length);
    *last = kept;
    last = &kept->next;
    kept_count++;
    kept_octets += message.length;
    return 0;
}

/* Walks a message, whose records are checked: how many there are. */
static unsigned long walk(const struct kept *message) {
    struct dns_rdata_records records;
    struct dns_rdata_record record;
    unsigned long found = 0;
    if (dns_rdata_records_begin(message->octets, message->length, &records) == DNS_RDATA_OK)
        while (is_record(dns_rdata_records_next(message->octets, message->length, &records, &record)))
            found++;
    return found;
}

static double seconds(void) {
    struct timespec now;
    clock_gettime(CLOCK_MONOTONIC, &now);
    return (double)now.tv_sec + (double)now.tv_nsec / 1e9;
}

/* Walks all messages for two seconds, and prints how many a second. */
static void measure(void) {
    unsigned long rounds = 0, found = 0;
    double start = seconds(), spent;
    do {
        found = 0;
        for (const struct kept *message = first; message != NULL; message = message->next)
            found += walk(message);
        rounds++;
        spent = seconds() - start;
    } while (spent < 2);
    double times = (double)rounds / spent;
    printf("%zu messages of %zu octets, %lu records, %lu rounds: %.0f messages and %.0f records a second\n", kept_count,
           kept_octets, found, rounds, (double)kept_count * times, (double)found * times);
}

static int print_speed(const char *name) {
    int status = use_messages(name, keep);
    if (status == 0 && kept_count == 0)
        status = fail(name, "has no messages");
    if (status == 0)
        measure();
    while (first != NULL) {
        struct kept *next = first->next;
        free(first);
        first = next;
    }
    return status;
}

int main(int argc, char **argv) {
    int is_speed = argc == 3 && strcmp(argv[1], "-b") == 0, status;
    if (argc != 2 + is_speed || argv[argc - 1][0] == '-')
        return fprintf(stderr, "usage: dnsdump [-b] WHAT: a capture file (pcap), or a folder of messages\n"), 2;
    if (is_speed)
        status = print_speed(argv[2]);
    else {
        status = use_messages(argv[1], print_message);
        print_counts();
        if (status == 0)
            status = counts.rejected > 0 || counts.damaged > 0;
    }
    if (fflush(stdout) != 0 || ferror(stdout))
        return fail("standard output", "cannot be written");
    return status;
}
