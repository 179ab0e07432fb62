/*
 * Reads a DNS message from a file and prints its records, a line each, as in a zone file: owner, TTL, class, type and RDATA. Of RDATA
 * that is rejected the line tells why. Status 0; 1 if the message is damaged, RDATA was rejected, or memory ran out; 2 for other words,
 * or a file that cannot be read or is longer than a message.
 */
#include "dns_rdata.h"

#include <stdio.h>

/* The octets of a message, and how many there are. */
struct message {
    uint8_t octets[65536];
    size_t length;
};

/* Long enough for the text of any RDATA: that of CSYNC with all types has 644,187 octets. */
static char text[1 << 20];

static void print_owner(const struct message *message, const struct dns_rdata_record *record) {
    size_t count;
    if (dns_rdata_name_text(message->octets, message->length, record->owner, text, sizeof text, &count) == DNS_RDATA_OK)
        printf("%s", text);
}

static void print_fields(const struct dns_rdata_record *record) {
    size_t count;
    printf(" %u ", (unsigned)record->ttl);
    if (record->rrclass == 1)
        printf("IN");
    else
        printf("CLASS%u", (unsigned)record->rrclass);
    if (dns_rdata_type_text(record->type, text, sizeof text, &count) == DNS_RDATA_OK)
        printf(" %s", text);
}

/* Prints why RDATA is rejected. */
static void print_rejection(const struct dns_rdata *data) {
    struct dns_rdata_refusal why;
    dns_rdata_status status = dns_rdata_check(data, &why);
    if (status == DNS_RDATA_LENGTH && why.cause == DNS_RDATA_OK)
        printf(" ; rejected: the record takes %zu octets, and RDLENGTH is %zu", why.read, why.len);
    else if (status != DNS_RDATA_OK)
        printf(" ; rejected: %s at offset %zu", dns_rdata_strerror(why.cause), why.offset);
}

/* Prints a record. Returns whether its RDATA was printed, or it has none. */
static int print_record(const struct message *message, const struct dns_rdata_record *record, int is_right) {
    size_t count;
    struct dns_rdata data = dns_rdata_of_record(message->octets, message->length, record);
    dns_rdata_status status = DNS_RDATA_OK;
    print_owner(message, record);
    print_fields(record);
    if (!is_right)
        print_rejection(&data);
    else if (record->has_data)
        status = dns_rdata_text(&data, text, sizeof text, &count);
    if (status != DNS_RDATA_OK)
        printf(" ; no text: %s", dns_rdata_strerror(status));
    else if (is_right && record->has_data)
        printf(" %s", text);
    printf("\n");
    return is_right && status == DNS_RDATA_OK;
}

static int print_message(const struct message *message) {
    struct dns_rdata_records records;
    struct dns_rdata_record record;
    int rejected = 0;
    dns_rdata_status status = dns_rdata_records_begin(message->octets, message->length, &records);
    if (status == DNS_RDATA_OK)
        while ((status = dns_rdata_records_next(message->octets, message->length, &records, &record)) != DNS_RDATA_ABSENT &&
               status < DNS_RDATA_DAMAGED) {
            rejected |= !print_record(message, &record, status == DNS_RDATA_OK);
        }
    if (status != DNS_RDATA_ABSENT)
        printf("a damaged message: %s\n", dns_rdata_strerror(status));
    return rejected || status != DNS_RDATA_ABSENT;
}

int main(int argc, char **argv) {
    static struct message message;
    FILE *file = argc == 2 ? fopen(argv[1], "rb") : NULL;
    if (file == NULL)
        return fprintf(stderr, "usage: example FILE, which holds a DNS message\n"), 2;
    message.length = fread(message.octets, 1, sizeof message.octets, file);
    int is_read = !ferror(file);
    fclose(file);
    return is_read && message.length < sizeof message.octets ? print_message(&message) : 2;
}
