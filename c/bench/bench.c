/*
 * Nanoseconds of one call over samples of record data, by turns: this library, ldns, libknot (run.sh builds and runs it). Standard
 * input has lines `TYPE PLACE LENGTH OCTETS` (tests/programs/rdata_bench/data/samples.txt). Each figure is the least of PARTS parts.
 * Each job begins with the octets of a message and ends with nothing held: what ldns and libknot make of them is freed.
 *
 *   check      octets -> whether they are data of the type
 *   text       octets -> a zone file's text in a buffer
 *   canonical  octets -> canonical octets in a buffer
 *   wire       octets -> octets without pointers in a buffer
 *   name       octets -> the octets of the first name in a buffer
 *   compare    octets of two records -> order
 *   keys       two canonical forms that were made before -> order
 */
#include "dns_rdata.h"

#include <stdio.h>
#include <stdlib.h>
#include <string.h>
#include <time.h>
#ifdef WITH_LDNS
#include <ldns/ldns.h>
#endif
#ifdef WITH_KNOT
#include <libknot/libknot.h>
#endif

enum { PARTS = 7, MOST = 4096, SAMPLES = 64, JOBS = 7 };

struct sample {
    char name[24];
    uint16_t type;
    uint16_t length;
    uint8_t data[MOST];   /* the data alone: a message with it at place 0 */
    uint8_t framed[MOST]; /* its length in two octets, and it */
    uint8_t record[MOST]; /* owner, type, class, time to live, length, and it */
    size_t record_length;
    uint8_t other[MOST];  /* equal octets elsewhere */
    uint8_t other_record[MOST];
    struct dns_rdata rdata, other_rdata;
};

static char text[65536];
static uint8_t out[65536], out2[65536];
static volatile unsigned long sink;

/* ---- this library */

static int our_check(const struct sample *s) {
    struct dns_rdata_refusal why;
    return dns_rdata_check(&s->rdata, &why) == DNS_RDATA_OK;
}

static int our_text(const struct sample *s) {
    size_t n = 0;
    int ok = dns_rdata_text(&s->rdata, text, sizeof text, &n) == DNS_RDATA_OK;
    sink += n;
    return ok;
}

static int our_name(const struct sample *s) {
    size_t n = 0, begin = 0;
    dns_rdata_status status = dns_rdata_name(&s->rdata, 0, out, sizeof out, &n, &begin);
    sink += n;
    return status == DNS_RDATA_OK || status == DNS_RDATA_ABSENT;
}

static int our_canonical(const struct sample *s) {
    size_t n = 0;
    int ok = dns_rdata_canonical(&s->rdata, out, sizeof out, &n) == DNS_RDATA_OK;
    sink += n;
    return ok;
}

static int our_wire(const struct sample *s) {
    size_t n = 0;
    int ok = dns_rdata_wire(&s->rdata, out, sizeof out, &n) == DNS_RDATA_OK;
    sink += n;
    return ok;
}

static int our_compare(const struct sample *s) {
    int32_t order = 9;
    int ok = dns_rdata_compare(&s->rdata, &s->other_rdata, &order) == DNS_RDATA_OK;
    return ok && order == 0;
}

static size_t key_length, other_key_length;

static int our_keys(const struct sample *s) {
    (void)s;
    return dns_rdata_compare_canonical(out, key_length, out2, other_key_length) == 0;
}

/* ---- ldns */

#ifdef WITH_LDNS
static ldns_buffer *buffer, *buffer2;
static ldns_rdf *owner;

static ldns_rr *ldns_read(const uint8_t *framed, size_t length, uint16_t type) {
    size_t pos = 0;
    ldns_rr *rr = ldns_rr_new();
    if (!rr) return NULL;
    ldns_rr_set_type(rr, type);
    ldns_rr_set_owner(rr, owner);
    if (ldns_wire2rdf(rr, framed, length + 2, &pos) != LDNS_STATUS_OK || pos != length + 2) {
        ldns_rr_set_owner(rr, NULL);
        ldns_rr_free(rr);
        return NULL;
    }
    return rr;
}

static void ldns_done(ldns_rr *rr) {
    ldns_rr_set_owner(rr, NULL);
    ldns_rr_free(rr);
}

static int ldns_check(const struct sample *s) {
    ldns_rr *rr = ldns_read(s->framed, s->length, s->type);
    if (!rr) return 0;
    ldns_done(rr);
    return 1;
}

static int ldns_text(const struct sample *s) {
    ldns_rr *rr = ldns_read(s->framed, s->length, s->type);
    int ok = 1;
    if (!rr) return 0;
    ldns_buffer_clear(buffer);
    for (size_t i = 0; i < ldns_rr_rd_count(rr); i++) {
        if (i) ldns_buffer_printf(buffer, " ");
        ok &= ldns_rdf2buffer_str(buffer, ldns_rr_rdf(rr, i)) == LDNS_STATUS_OK;
    }
    sink += ldns_buffer_position(buffer);
    ldns_done(rr);
    return ok;
}

static int ldns_canonical(const struct sample *s) {
    ldns_rr *rr = ldns_read(s->framed, s->length, s->type);
    int ok;
    if (!rr) return 0;
    ldns_rr2canonical(rr);
    ldns_buffer_clear(buffer);
    ok = ldns_rr_rdata2buffer_wire(buffer, rr) == LDNS_STATUS_OK;
    sink += ldns_buffer_position(buffer);
    ldns_done(rr);
    return ok;
}

static int ldns_compare(const struct sample *s) {
    ldns_rr *a = ldns_read(s->framed, s->length, s->type), *b = ldns_read(s->framed, s->length, s->type);
    int ok = 0;
    if (a && b) {
        ldns_rr2canonical(a);
        ldns_rr2canonical(b);
        ldns_buffer_clear(buffer);
        ldns_buffer_clear(buffer2);
        ok = ldns_rr_rdata2buffer_wire(buffer, a) == LDNS_STATUS_OK && ldns_rr_rdata2buffer_wire(buffer2, b) == LDNS_STATUS_OK
            && ldns_buffer_position(buffer) == ldns_buffer_position(buffer2)
            && memcmp(ldns_buffer_begin(buffer), ldns_buffer_begin(buffer2), ldns_buffer_position(buffer)) == 0;
    }
    if (a) ldns_done(a);
    if (b) ldns_done(b);
    return ok;
}
#endif

/* ---- libknot */

#ifdef WITH_KNOT
static knot_rrset_t key, other_key;

static int knot_read(const uint8_t *record, size_t length, knot_rrset_t *set, bool canonical) {
    size_t pos = 0;
    knot_rrset_init_empty(set);
    return knot_rrset_rr_from_wire(record, &pos, length, set, NULL, canonical) == KNOT_EOK && pos == length;
}

static int knot_check(const struct sample *s) {
    knot_rrset_t set;
    int ok = knot_read(s->record, s->record_length, &set, false);
    knot_rrset_clear(&set, NULL);
    return ok;
}

static int knot_text(const struct sample *s) {
    knot_rrset_t set;
    int ok = knot_read(s->record, s->record_length, &set, false);
    if (ok) {
        int n = knot_rrset_txt_dump_data(&set, 0, text, sizeof text, &KNOT_DUMP_STYLE_DEFAULT);
        ok = n >= 0;
        sink += (unsigned long)n;
    }
    knot_rrset_clear(&set, NULL);
    return ok;
}

static int knot_canonical(const struct sample *s) {
    knot_rrset_t set;
    int ok = knot_read(s->record, s->record_length, &set, true);
    if (ok) {
        memcpy(out, set.rrs.rdata->data, set.rrs.rdata->len);
        sink += set.rrs.rdata->len;
    }
    knot_rrset_clear(&set, NULL);
    return ok;
}

static int knot_compare(const struct sample *s) {
    knot_rrset_t a, b;
    int ok = knot_read(s->record, s->record_length, &a, true);
    ok &= knot_read(s->other_record, s->record_length, &b, true);
    ok = ok && knot_rdata_cmp(a.rrs.rdata, b.rrs.rdata) == 0;
    knot_rrset_clear(&a, NULL);
    knot_rrset_clear(&b, NULL);
    return ok;
}

static int knot_keys(const struct sample *s) {
    (void)s;
    return knot_rdata_cmp(key.rrs.rdata, other_key.rrs.rdata) == 0;
}
#endif

/* ---- measuring */

typedef int job(const struct sample *);

struct jobs {
    const char *name;
    job *each[3];
};

static const struct jobs all[JOBS] = {
    {"check", {our_check,
#ifdef WITH_LDNS
        ldns_check,
#else
        NULL,
#endif
#ifdef WITH_KNOT
        knot_check,
#endif
    }},
    {"text", {our_text,
#ifdef WITH_LDNS
        ldns_text,
#else
        NULL,
#endif
#ifdef WITH_KNOT
        knot_text,
#endif
    }},
    {"canonical", {our_canonical,
#ifdef WITH_LDNS
        ldns_canonical,
#else
        NULL,
#endif
#ifdef WITH_KNOT
        knot_canonical,
#endif
    }},
    {"wire", {our_wire, NULL, NULL}},
    {"name", {our_name, NULL, NULL}},
    {"compare", {our_compare,
#ifdef WITH_LDNS
        ldns_compare,
#else
        NULL,
#endif
#ifdef WITH_KNOT
        knot_compare,
#endif
    }},
    {"keys", {our_keys, NULL,
#ifdef WITH_KNOT
        knot_keys,
#endif
    }},
};

static double now(void) {
    struct timespec t;
    clock_gettime(CLOCK_MONOTONIC, &t);
    return (double)t.tv_sec * 1e9 + (double)t.tv_nsec;
}

static double part(job *each, const struct sample *s, long rounds) {
    double begin = now();
    long good = 0;
    for (long i = 0; i < rounds; i++)
        good += each(s);
    double end = now();
    return good == rounds ? (end - begin) / (double)rounds : -1;
}

static int hex(int c) { return c >= '0' && c <= '9' ? c - '0' : c >= 'a' && c <= 'f' ? c - 'a' + 10 : -1; }

static int read_sample(struct sample *s) {
    static char octets[2 * MOST + 1];
    unsigned place, length;
    if (scanf("%23s %u %u %8192s", s->name, &place, &length, octets) != 4 || place != 0 || length + 16 > MOST) return 0;
    if (dns_rdata_type_number(s->name, strlen(s->name), &s->type) != DNS_RDATA_OK) return 0;
    s->length = (uint16_t)length;
    for (unsigned i = 0; i < length; i++)
        s->data[i] = (uint8_t)(hex(octets[2 * i]) * 16 + hex(octets[2 * i + 1]));
    memcpy(s->other, s->data, length);
    s->framed[0] = (uint8_t)(length >> 8);
    s->framed[1] = (uint8_t)length;
    memcpy(s->framed + 2, s->data, length);
    uint8_t head[11] = {0, (uint8_t)(s->type >> 8), (uint8_t)s->type, 0, 1, 0, 0, 1, 0x2c, (uint8_t)(length >> 8), (uint8_t)length};
    memcpy(s->record, head, 11);
    memcpy(s->record + 11, s->data, length);
    s->record_length = length + 11;
    memcpy(s->other_record, s->record, s->record_length);
    s->rdata = (struct dns_rdata){s->data, s->length, 0, s->length, s->type};
    s->other_rdata = (struct dns_rdata){s->other, s->length, 0, s->length, s->type};
    return 1;
}

int main(int argc, char **argv) {
    static struct sample s;
    long rounds = argc > 1 ? strtol(argv[1], NULL, 10) : 20000;
    double sums[JOBS][3] = {{0}};
    int both[JOBS][3] = {{0}};
    double ours[JOBS][3] = {{0}};
#ifdef WITH_LDNS
    buffer = ldns_buffer_new(65536);
    buffer2 = ldns_buffer_new(65536);
    owner = ldns_dname_new_frm_str(".");
#endif
    if (rounds < 1 || rounds > 10000000) return 2;
    if (argc > 3) {
        /* one job of one library over all samples, for a counter of instructions: ROUNDS JOB 0|1|2 */
        int who = argv[3][0] - '0', taken = 0;
        for (int n = 0; n < SAMPLES && read_sample(&s); n++)
            for (size_t j = 0; j < JOBS; j++)
                if (strcmp(all[j].name, argv[2]) == 0 && who >= 0 && who < 3 && all[j].each[who]) {
                    taken += all[j].each[who](&s);
                    part(all[j].each[who], &s, rounds);
                }
        printf("%d\n", taken);
        return 0;
    }
    printf("type");
    for (size_t j = 0; j < JOBS; j++)
        printf("\t%s\tldns\tknot", all[j].name);
    printf("\n");
    for (int n = 0; n < SAMPLES && read_sample(&s); n++) {
        printf("%s", s.name);
        for (size_t j = 0; j < JOBS; j++) {
            double least[3] = {-1, -1, -1};
            our_canonical(&s);
            if (dns_rdata_canonical(&s.rdata, out, sizeof out, &key_length) != DNS_RDATA_OK) return 1;
            if (dns_rdata_canonical(&s.rdata, out2, sizeof out2, &other_key_length) != DNS_RDATA_OK) return 1;
#ifdef WITH_KNOT
            if (strcmp(all[j].name, "keys") == 0) {
                knot_read(s.record, s.record_length, &key, true);
                knot_read(s.other_record, s.record_length, &other_key, true);
            }
#endif
            for (int k = 0; k < PARTS; k++)
                for (int who = 0; who < 3; who++)
                    if (all[j].each[who] && (k == 0 || least[who] >= 0)) {
                        double t = part(all[j].each[who], &s, rounds);
                        if (t < 0) least[who] = -1;
                        else if (least[who] < 0 || t < least[who]) least[who] = t;
                    }
#ifdef WITH_KNOT
            if (strcmp(all[j].name, "keys") == 0) {
                knot_rrset_clear(&key, NULL);
                knot_rrset_clear(&other_key, NULL);
            }
#endif
            for (int who = 0; who < 3; who++) {
                if (least[who] >= 0) printf("\t%.1f", least[who]);
                else printf("\t-");
                if (least[who] >= 0 && least[0] >= 0) {
                    sums[j][who] += least[who];
                    ours[j][who] += least[0];
                    both[j][who]++;
                }
            }
        }
        printf("\n");
    }
    for (size_t j = 0; j < JOBS; j++)
        for (int who = 1; who < 3; who++)
            if (both[j][who])
                printf("%s: %s / ours = %.2f over %d samples (%.1f ns, ours %.1f ns)\n", all[j].name, who == 1 ? "ldns" : "knot",
                       sums[j][who] / ours[j][who], both[j][who], sums[j][who] / both[j][who], ours[j][who] / both[j][who]);
#ifdef WITH_LDNS
    ldns_buffer_free(buffer);
    ldns_buffer_free(buffer2);
    ldns_rdf_deep_free(owner);
#endif
    return 0;
}
