/* NLnet Labs' ldns. `ldns wire` reads lines `TYPE PLACE LENGTH OCTETS` (../peers/lines.h) and calls `ldns_wire2rr`; `ldns print` calls
 * `ldns_rr2str`, too; `ldns text` reads lines of a type's number, a tab and zone text, and calls `ldns_rr_new_frm_str` with the origin
 * example.com; `ldns show` reads messages in hexadecimal digits and prints the records of each, one a line, and an empty line. peers.py
 * has the protocol. */
#include <ldns/ldns.h>

#include "../peers/lines.h"

static void octets_of(ldns_rr *record)
{
	ldns_buffer *octets = ldns_buffer_new(70000);
	for (size_t i = 0; i < ldns_rr_rd_count(record); i++)
		(void)ldns_rdf2buffer_wire(octets, ldns_rr_rdf(record, i));
	accepted(ldns_buffer_begin(octets), ldns_buffer_position(octets));
	ldns_buffer_free(octets);
	ldns_rr_free(record);
}

/* Whether ldns has a format of a type. */
static int has_format(unsigned type)
{
	const ldns_rr_descriptor *known = ldns_rr_descript(type);
	return known && known->_name && ldns_rr_descriptor_field_type(known, 0) != LDNS_RDF_TYPE_UNKNOWN;
}

/* The text of the RDATA: what is behind owner, TTL, class and type, each with a tab. */
static void print(ldns_rr *record)
{
	char *whole = ldns_rr2str(record), *data = whole;
	for (int i = 0; data && i < 4; i++)
		data = strchr(data, '\t') ? strchr(data, '\t') + 1 : NULL;
	if (data)
		printf("accepted\t%.*s\n", (int)strcspn(data, "\n"), data);
	else
		rejected("no text");
	free(whole);
	ldns_rr_free(record);
}

static void wire(int printed)
{
	line_t line;
	while (next_line(&line)) {
		if (!has_format(line.type)) {
			puts("unknown\t-");
			continue;
		}
		ldns_rr *record = NULL;
		size_t at = line.place - 11;
		ldns_status result = ldns_wire2rr(&record, line.octets, line.size, &at, LDNS_SECTION_ANSWER);
		if (result != LDNS_STATUS_OK)
			rejected(ldns_get_errorstr_by_id(result));
		else if (printed)
			print(record);
		else
			octets_of(record);
	}
}

static void text(void)
{
	static char line[200000], whole[200100];
	ldns_rdf *origin = ldns_dname_new_frm_str("example.com.");
	while (fgets(line, sizeof line, stdin)) {
		char *data = strchr(line, '\t');
		if (!data)
			continue;
		line[strcspn(line, "\n")] = 0;
		if (!has_format(atoi(line))) {
			puts("unknown\t-");
			continue;
		}
		ldns_rr *record = NULL;
		snprintf(whole, sizeof whole, "a.example.com. 3600 IN %s %s", ldns_rr_descript(atoi(line))->_name, data + 1);
		ldns_status result = ldns_rr_new_frm_str(&record, whole, 0, origin, NULL);
		if (result != LDNS_STATUS_OK)
			rejected(ldns_get_errorstr_by_id(result));
		else
			octets_of(record);
	}
}

static void show(void)
{
	static line_t line;
	static char digits[150000];
	while (fgets(digits, sizeof digits, stdin)) {
		unsigned octet;
		digits[strcspn(digits, "\n")] = 0;
		line.size = strlen(digits) / 2;
		for (size_t i = 0; i < line.size; i++) {
			sscanf(digits + 2 * i, "%2x", &octet);
			line.octets[i] = (uint8_t)octet;
		}
		ldns_pkt *message = NULL;
		ldns_status result = ldns_wire2pkt(&message, line.octets, line.size);
		if (result != LDNS_STATUS_OK)
			printf("rejected\t%s\n", ldns_get_errorstr_by_id(result));
		else
			ldns_rr_list_print(stdout, ldns_pkt_all_noquestion(message));
		puts("");
	}
}

int main(int argc, char **argv)
{
	if (argc > 1 && !strcmp(argv[1], "text"))
		text();
	else if (argc > 1 && !strcmp(argv[1], "show"))
		show();
	else
		wire(argc > 1 && !strcmp(argv[1], "print"));
	return 0;
}
