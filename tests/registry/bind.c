/* BIND's libdns. `bind wire` reads lines `TYPE PLACE LENGTH OCTETS` (../peers/lines.h) and calls `dns_rdata_fromwire`; `bind print` calls
 * `dns_rdata_totext`, too, and `bind digest` calls `dns_rdata_digest`, which gives what DNSSEC signs; `bind text` reads lines of a type's
 * number, a tab and zone text, and calls `dns_rdata_fromtext` with the origin example.com. TSIG, whose records have class ANY (RFC 8945,
 * section 4.2), is read in that class, every other type in class IN. peers.py has the protocol. */
#include <stdio.h>
#include <stdlib.h>
#include <string.h>
#include <isc/buffer.h>
#include <isc/lex.h>
#include <isc/mem.h>
#include <isc/result.h>
#include <dns/callbacks.h>
#include <dns/compress.h>
#include <dns/fixedname.h>
#include <dns/name.h>
#include <dns/rdata.h>
#include <dns/rdatatype.h>
#include <dns/result.h>

#include "../peers/lines.h"

static unsigned char room[70000];

static dns_rdataclass_t class_of(unsigned type) { return type == 250 ? 255 : 1; }

static void print(dns_rdata_t *rdata)
{
	static char shown[200000];
	isc_buffer_t to;
	isc_buffer_init(&to, shown, sizeof shown - 1);
	isc_result_t result = dns_rdata_totext(rdata, NULL, &to);
	shown[isc_buffer_usedlength(&to)] = 0;
	if (result)
		rejected(isc_result_totext(result));
	else
		printf("accepted\t%s\n", shown);
}

static isc_result_t keep(void *to, isc_region_t *part)
{
	return isc_buffer_copyregion(to, part);
}

/* The octets that DNSSEC signs. */
static void digest(dns_rdata_t *rdata)
{
	static unsigned char octets[70000];
	isc_buffer_t to;
	isc_buffer_init(&to, octets, sizeof octets);
	isc_result_t result = dns_rdata_digest(rdata, keep, &to);
	if (result)
		rejected(isc_result_totext(result));
	else
		accepted(octets, isc_buffer_usedlength(&to));
}

static void wire(const char *mode)
{
	line_t line;
	while (next_line(&line)) {
		if (!dns_rdatatype_isknown(line.type)) {
			puts("unknown\t-");
			continue;
		}
		isc_buffer_t from, to;
		dns_decompress_t names;
		dns_rdata_t rdata = DNS_RDATA_INIT;
		isc_buffer_init(&from, line.octets, line.size);
		isc_buffer_add(&from, line.size);
		isc_buffer_forward(&from, line.place);
		isc_buffer_setactive(&from, line.length);
		isc_buffer_init(&to, room, sizeof room);
		dns_decompress_init(&names, -1, DNS_DECOMPRESS_ANY);
		isc_result_t result = dns_rdata_fromwire(&rdata, class_of(line.type), line.type, &from, &names, 0, &to);
		if (result)
			rejected(isc_result_totext(result));
		else if (!strcmp(mode, "print"))
			print(&rdata);
		else if (!strcmp(mode, "digest"))
			digest(&rdata);
		else
			accepted(rdata.data, rdata.length);
	}
}

static isc_result_t read_text(isc_mem_t *memory, const dns_name_t *origin, unsigned type, char *text, dns_rdata_t *rdata)
{
	isc_buffer_t from, to;
	isc_lex_t *lexer = NULL;
	isc_lexspecials_t specials = { 0 };
	dns_rdatacallbacks_t callbacks;
	isc_buffer_init(&from, text, strlen(text));
	isc_buffer_add(&from, strlen(text));
	isc_buffer_init(&to, room, sizeof room);
	dns_rdatacallbacks_init(&callbacks);
	callbacks.error = callbacks.warn = NULL;
	isc_lex_create(memory, 400, &lexer);
	specials['('] = specials[')'] = specials['"'] = 1;
	isc_lex_setspecials(lexer, specials);
	isc_lex_setcomments(lexer, ISC_LEXCOMMENT_DNSMASTERFILE);
	isc_lex_openbuffer(lexer, &from);
	isc_result_t result = dns_rdata_fromtext(rdata, class_of(type), type, lexer, origin, 0, memory, &to, NULL);
	isc_lex_destroy(&lexer);
	return result;
}

static void text(void)
{
	static char line[200000];
	isc_mem_t *memory = NULL;
	dns_fixedname_t room_of_origin;
	dns_name_t *origin = dns_fixedname_initname(&room_of_origin);
	isc_mem_create(&memory);
	dns_name_fromstring(origin, "example.com.", 0, NULL);
	while (fgets(line, sizeof line, stdin)) {
		char *data = strchr(line, '\t');
		dns_rdata_t rdata = DNS_RDATA_INIT;
		if (!data)
			continue;
		line[strcspn(line, "\n")] = 0;
		if (!dns_rdatatype_isknown(atoi(line))) {
			puts("unknown\t-");
			continue;
		}
		isc_result_t result = read_text(memory, origin, atoi(line), data + 1, &rdata);
		if (result)
			rejected(isc_result_totext(result));
		else
			accepted(rdata.data, rdata.length);
	}
}

int main(int argc, char **argv)
{
	if (argc > 1 && !strcmp(argv[1], "text"))
		text();
	else
		wire(argc > 1 ? argv[1] : "wire");
	return 0;
}
