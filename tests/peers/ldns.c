/* NLnet Labs' ldns: `ldns_wire2rr`, which reads a record of a message.
 * Reads lines `TYPE PLACE LENGTH OCTETS`; run.py has the protocol. */
#include <ldns/ldns.h>

#include "lines.h"

int main(int argc, char **argv)
{
	line_t line;
	while (next_line(&line)) {
		ldns_rr *record = NULL;
		size_t at = line.place - 11;
		ldns_status result = ldns_wire2rr(&record, line.octets, line.size, &at, LDNS_SECTION_ANSWER);
		if (result != LDNS_STATUS_OK) {
			rejected(ldns_get_errorstr_by_id(result));
			continue;
		}
		ldns_buffer *octets = ldns_buffer_new(70000);
		for (size_t i = 0; i < ldns_rr_rd_count(record); i++)
			(void)ldns_rdf2buffer_wire(octets, ldns_rr_rdf(record, i));
		accepted(ldns_buffer_begin(octets), ldns_buffer_position(octets));
		ldns_buffer_free(octets);
		ldns_rr_free(record);
	}
	(void)argc, (void)argv;
	return 0;
}
