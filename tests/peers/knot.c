/* Knot DNS' libknot: `knot_rrset_rr_from_wire`, which reads a record of a message.
 * Reads lines `TYPE PLACE LENGTH OCTETS`; run.py has the protocol. */
#include <libknot/libknot.h>

#include "lines.h"

int main(void)
{
	line_t line;
	while (next_line(&line)) {
		knot_rrset_t set;
		size_t at = line.place - 11;
		int result = knot_rrset_rr_from_wire(line.octets, &at, line.size, &set, NULL, false);
		if (result != KNOT_EOK) {
			rejected(knot_strerror(result));
			continue;
		}
		if (set.rrs.count)
			accepted(set.rrs.rdata->data, set.rrs.rdata->len);
		else
			accepted(NULL, 0);
		knot_rrset_clear(&set, NULL);
	}
	return 0;
}
