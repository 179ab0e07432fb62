/* BIND's libdns: `dns_rdata_fromwire`, which checks RDATA as it is read, and gives it back with names uncompressed.
 * Reads lines `TYPE PLACE LENGTH OCTETS`; run.py has the protocol. */
#include <stdio.h>
#include <stdlib.h>
#include <string.h>
#include <isc/buffer.h>
#include <isc/result.h>
#include <dns/compress.h>
#include <dns/rdata.h>

#include "lines.h"

int main(int argc, char **argv)
{
	line_t line;
	static unsigned char room[70000];
	while (next_line(&line)) {
		isc_buffer_t from, to;
		dns_decompress_t names;
		dns_rdata_t rdata = DNS_RDATA_INIT;
		isc_buffer_init(&from, line.octets, line.size);
		isc_buffer_add(&from, line.size);
		isc_buffer_forward(&from, line.place);
		isc_buffer_setactive(&from, line.length);
		isc_buffer_init(&to, room, sizeof room);
		dns_decompress_init(&names, -1, DNS_DECOMPRESS_ANY);
		isc_result_t result = dns_rdata_fromwire(&rdata, 1, line.type, &from, &names, 0, &to);
		if (result)
			rejected(isc_result_totext(result));
		else
			accepted(rdata.data, rdata.length);
	}
	(void)argc, (void)argv;
	return 0;
}
