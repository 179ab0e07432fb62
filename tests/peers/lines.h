/* For the drivers in C: a line of standard input is `TYPE PLACE LENGTH OCTETS`, numbers in decimal and the octets of a message in
 * hexadecimal digits. The RDATA is at PLACE, and a header with the root as owner is right before it. */
#pragma once
#include <stdint.h>
#include <stdio.h>
#include <stdlib.h>
#include <string.h>

typedef struct {
	uint16_t type, length;
	size_t place, size;
	uint8_t octets[70000];
} line_t;

static int next_line(line_t *line)
{
	static char text[200000], digits[150000];
	unsigned type, length, place, octet;
	if (!fgets(text, sizeof text, stdin) || sscanf(text, "%u %u %u %149999s", &type, &place, &length, digits) != 4)
		return 0;
	line->type = (uint16_t)type, line->length = (uint16_t)length, line->place = place;
	line->size = strlen(digits) / 2;
	for (size_t i = 0; i < line->size; i++) {
		sscanf(digits + 2 * i, "%2x", &octet);
		line->octets[i] = (uint8_t)octet;
	}
	return 1;
}

static void accepted(const uint8_t *octets, size_t length)
{
	printf("accepted\t");
	for (size_t i = 0; i < length; i++)
		printf("%02x", octets[i]);
	puts(length ? "" : "-");
}

static void rejected(const char *why) { printf("rejected\t%s\n", why); }
