/* RDATA in a message, as the calls take it. A thread has eight of them, which are used by turns. */
#ifndef AT_H
#define AT_H

#include "dns_rdata.h"

static const struct dns_rdata *at(const uint8_t *message, size_t size, size_t offset, uint16_t length, uint16_t type) {
    static __thread struct dns_rdata all[8];
    static __thread unsigned turn;
    struct dns_rdata *data = &all[turn++ % 8];
    data->message = message;
    data->message_length = size;
    data->offset = offset;
    data->length = length;
    data->type = type;
    return data;
}

#endif
