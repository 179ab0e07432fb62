/* The calls of dns_rdata.h that return a text of the library, which is static and never freed. They are plain C, and tested. */
#include "dns_rdata.h"

const char *dns_rdata_strerror(dns_rdata_status status) {
    switch (status) {
    case DNS_RDATA_OK: return "no error";
    case DNS_RDATA_MEMORY: return "out of memory";
    case DNS_RDATA_BUFFER: return "the buffer is too small";
    case DNS_RDATA_TOO_LONG: return "more than 65535 octets";
    case DNS_RDATA_ORIGIN: return "the origin is not a name";
    case DNS_RDATA_NOT_UTF8: return "the text is not UTF-8";
    case DNS_RDATA_ABSENT: return "there is nothing with this index, or nothing is left";
    case DNS_RDATA_OTHER_TYPE: return "the types differ";
    case DNS_RDATA_MISSING_OCTETS: return "octets are missing at the end of the message";
    case DNS_RDATA_LENGTH: return "wrong length of RDATA";
    case DNS_RDATA_NEVER: return "RDATA of this type is never read";
    case DNS_RDATA_NO_TYPE: return "unknown name of a type";
    case DNS_RDATA_NAME: return "damaged domain name";
    case DNS_RDATA_BITMAP: return "damaged type bitmap";
    case DNS_RDATA_CAA_TAG: return "invalid CAA tag";
    case DNS_RDATA_NAPTR_FLAGS: return "invalid NAPTR flags";
    case DNS_RDATA_CSYNC_FLAGS: return "unknown CSYNC flags";
    case DNS_RDATA_ADDRESS_FAMILY: return "unknown address family";
    case DNS_RDATA_MISSING_VALUE: return "a service parameter without its value";
    case DNS_RDATA_PARAMETER_ORDER: return "service parameters out of order";
    case DNS_RDATA_UTF8: return "octets that are not UTF-8";
    case DNS_RDATA_HEADER: return "the message is shorter than a header";
    case DNS_RDATA_QUESTION: return "a damaged question";
    case DNS_RDATA_RECORD: return "a damaged record";
    case DNS_RDATA_LIMIT: return "too many labels and compression pointers";
    case DNS_RDATA_MISSING_WORD: return "a token is missing";
    case DNS_RDATA_WRONG_WORD: return "a wrong token";
    case DNS_RDATA_UNSUPPORTED_TYPE: return "no text of this type is read";
    case DNS_RDATA_WRONG_VALUE: return "a wrong name or value";
    default: return "unknown status";
    }
}

const char *dns_rdata_version(void) { return DNS_RDATA_VERSION; }
