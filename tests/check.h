/* What the tests in C share: a count of checks, a table, a datagram and a record. What is inline need not be used. */
#ifndef CHECK_H
#define CHECK_H

#include "llmnr.h"

#include <stdio.h>
#include <string.h>

static unsigned checks, failures;

static void check(int holds, const char *what, int line)
{
    checks++;
    if (!holds && failures++ < 10)
        fprintf(stderr, "line %d: not so: %s\n", line, what);
}

#define CHECK(holds) check((holds) ? 1 : 0, #holds, __LINE__)

/* The last line of a test, and its exit status. */
static int told(const char *name)
{
    printf("%s: %u checks, %u failed\n", name, checks, failures);
    return checks == 0 || failures != 0;
}

/* A table with eight names, a to h, each with an A record. The eighth is shared, the others are unique. */
enum { ENTRIES = LLMNR_NAMES * 15 };

static inline void make_table(uint8_t *table)
{
    for (unsigned k = 0; k < LLMNR_NAMES; k++) {
        const uint8_t entries[15] = {7, 0, k == 7 ? 2 : 1, 0, 1, (uint8_t)('a' + k), 0, 8, 0, 3, 0, 192, 0, 2, (uint8_t)(k + 1)};
        memcpy(table + 15 * k, entries, sizeof entries);
    }
}

/* A query or a response for the k-th name: ID, flags, one question for an A record, class 1; 19 octets. */
enum { QUERY = 19 };

static inline void make_query(uint8_t *datagram, uint16_t id, uint16_t flags, unsigned k)
{
    const uint8_t octets[QUERY] = {
        (uint8_t)(id >> 8), (uint8_t)id, (uint8_t)(flags >> 8), (uint8_t)flags, 0, 1, 0, 0, 0, 0, 0, 0,
        1, (uint8_t)('a' + k), 0, 0, 1, 0, 1,
    };
    memcpy(datagram, octets, sizeof octets);
}

/* An A record of the name that the question asks for: its TTL, and 192.0.2.17; 16 octets. */
enum { RECORD = 16 };

static inline void make_record(uint8_t *record, uint32_t ttl)
{
    const uint8_t octets[RECORD] = {
        0xC0, 12, 0, 1, 0, 1, (uint8_t)(ttl >> 24), (uint8_t)(ttl >> 16), (uint8_t)(ttl >> 8), (uint8_t)ttl, 0, 4, 192, 0, 2, 17,
    };
    memcpy(record, octets, sizeof octets);
}

#endif
