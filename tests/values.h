/* Values that differ in every field, and comparisons field by field. */
#ifndef VALUES_H
#define VALUES_H

#include "check.h"

static uint64_t next_value;

static inline uint64_t value(void)
{
    return next_value = next_value * 6364136223846793005u + 1442695040888963407u;
}

static inline llmnr_setting any_setting(void)
{
    llmnr_setting s;
    memset(&s, 0, sizeof s);
    s.family = (uint8_t)(value() >> 56);
    for (unsigned j = 0; j < sizeof s.address; j++)
        s.address[j] = (uint8_t)(value() >> 56);
    s.interval = (uint16_t)(value() >> 48);
    return s;
}

static inline int same_setting(llmnr_setting a, llmnr_setting b)
{
    return a.family == b.family && memcmp(a.address, b.address, sizeof a.address) == 0 && a.interval == b.interval;
}

static inline int same_name(llmnr_name a, llmnr_name b)
{
    return a.state == b.state && a.sends == b.sends && a.id == b.id && a.qtype == b.qtype && a.qclass == b.qclass && a.due == b.due;
}

#endif
