/*
 * starts.c - makes a call so many times, for bench/starts.sh to count the instructions: the start of a lookup, for one of five names; or a call
 * about a name that is lost, or was.
 *
 * usage: starts CASE CALLS      CASE is a number from 0 to 10
 */
#include <stdio.h>
#include <stdlib.h>
#include <string.h>

#include "llmnr.h"

static const struct { const char *octets; size_t len; bool permission; } names[] = {
    {"\6scale3", 8, false},
    {"\6scale3\5plant", 14, true},
    {"\6scale3\5plant", 14, false},
    {"\1x\3ip6\4arpa", 12, false},
    {"\0014\0013\0012\0011\7in-addr\4arpa", 22, false}};

enum { LOOKUPS = sizeof names / sizeof names[0], STOPS = LOOKUPS + 3, CASES = STOPS + 3 };

static const llmnr_settings settings = {{{4, {192, 0, 2, 17}, 100}}};

/* The table of the examples: unique name scale3 with A 192.0.2.17. */
static const uint8_t table[] = "\x0c\0\1\0\6scale3\0\x08\0\3\0\xc0\0\2\x11";

/* A response with ID 9 to the check of scale3, with one answer: its owner is a pointer to the question's name, its TTL is 30. */
static const uint8_t response[] = "\0\x09\x80\0\0\1\0\1\0\0\0\0\6scale3\0\0\xff\0\1\xc0\x0c\0\1\0\1\0\0\0\x1e\0\4\xc0\0\2\x63";

static unsigned long lookup_start(size_t k, unsigned long call)
{
    uint8_t out[LLMNR_ROOM];
    llmnr_lookup_start_step step = llmnr_lookup_start(settings, 0, (const uint8_t *)names[k].octets, names[k].len, 1, names[k].permission,
                                                      call, (uint16_t)call, out, sizeof out);

    return step.outcome.what + step.outcome.refusal;
}

/* A Verifying name is stopped: by a response with one answer, with none, and with one that is cut short. */
static unsigned long stop(size_t k, unsigned long call)
{
    const llmnr_endpoint from = {{4, {192, 0, 2, 99}}, LLMNR_PORT};
    const llmnr_address to = {4, {192, 0, 2, 17}};
    llmnr_names checking = {{{LLMNR_STATE_VERIFYING, 1, 9, 0, 0, 1000}}};
    uint8_t datagram[sizeof response - 1], out[LLMNR_ROOM];
    llmnr_step step;

    memcpy(datagram, response, sizeof datagram);
    datagram[7] = k != 1;
    step = llmnr_receive(settings, 0, checking, table, sizeof table - 1, 0, from, to, datagram, sizeof datagram - (k == 2), call, 1, out, sizeof out);
    return step.outcome.what + step.name.due;
}

/* A name is started: it is Off, it has stopped and the start is too soon, it has stopped and may be tried again. */
static unsigned long start(size_t k, unsigned long call)
{
    const llmnr_names held = {{{k == 0 ? LLMNR_STATE_OFF : LLMNR_STATE_STOPPED, 0, 0, 0, 0, k == 1 ? LLMNR_LATEST : 0}}};
    uint8_t out[LLMNR_ROOM];
    llmnr_step step = llmnr_start(settings, 0, held, table, sizeof table - 1, 0, 0, call, (uint16_t)call, out, sizeof out);

    return step.outcome.what + step.outcome.refusal;
}

int main(int argc, char **argv)
{
    const size_t k = argc == 3 ? strtoul(argv[1], NULL, 10) : CASES;
    const unsigned long calls = argc == 3 ? strtoul(argv[2], NULL, 10) : 0;
    unsigned long sum = 0;

    if (k >= CASES)
        return 2;
    for (unsigned long call = 0; call < calls; call++)
        sum += k < LOOKUPS ? lookup_start(k, call) : k < STOPS ? stop(k - LOOKUPS, call) : start(k - STOPS, call);
    printf("%lu\n", sum);
    return 0;
}
