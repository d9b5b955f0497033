/*
 * An indicator and an office terminal in one program, without a network: the indicator comes to own the name scale3, the terminal looks it
 * up, and each gets what the other sends from memory. A program with sockets makes the same calls.
 *
 *     (cd crates/llmnr_c && rt lib)
 *     gcc -std=c99 -Iinclude examples/embed.c crates/llmnr_c/out/libllmnr_c.a -o embed
 */
#include "llmnr.h"

#include <stdio.h>
#include <string.h>

/* The name table: two entries, each with its length, its kind and a body. The unique name scale3, and its A record 192.0.2.17. */
static const uint8_t table[] = {
    12, 0, 1, 0, 6, 's', 'c', 'a', 'l', 'e', '3', 0,
    8, 0, 3, 0, 192, 0, 2, 17,
};

static const uint8_t scale3[] = {6, 's', 'c', 'a', 'l', 'e', '3', 0};

enum { TYPE_A = 1, IPV4 = 4 };

static const llmnr_endpoint indicator = {{IPV4, {192, 0, 2, 17}}, LLMNR_PORT};
static const llmnr_endpoint terminal = {{IPV4, {192, 0, 2, 5}}, 50000};
static const llmnr_endpoint nowhere = {{0, {0}}, 0};

/* One interface with this address, and an interval of 100 ms; the other three are unused. */
static llmnr_settings settings_of(llmnr_address address)
{
    llmnr_settings s = {0};
    s.interfaces[0].family = address.family;
    memcpy(s.interfaces[0].address, address.octets, sizeof address.octets);
    s.interfaces[0].interval = 100;
    return s;
}

/* A program has a source of random numbers here. */
static uint16_t fresh_id(void)
{
    static uint16_t last = 0x1233;
    return ++last;
}

static void print_address(const uint8_t *octets)
{
    printf("%u.%u.%u.%u", octets[0], octets[1], octets[2], octets[3]);
}

/* What a call came to. A program sends the first len octets of its buffer where this one says so. */
static void tell(const char *who, const char *call, llmnr_outcome o, llmnr_endpoint to)
{
    printf("%s, %s: ", who, call);
    switch (o.what) {
    case LLMNR_REFUSED: printf("refused with %u", o.refusal); break;
    case LLMNR_READY: printf("ready"); break;
    case LLMNR_QUIET: printf("quiet"); break;
    case LLMNR_UNIQUE: printf("owns name %zu", o.name); break;
    case LLMNR_FOUND: printf("found, answers %u, from offset %zu on", o.answers, o.at); break;
    case LLMNR_QUERY:
    case LLMNR_REPLY:
        printf("%s of %zu octets to ", o.what == LLMNR_QUERY ? "query" : "reply", o.len);
        print_address(to.address.octets);
        printf(" port %u", to.port);
        break;
    default: printf("outcome %u", o.what); break;
    }
    printf("\n");
}

/* The addresses of scale3 among the answers of a response. A record begins with its owner's name. */
static void tell_addresses(const uint8_t *datagram, size_t len, llmnr_outcome found)
{
    size_t at = found.at;
    for (unsigned k = 0; k < found.answers; k++) {
        llmnr_record_read r = llmnr_record(datagram, len, at);
        if (!r.good)
            return;
        if (r.rtype == TYPE_A && r.len == 4 && llmnr_same_name(datagram, len, at, scale3, sizeof scale3, 0)) {
            printf("scale3 is at ");
            print_address(datagram + r.start);
            printf(" for %u seconds\n", (unsigned)r.ttl);
        }
        at = r.next;
    }
}

int main(void)
{
    uint8_t out[LLMNR_ROOM], heard[LLMNR_ROOM];
    uint64_t now = 0;

    llmnr_table_check check = llmnr_check_table(table, sizeof table);
    printf("table: %s, names %zu\n", check.good ? "good" : "bad", check.names);

    /* The indicator: set-up, start, and a tick whenever the name is due, until it owns the name. */
    llmnr_set_up_step ready = llmnr_set_up(table, sizeof table, settings_of(indicator.address), now, fresh_id());
    tell("indicator", "set-up", ready.outcome, nowhere);
    if (ready.outcome.what != LLMNR_READY)
        return 1;
    llmnr_host host = ready.host;
    llmnr_step step = llmnr_start(host.settings, host.clock, host.interfaces[0], table, sizeof table, 0, 0, now, fresh_id(), out,
                                  sizeof out);
    llmnr_take(&host, 0, step);
    tell("indicator", "start", step.outcome, step.to);
    while (step.outcome.what == LLMNR_QUERY) {
        now = host.interfaces[0].names[0].due;
        step = llmnr_tick(host.settings, host.clock, host.interfaces[0], table, sizeof table, 0, now, fresh_id(), out, sizeof out);
        llmnr_take(&host, 0, step);
        tell("indicator", "tick", step.outcome, step.to);
    }

    /* The terminal asks. Its query goes to the group, and so to the indicator. */
    llmnr_lookup_start_step asked = llmnr_lookup_start(settings_of(terminal.address), 0, scale3, sizeof scale3, TYPE_A, false, now,
                                                       fresh_id(), out, sizeof out);
    tell("terminal", "start", asked.outcome, asked.to);
    if (asked.outcome.what != LLMNR_QUERY)
        return 1;
    llmnr_lookup lookup = asked.lookup;
    memcpy(heard, out, asked.outcome.len);
    step = llmnr_receive(host.settings, host.clock, host.interfaces[0], table, sizeof table, 0, terminal, asked.to.address, heard,
                         asked.outcome.len, now, fresh_id(), out, sizeof out);
    llmnr_take(&host, 0, step);
    tell("indicator", "receive", step.outcome, step.to);
    if (step.outcome.what != LLMNR_REPLY)
        return 1;

    /* The reply goes back to the terminal. */
    memcpy(heard, out, step.outcome.len);
    llmnr_lookup_step answered = llmnr_lookup_receive(lookup, indicator, step.to.address, heard, step.outcome.len, now, fresh_id(), out,
                                                      sizeof out);
    llmnr_lookup_take(&lookup, answered);
    tell("terminal", "receive", answered.outcome, answered.to);
    if (answered.outcome.what != LLMNR_FOUND)
        return 1;
    tell_addresses(heard, step.outcome.len, answered.outcome);
    return 0;
}
