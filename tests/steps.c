/*
 * The calls of a host against the archive: the settings, the clock and the names of the interface go in, each field in its own place, and
 * of the names at most one comes back. What llmnr_take changes, and what not.
 */
#include "check.h"
#include "values.h"

static uint8_t table[ENTRIES], out[LLMNR_ROOM];

static const llmnr_name no_name;

static llmnr_name any_name(uint8_t state)
{
    llmnr_name n;
    n.state = state;
    n.sends = (uint8_t)(value() >> 56 | 1);
    n.id = (uint16_t)(value() >> 48 | 1);
    n.qtype = (uint16_t)(value() >> 48 | 1);
    n.qclass = (uint16_t)(value() >> 48 | 1);
    n.due = value() | 1;
    return n;
}

static llmnr_name name_of(uint8_t state, uint8_t sends, uint16_t id, uint16_t qtype, uint16_t qclass, uint64_t due)
{
    llmnr_name n;
    n.state = state;
    n.sends = sends;
    n.id = id;
    n.qtype = qtype;
    n.qclass = qclass;
    n.due = due;
    return n;
}

/* Any values in every field; interface i is used, with an address below those of the datagrams. */
static llmnr_host any_host(unsigned at)
{
    llmnr_host h;
    memset(&h, 0, sizeof h);
    for (unsigned i = 0; i < LLMNR_INTERFACES; i++) {
        h.settings.interfaces[i] = any_setting();
        for (unsigned k = 0; k < LLMNR_NAMES; k++)
            h.interfaces[i].names[k] = any_name((uint8_t)(value() >> 56));
    }
    h.settings.interfaces[at].family = 4;
    h.settings.interfaces[at].address[0] = 10;
    h.settings.interfaces[at].interval = 1000;
    h.clock = value() >> 20;
    return h;
}

static llmnr_step starts(llmnr_host h, size_t i, size_t k, uint64_t time)
{
    return llmnr_start(h.settings, h.clock, h.interfaces[i], table, sizeof table, i, k, time, 0xABCD, out, sizeof out);
}

static llmnr_step receives(llmnr_host h, size_t i, llmnr_endpoint from, llmnr_address to, const uint8_t *datagram, uint64_t time)
{
    return llmnr_receive(h.settings, h.clock, h.interfaces[i], table, sizeof table, i, from, to, datagram, QUERY, time, 0xABCD, out,
                         sizeof out);
}

static llmnr_step ticks(llmnr_host h, size_t i, uint64_t time)
{
    return llmnr_tick(h.settings, h.clock, h.interfaces[i], table, sizeof table, i, time, 0xABCD, out, sizeof out);
}

/* Whether a step has this clock and outcome; and this new state of the name k, or none. */
static void gives(llmnr_step s, uint64_t clock, uint8_t what, size_t k, const llmnr_name *n)
{
    uint8_t changed;
    memcpy(&changed, &s.changed, 1);
    CHECK(sizeof s.changed == 1 && changed == (n != NULL));
    CHECK(s.clock == clock);
    CHECK(s.outcome.what == what && s.outcome.name == k);
    CHECK(same_name(s.name, n != NULL ? *n : no_name));
}

/* A refused call gives the clock as it was and no name, whatever stands in the rest; so too for an interface that there is not. */
static void refused_hosts(void)
{
    llmnr_endpoint from = {{4, {0}}, 1};
    llmnr_address to = {4, {0}};
    for (size_t at = 0; at < LLMNR_INTERFACES + 2; at++) {
        llmnr_host h = any_host(at % LLMNR_INTERFACES);
        llmnr_names n = h.interfaces[at % LLMNR_INTERFACES];
        for (unsigned round = 0; round < 2; round++) {
            uint8_t refusal = round == 0 ? LLMNR_REFUSAL_ROOM : at < LLMNR_INTERFACES ? LLMNR_REFUSAL_CLOCK : LLMNR_REFUSAL_INTERFACE;
            size_t len = round == 0 ? 0 : sizeof out;
            const llmnr_step s[3] = {
                llmnr_tick(h.settings, h.clock, n, NULL, 0, at, 0, 0, out, len),
                llmnr_start(h.settings, h.clock, n, NULL, 0, at, 0, 0, 0, out, len),
                llmnr_receive(h.settings, h.clock, n, NULL, 0, at, from, to, NULL, 0, 0, 0, out, len),
            };
            for (unsigned call = 0; call < 3; call++) {
                gives(s[call], h.clock, LLMNR_REFUSED, 0, NULL);
                CHECK(s[call].outcome.refusal == refusal);
            }
        }
    }
}

/* The response to a Verifying or a Defending name, by its ID, type and class. */
static void make_response(uint8_t *response, llmnr_name n, unsigned k)
{
    int verifying = n.state == LLMNR_STATE_VERIFYING;
    uint16_t type = verifying ? 255 : n.qtype, class = verifying ? 1 : n.qclass;
    make_query(response, n.id, 0x8100, k);
    response[15] = (uint8_t)(type >> 8), response[16] = (uint8_t)type, response[17] = (uint8_t)(class >> 8), response[18] = (uint8_t)class;
}

/* A response that a name waits for, by every bit of its ID, type and class, and that changes nothing. */
static void kept_name(unsigned i, unsigned k, uint8_t state)
{
    uint8_t response[QUERY];
    llmnr_endpoint from = {{4, {192, 0, 2, 99}}, 5355};
    llmnr_address to = {4, {192, 0, 2, 17}};
    llmnr_host h = any_host(i);
    llmnr_name *n = &h.interfaces[i].names[k], kept = any_name(state);
    *n = kept;
    make_response(response, kept, k);
    gives(receives(h, i, from, to, response, h.clock + 1), h.clock + 1, LLMNR_KEPT, k, NULL);
    for (unsigned bit = 0; bit < 16; bit++) {
        for (unsigned field = 0; field < (state == LLMNR_STATE_DEFENDING ? 3 : 1); field++) {
            *n = kept;
            uint16_t *changed = field == 0 ? &n->id : field == 1 ? &n->qtype : &n->qclass;
            *changed = (uint16_t)(*changed ^ 1u << bit);
            llmnr_step s = receives(h, i, from, to, response, h.clock + 1);
            gives(s, h.clock, LLMNR_REFUSED, 0, NULL);
            CHECK(s.outcome.refusal == LLMNR_REFUSAL_UNMATCHED);
        }
    }
}

/* A start that passes: the name has new values in every field. */
static void begins(llmnr_host h, unsigned i, unsigned k, uint64_t time)
{
    llmnr_name shared = name_of(LLMNR_STATE_SHARED, 0, 0, 0, 0, 0);
    llmnr_name verifying = name_of(LLMNR_STATE_VERIFYING, 1, 0xABCD, 0, 0, time + 1000);
    gives(starts(h, i, k, time), time, k == 7 ? LLMNR_SHARED : LLMNR_QUERY, k, k == 7 ? &shared : &verifying);
}

/* Of an Off name all other fields may be anything, and any number that is no state's counts as Off. */
static void started_name(unsigned i, unsigned k, uint8_t state)
{
    llmnr_host h = any_host(i);
    h.interfaces[i].names[k] = any_name(state);
    begins(h, i, k, h.clock + 2);
}

/* Every bit of the due time of a Stopped name goes in: before it a start is refused, from it on it passes. */
static void stopped_name(unsigned i, unsigned k)
{
    llmnr_host h = any_host(i);
    llmnr_name *n = &h.interfaces[i].names[k];
    const uint64_t time = h.clock + (value() >> 20);
    *n = any_name(LLMNR_STATE_STOPPED);
    n->due = time;
    begins(h, i, k, time);
    for (unsigned bit = 0; bit < 64; bit++) {
        n->due = time ^ UINT64_C(1) << bit;
        if (n->due < time) {
            begins(h, i, k, time);
            continue;
        }
        llmnr_step s = starts(h, i, k, time);
        gives(s, h.clock, LLMNR_REFUSED, 0, NULL);
        CHECK(s.outcome.refusal == LLMNR_REFUSAL_TOO_SOON);
    }
}

/* Every bit of the TTL of a response's answer comes out in the due time of the name that it stops; with its top bit set it counts as 0. */
static void lost_name(unsigned i, unsigned k, uint32_t ttl)
{
    uint8_t response[QUERY + RECORD];
    llmnr_endpoint from = {{4, {9, 255, 255, 255}}, 5355};
    llmnr_address to = {4, {192, 0, 2, 17}};
    llmnr_host h = any_host(i);
    llmnr_name *n = &h.interfaces[i].names[k];
    const uint64_t time = h.clock + 5;
    *n = any_name(k % 2 == 0 ? LLMNR_STATE_VERIFYING : LLMNR_STATE_DEFENDING);
    make_response(response, *n, k);
    make_record(response + QUERY, ttl);
    response[7] = 1;
    llmnr_name stopped = name_of(LLMNR_STATE_STOPPED, 0, 0, 0, 0, ttl >> 31 == 0 ? time + UINT64_C(1000) * ttl : time);
    gives(llmnr_receive(h.settings, h.clock, h.interfaces[i], table, sizeof table, i, from, to, response, sizeof response, time, 0xABCD, out,
                        sizeof out),
          time, LLMNR_STOPPED, k, &stopped);
}

/* A tick: sends, ID and due time of a Verifying name go in and come out, and the due time of a Defending one goes in. */
static void due_name(unsigned i, unsigned k, uint8_t state, uint8_t sends)
{
    llmnr_host h = any_host(i);
    llmnr_name *n = &h.interfaces[i].names[k], unique = name_of(LLMNR_STATE_UNIQUE, 0, 0, 0, 0, 0);
    *n = any_name(state);
    n->sends = sends;
    n->due = h.clock + (value() >> 20 | 1);
    llmnr_name again = name_of(LLMNR_STATE_VERIFYING, (uint8_t)(sends + 1), n->id, 0, 0, n->due + 1000);
    int last = state == LLMNR_STATE_DEFENDING || sends >= 3;
    gives(ticks(h, i, n->due - 1), n->due - 1, LLMNR_QUIET, 0, NULL);
    gives(ticks(h, i, n->due), n->due, last ? LLMNR_UNIQUE : LLMNR_QUERY, k, last ? &unique : &again);
    for (unsigned bit = 48; bit < 64; bit++) {
        n->due = UINT64_C(1) << bit;
        gives(ticks(h, i, LLMNR_LATEST), LLMNR_LATEST, LLMNR_QUIET, 0, NULL);
    }
}

/*
 * A conflict notification: the ID of the call, and type and class of the question, come out; a response without an answer then stops the
 * name, which is due 30 seconds after it.
 */
static void defended_name(unsigned i, unsigned k, uint8_t class)
{
    uint8_t query[QUERY];
    llmnr_endpoint from = {{4, {9, 255, 255, 255}}, 5355};
    llmnr_address group = {4, {224, 0, 0, 252}}, to = {4, {192, 0, 2, 17}};
    llmnr_host h = any_host(i);
    h.interfaces[i].names[k] = any_name(LLMNR_STATE_UNIQUE);
    make_query(query, 0x1234, 0x0400, k);
    query[15] = (uint8_t)(value() >> 56), query[16] = (uint8_t)(value() >> 56), query[18] = class;
    uint16_t type = (uint16_t)(query[15] << 8 | query[16]);
    llmnr_name defending = name_of(LLMNR_STATE_DEFENDING, 0, 0xABCD, type, class, h.clock + 1003);
    llmnr_name stopped = name_of(LLMNR_STATE_STOPPED, 0, 0, 0, 0, h.clock + 4 + 30000);
    llmnr_step s = receives(h, i, from, group, query, h.clock + 3);
    gives(s, h.clock + 3, LLMNR_QUERY, k, &defending);
    CHECK(s.to.address.family == 4 && memcmp(s.to.address.octets, group.octets, 16) == 0 && s.to.port == LLMNR_PORT);
    llmnr_take(&h, i, s);
    make_response(query, defending, k);
    gives(receives(h, i, from, to, query, h.clock + 1), h.clock + 1, LLMNR_STOPPED, k, &stopped);
}

static void hosts(void)
{
    refused_hosts();
    for (unsigned i = 0; i < LLMNR_INTERFACES; i++) {
        for (unsigned k = 0; k < LLMNR_NAMES; k++) {
            kept_name(i, k, LLMNR_STATE_VERIFYING);
            kept_name(i, k, LLMNR_STATE_DEFENDING);
            started_name(i, k, LLMNR_STATE_OFF);
            stopped_name(i, k);
            for (unsigned bit = 0; bit < 32; bit++) {
                lost_name(i, k, UINT32_C(1) << bit);
                lost_name(i, k, (uint32_t)(value() >> 32));
            }
            for (unsigned other = LLMNR_STATE_SHARED + 1; other < 256; other += 7)
                started_name(i, k, (uint8_t)other);
            for (unsigned sends = 0; sends < 256; sends++)
                due_name(i, k, LLMNR_STATE_VERIFYING, (uint8_t)sends);
            due_name(i, k, LLMNR_STATE_DEFENDING, 0);
            defended_name(i, k, 1);
            defended_name(i, k, 255);
        }
    }
}

/* Every octet of every interface's settings goes into a call: a response from one of these addresses is our own. */
static void own_addresses(unsigned i)
{
    uint8_t response[QUERY];
    llmnr_address to = {6, {0xFE, 0x80}};
    llmnr_host h = any_host(i);
    h.interfaces[i].names[3] = any_name(LLMNR_STATE_VERIFYING);
    make_response(response, h.interfaces[i].names[3], 3);
    for (unsigned j = 0; j < LLMNR_INTERFACES; j++)
        h.settings.interfaces[j].family = 6;
    for (unsigned j = 0; j < LLMNR_INTERFACES; j++) {
        llmnr_endpoint from = {{6, {0}}, 5355};
        memcpy(from.address.octets, h.settings.interfaces[j].address, 16);
        CHECK(receives(h, i, from, to, response, h.clock).outcome.refusal == LLMNR_REFUSAL_OWN);
        for (unsigned octet = 0; octet < 16; octet++) {
            llmnr_host other = h;
            other.settings.interfaces[j].address[octet] ^= 0x10;
            CHECK(receives(other, i, from, to, response, h.clock).outcome.refusal == 0);
        }
        llmnr_host other = h;
        other.settings.interfaces[j].family = 5;
        CHECK(receives(other, i, from, to, response, h.clock).outcome.refusal == (j == i ? LLMNR_REFUSAL_INTERFACE : 0));
    }
    h.interfaces[i].names[3].state = LLMNR_STATE_OFF;
    for (unsigned bit = 0; bit <= 16; bit++) {
        for (unsigned j = 0; j < LLMNR_INTERFACES; j++)
            h.settings.interfaces[j].interval = 1000;
        h.settings.interfaces[i].interval = (uint16_t)(100u ^ (bit == 16 ? 0 : 1u << bit));
        CHECK(starts(h, i, 3, h.clock).name.due == h.clock + (bit == 16 ? 100 : 1000));
    }
}

/* A step taken into a host: the clock and the one name, and of all other octets none. */
static void taken(void)
{
    volatile size_t beyond = SIZE_MAX; /* the compiler warns of an interface that it knows not to be there */
    for (unsigned i = 0; i < LLMNR_INTERFACES; i++) {
        for (unsigned k = 0; k < LLMNR_NAMES; k++) {
            llmnr_host h = any_host(i), want;
            llmnr_step s;
            memset(&s, 0, sizeof s);
            s.clock = value();
            s.name = any_name((uint8_t)(value() >> 56));
            s.outcome.name = k;
            s.changed = true;
            memcpy(&want, &h, sizeof h);
            want.clock = s.clock;
            want.interfaces[i].names[k] = s.name;
            llmnr_take(&h, i, s);
            CHECK(memcmp(&h, &want, sizeof h) == 0);
            want.clock = s.clock = value();
            s.name = any_name((uint8_t)(value() >> 56));
            s.changed = false;
            llmnr_take(&h, i, s);
            CHECK(memcmp(&h, &want, sizeof h) == 0);
            s.outcome.name = beyond;
            llmnr_take(&h, beyond, s);
            CHECK(memcmp(&h, &want, sizeof h) == 0);
            s = llmnr_tick(h.settings, h.clock, h.interfaces[i], table, sizeof table, beyond, h.clock, 0, out, sizeof out);
            llmnr_take(&h, beyond, s);
            CHECK(memcmp(&h, &want, sizeof h) == 0);
        }
    }
}

/* A reply goes where its query came from, octet for octet. */
static void replies(void)
{
    uint8_t query[QUERY];
    llmnr_host h;
    llmnr_endpoint from;
    llmnr_address group = {6, {0xFF, 2, 0, 0, 0, 0, 0, 0, 0, 0, 0, 0, 0, 1, 0, 3}};
    memset(&h, 0, sizeof h);
    memset(&from, 0, sizeof from);
    make_query(query, 0x1234, 0, 5);
    h.settings.interfaces[3].family = 6;
    h.interfaces[3].names[5].state = LLMNR_STATE_UNIQUE;
    from.address.family = 6;
    for (unsigned j = 0; j < 16; j++)
        from.address.octets[j] = (uint8_t)(0x20 + j);
    from.port = 0xC0DE;
    llmnr_step r = receives(h, 3, from, group, query, 5);
    gives(r, 5, LLMNR_REPLY, 0, NULL);
    CHECK(r.outcome.len == QUERY + 16);
    CHECK(r.to.address.family == 6 && r.to.port == 0xC0DE);
    CHECK(memcmp(r.to.address.octets, from.address.octets, 16) == 0);
    CHECK(out[0] == 0x12 && out[1] == 0x34 && out[QUERY + 15] == 6);
    for (unsigned j = 0; j <= 16; j++) {
        llmnr_address other = group;
        *(j == 16 ? &other.family : &other.octets[j]) ^= 2;
        r = receives(h, 3, from, other, query, 5);
        gives(r, 0, LLMNR_REFUSED, 0, NULL);
        CHECK(r.outcome.refusal == LLMNR_REFUSAL_ADDRESS && r.to.address.family == 0 && r.to.port == 0);
        CHECK(memcmp(r.to.address.octets, h.settings.interfaces[3].address, 16) == 0);
    }
}

int main(void)
{
    make_table(table);
    hosts();
    for (unsigned i = 0; i < LLMNR_INTERFACES; i++)
        own_addresses(i);
    replies();
    taken();
    return told("steps");
}
