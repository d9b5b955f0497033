/*
 * The constants of include/llmnr.h against the archive: a call for each outcome, each refusal, each state of a name, each phase of a lookup
 * and the longest datagram and table. What a state is shows in what the host does in it.
 */
#include "check.h"

enum { CONFLICT = 0x0400, TENTATIVE = 0x0100, RESPONSE = 0x8000 };

/* Where things stand in a query: the low octet of each of these, the flags, and the label of the name. */
enum { ID = 1, FLAGS = 2, QDCOUNT = 5, ANCOUNT = 7, LABEL = 12, TYPE = 16, CLASS = 18 };

static const llmnr_address group = {4, {224, 0, 0, 252}};
static const llmnr_address ours = {4, {192, 0, 2, 17}};
static const llmnr_endpoint lower = {{4, {192, 0, 2, 5}}, 50000};
static const llmnr_endpoint higher = {{4, {192, 0, 2, 99}}, 50000};

static uint8_t table[ENTRIES], datagram[QUERY], out[LLMNR_ROOM];

static llmnr_settings settings(void)
{
    llmnr_settings s;
    memset(&s, 0, sizeof s);
    s.interfaces[1].family = 4;
    memcpy(s.interfaces[1].address, ours.octets, sizeof ours.octets);
    s.interfaces[1].interval = 100;
    return s;
}

/* A host on interface 1 whose name 5 is in a state, with sends 2, ID 0x1234, type 1 and class 1, due at 1000. */
static llmnr_host in_state(uint8_t state)
{
    llmnr_name n;
    llmnr_host h = llmnr_set_up(table, sizeof table, settings(), 0, 0).host;
    n.state = state;
    n.sends = 2;
    n.id = 0x1234;
    n.qtype = 1;
    n.qclass = 1;
    n.due = 1000;
    h.interfaces[1].names[5] = n;
    return h;
}

static llmnr_step starts(llmnr_host h, size_t name, uint64_t time, uint16_t id)
{
    return llmnr_start(h.settings, h.clock, h.interfaces[1], table, sizeof table, 1, name, time, id, out, sizeof out);
}

static llmnr_step receives(llmnr_host h, llmnr_endpoint from, llmnr_address to, size_t len, uint64_t time)
{
    return llmnr_receive(h.settings, h.clock, h.interfaces[1], table, sizeof table, 1, from, to, datagram, len, time, 7, out, sizeof out);
}

static llmnr_step hears(llmnr_host h, uint16_t flags, llmnr_endpoint from)
{
    make_query(datagram, 0x1234, flags, 5);
    return receives(h, from, flags & RESPONSE ? ours : group, QUERY, 500);
}

static llmnr_step ticks(llmnr_host h, uint64_t time)
{
    return llmnr_tick(h.settings, h.clock, h.interfaces[1], table, sizeof table, 1, time, 7, out, sizeof out);
}

static int refused(llmnr_outcome o, uint8_t refusal)
{
    return o.what == LLMNR_REFUSED && o.refusal == refusal && o.answers == 0 && o.name == 0 && o.len == 0;
}

static int says(llmnr_outcome o, uint8_t what)
{
    return o.what == what && o.refusal == 0 && o.answers == 0 && o.at == 0;
}

/* ---- states */

static unsigned flags_of_reply(void)
{
    return out[2] * 256u + out[3];
}

static void states(void)
{
    CHECK(refused(hears(in_state(LLMNR_STATE_OFF), 0, lower).outcome, LLMNR_REFUSAL_NOT_OURS));
    CHECK(refused(hears(in_state(LLMNR_STATE_STOPPED), 0, lower).outcome, LLMNR_REFUSAL_STOPPED));
    CHECK(says(hears(in_state(LLMNR_STATE_VERIFYING), 0, lower).outcome, LLMNR_REPLY) && flags_of_reply() == (RESPONSE | TENTATIVE));
    CHECK(says(hears(in_state(LLMNR_STATE_UNIQUE), 0, lower).outcome, LLMNR_REPLY) && flags_of_reply() == RESPONSE);
    CHECK(says(hears(in_state(LLMNR_STATE_DEFENDING), 0, lower).outcome, LLMNR_REPLY) && flags_of_reply() == RESPONSE);
    CHECK(says(hears(in_state(LLMNR_STATE_SHARED), 0, lower).outcome, LLMNR_REPLY) && flags_of_reply() == (RESPONSE | CONFLICT));
    for (unsigned other = LLMNR_STATE_SHARED + 1; other < 256; other++)
        CHECK(refused(hears(in_state((uint8_t)other), 0, lower).outcome, LLMNR_REFUSAL_NOT_OURS));

    llmnr_step s = ticks(in_state(LLMNR_STATE_UNIQUE), 1000);
    CHECK(says(s.outcome, LLMNR_QUIET) && s.clock == 1000 && !s.changed);
    s = ticks(in_state(LLMNR_STATE_DEFENDING), 999);
    CHECK(says(s.outcome, LLMNR_QUIET) && s.clock == 999 && !s.changed);
    s = ticks(in_state(LLMNR_STATE_DEFENDING), 1000);
    CHECK(says(s.outcome, LLMNR_UNIQUE) && s.outcome.name == 5 && s.changed && s.name.state == LLMNR_STATE_UNIQUE);
    llmnr_host h = in_state(LLMNR_STATE_VERIFYING);
    s = ticks(h, 1000);
    CHECK(says(s.outcome, LLMNR_QUERY) && s.outcome.name == 5 && s.outcome.len == QUERY && out[0] == 0x12 && out[1] == 0x34);
    llmnr_name n = s.name;
    CHECK(n.state == LLMNR_STATE_VERIFYING && n.sends == 3 && n.id == 0x1234 && n.qtype == 0 && n.qclass == 0 && n.due == 1100);
    llmnr_take(&h, 1, s);
    s = ticks(h, 1100);
    CHECK(says(s.outcome, LLMNR_UNIQUE) && s.changed && s.name.state == LLMNR_STATE_UNIQUE && s.name.due == 0);
}

/* The type and the class of a defence each count. */
static void defence(void)
{
    llmnr_step s = hears(in_state(LLMNR_STATE_UNIQUE), CONFLICT, lower);
    llmnr_name n = s.name;
    CHECK(says(s.outcome, LLMNR_QUERY) && s.changed && s.outcome.name == 5 && s.to.port == LLMNR_PORT && s.to.address.octets[3] == 252);
    CHECK(n.state == LLMNR_STATE_DEFENDING && n.id == 7 && n.qtype == 1 && n.qclass == 1 && n.due == 600);
    CHECK(says(hears(in_state(LLMNR_STATE_DEFENDING), RESPONSE, lower).outcome, LLMNR_STOPPED));
    CHECK(says(hears(in_state(LLMNR_STATE_DEFENDING), RESPONSE, higher).outcome, LLMNR_KEPT));
    for (unsigned field = 0; field < 3; field++) {
        llmnr_host h = in_state(LLMNR_STATE_DEFENDING);
        if (field == 0)
            h.interfaces[1].names[5].id = 0x1235;
        else if (field == 1)
            h.interfaces[1].names[5].qtype = 28;
        else
            h.interfaces[1].names[5].qclass = 255;
        CHECK(refused(hears(h, RESPONSE, lower).outcome, LLMNR_REFUSAL_UNMATCHED));
    }
}

/* ---- outcomes of a host */

static void outcomes(void)
{
    llmnr_set_up_step ready = llmnr_set_up(table, sizeof table, settings(), 3, 4);
    llmnr_host h = ready.host;
    CHECK(says(ready.outcome, LLMNR_READY) && h.clock == 3);
    llmnr_step s = starts(h, 5, 4, 0x1234);
    CHECK(says(s.outcome, LLMNR_QUERY) && s.outcome.name == 5 && s.outcome.len == QUERY);
    CHECK(s.changed && s.name.state == LLMNR_STATE_VERIFYING && s.name.due == 104);
    llmnr_take(&h, 1, s);
    CHECK(refused(starts(h, 5, 4, 1).outcome, LLMNR_REFUSAL_BUSY));
    s = starts(h, 7, 5, 1);
    CHECK(says(s.outcome, LLMNR_SHARED) && s.outcome.name == 7 && s.outcome.len == 0);
    CHECK(s.changed && s.name.state == LLMNR_STATE_SHARED);
    llmnr_take(&h, 1, s);
    CHECK(refused(starts(h, 8, 5, 1).outcome, LLMNR_REFUSAL_NOT_OURS));
    make_query(datagram, 0x1234, RESPONSE | TENTATIVE, 5);
    datagram[TYPE] = 255;
    s = receives(h, higher, ours, QUERY, 6);
    CHECK(says(s.outcome, LLMNR_KEPT) && s.outcome.name == 5 && s.clock == 6 && !s.changed);
    llmnr_take(&h, 1, s);
    s = receives(h, lower, ours, QUERY, 6);
    CHECK(says(s.outcome, LLMNR_STOPPED) && s.outcome.name == 5);
    CHECK(s.changed && s.name.state == LLMNR_STATE_STOPPED && s.name.sends == 0 && s.name.id == 0 && s.name.due == 30006);
}

/* ---- a Stopped name: its due time, and 21 before it */

/* A response at 500, with ANCOUNT and a record of which so many octets are there, stops a name that is then due at a time. */
static void rests(uint8_t answers, uint32_t ttl, size_t octets, uint64_t due)
{
    uint8_t response[QUERY + RECORD];
    llmnr_host h = in_state(LLMNR_STATE_VERIFYING);
    make_query(response, 0x1234, RESPONSE, 5);
    make_record(response + QUERY, ttl);
    response[TYPE] = 255;
    response[ANCOUNT] = answers;
    llmnr_step s = llmnr_receive(h.settings, h.clock, h.interfaces[1], table, sizeof table, 1, higher, ours, response, QUERY + octets, 500,
                                 7, out, sizeof out);
    CHECK(says(s.outcome, LLMNR_STOPPED) && s.outcome.name == 5 && s.name.state == LLMNR_STATE_STOPPED && s.name.due == due);
    llmnr_take(&h, 1, s);
    CHECK(due == 500 || refused(starts(h, 5, 500, 9).outcome, LLMNR_REFUSAL_TOO_SOON));
    CHECK(due == 500 || refused(starts(h, 5, due - 1, 9).outcome, LLMNR_REFUSAL_TOO_SOON));
    s = starts(h, 5, due, 9);
    CHECK(says(s.outcome, LLMNR_QUERY) && s.clock == due && s.name.state == LLMNR_STATE_VERIFYING && s.name.due == due + 100);
}

static void stopped(void)
{
    rests(1, 30, RECORD, 30500);
    rests(1, 1, RECORD, 1500);
    rests(1, 0, RECORD, 500);
    rests(1, 0x7FFFFFFF, RECORD, UINT64_C(2147483647500));
    rests(1, 0x80000000, RECORD, 500);
    rests(1, 0xFFFFFFFF, RECORD, 500);
    rests(2, 1, RECORD, 1500);
    rests(0, 1, RECORD, 30500);
    rests(0, 1, 0, 30500);
    rests(1, 1, 0, 30500);
    rests(1, 1, RECORD - 1, 30500);

    /* Which checks come before 21; that a refused start moves no clock; that a tick does not serve the name, and its kind does not matter. */
    llmnr_host h = in_state(LLMNR_STATE_STOPPED);
    h.clock = 998;
    llmnr_step s = starts(h, 5, 999, 9);
    CHECK(refused(s.outcome, LLMNR_REFUSAL_TOO_SOON) && s.clock == 998 && !s.changed);
    CHECK(refused(starts(h, 5, 997, 9).outcome, LLMNR_REFUSAL_CLOCK));
    s = llmnr_start(h.settings, h.clock, h.interfaces[1], table, 5 * ENTRIES / LLMNR_NAMES, 1, 5, 999, 9, out, sizeof out);
    CHECK(refused(s.outcome, LLMNR_REFUSAL_NOT_OURS));
    s = ticks(h, 1000);
    CHECK(says(s.outcome, LLMNR_QUIET) && !s.changed);
    h.interfaces[1].names[7] = h.interfaces[1].names[5];
    CHECK(refused(starts(h, 7, 999, 9).outcome, LLMNR_REFUSAL_TOO_SOON));
    CHECK(says(starts(h, 7, 1000, 9).outcome, LLMNR_SHARED));
    h.interfaces[1].names[5].due = LLMNR_LATEST + 1;
    CHECK(refused(starts(h, 5, LLMNR_LATEST, 9).outcome, LLMNR_REFUSAL_TOO_SOON));
}

/* ---- refusals of a host, 1 to 16 and 20 */

static llmnr_outcome altered(unsigned at, uint8_t octet, uint16_t flags, llmnr_endpoint from)
{
    make_query(datagram, 0x1234, flags, 5);
    datagram[at] = octet;
    return receives(in_state(LLMNR_STATE_VERIFYING), from, flags & RESPONSE ? ours : group, QUERY, 500).outcome;
}

static llmnr_outcome tick_with(size_t table_len, size_t interface, size_t out_len)
{
    llmnr_host h = in_state(LLMNR_STATE_UNIQUE);
    return llmnr_tick(h.settings, h.clock, h.interfaces[1], table, table_len, interface, 0, 0, out, out_len).outcome;
}

static void refusals(void)
{
    llmnr_host h = in_state(LLMNR_STATE_UNIQUE);
    llmnr_endpoint self = {ours, LLMNR_PORT};
    llmnr_settings bad = settings();
    CHECK(refused(tick_with(sizeof table, 1, LLMNR_ROOM - 1), LLMNR_REFUSAL_ROOM));
    llmnr_outcome o = tick_with(sizeof table - 1, 1, LLMNR_ROOM);
    CHECK(refused(o, LLMNR_REFUSAL_TABLE) && o.at == ENTRIES - 8);
    o = llmnr_set_up(table, sizeof table - 1, settings(), 0, 0).outcome;
    CHECK(refused(o, LLMNR_REFUSAL_TABLE) && o.at == ENTRIES - 8);
    CHECK(refused(tick_with(sizeof table, 0, LLMNR_ROOM), LLMNR_REFUSAL_INTERFACE));
    CHECK(refused(tick_with(sizeof table, LLMNR_INTERFACES, LLMNR_ROOM), LLMNR_REFUSAL_INTERFACE));
    CHECK(refused(tick_with(sizeof table, SIZE_MAX, LLMNR_ROOM), LLMNR_REFUSAL_INTERFACE));
    CHECK(refused(ticks(h, LLMNR_LATEST + 1).outcome, LLMNR_REFUSAL_CLOCK));
    CHECK(says(ticks(h, LLMNR_LATEST).outcome, LLMNR_QUIET));
    CHECK(refused(receives(h, lower, group, 11, 0).outcome, LLMNR_REFUSAL_LENGTH));
    CHECK(refused(altered(FLAGS, 0x08, 0, lower), LLMNR_REFUSAL_OPCODE));
    CHECK(refused(altered(FLAGS + 1, 0x03, RESPONSE, lower), LLMNR_REFUSAL_RCODE));
    CHECK(refused(altered(QDCOUNT, 2, 0, lower), LLMNR_REFUSAL_COUNTS));
    CHECK(refused(altered(LABEL, 64, 0, lower), LLMNR_REFUSAL_QUESTION));
    CHECK(refused(altered(CLASS, 3, 0, lower), LLMNR_REFUSAL_CLASS));
    CHECK(refused(altered(LABEL + 1, 'x', 0, lower), LLMNR_REFUSAL_NOT_OURS));
    CHECK(refused(altered(FLAGS, 0x04, 0, lower), LLMNR_REFUSAL_NOTIFICATION));
    CHECK(refused(altered(ID, 0x35, RESPONSE, lower), LLMNR_REFUSAL_UNMATCHED));
    CHECK(refused(altered(TYPE, 255, RESPONSE, self), LLMNR_REFUSAL_OWN));
    make_query(datagram, 0x1234, 0, 5);
    CHECK(refused(receives(h, lower, ours, QUERY, 0).outcome, LLMNR_REFUSAL_ADDRESS));
    bad.interfaces[1].interval = 99;
    CHECK(refused(llmnr_set_up(table, sizeof table, bad, 0, 0).outcome, LLMNR_REFUSAL_SETTINGS));
}

/* ---- the longest datagram and the longest table */

static void longest(void)
{
    static uint8_t octets[LLMNR_DATAGRAM + 1], entries[LLMNR_TABLE + 1];
    llmnr_host h = in_state(LLMNR_STATE_UNIQUE);
    make_query(octets, 0x1234, 0, 5);
    for (size_t more = 0; more < 2; more++) {
        llmnr_outcome o = llmnr_receive(h.settings, h.clock, h.interfaces[1], table, sizeof table, 1, lower, group, octets,
                                        LLMNR_DATAGRAM + more, 0, 0, out, sizeof out).outcome;
        CHECK(more == 0 ? says(o, LLMNR_REPLY) : refused(o, LLMNR_REFUSAL_LENGTH));
        llmnr_table_check t = llmnr_check_table(entries, LLMNR_TABLE + more);
        CHECK(!t.good && t.at == (more == 0 ? 0 : LLMNR_TABLE));
    }
}

/* ---- a lookup: its outcomes, its phases, and 10, 17 and 18 */

static llmnr_lookup_step answered(llmnr_lookup l, uint16_t flags, uint8_t answers, uint64_t time)
{
    uint8_t response[QUERY + RECORD];
    make_query(response, 0x1234, (uint16_t)(RESPONSE | flags), 5);
    make_record(response + QUERY, 30);
    response[ANCOUNT] = answers;
    return llmnr_lookup_receive(l, lower, ours, response, sizeof response, time, 7, out, sizeof out);
}

/* the outcome of a lookup of a name of several labels */
static llmnr_outcome asked(const uint8_t *name, size_t len, bool permission)
{
    return llmnr_lookup_start(settings(), 1, name, len, 1, permission, 4, 0x1234, out, sizeof out).outcome;
}

static void several(void)
{
    static const uint8_t two[] = "\1f\1f", reverse[] = "\1f\3Ip6\4aRPA", none[] = "\3ip6\4arpa";
    CHECK(refused(asked(two, sizeof two, false), LLMNR_REFUSAL_SEVERAL_LABELS));
    CHECK(says(asked(two, sizeof two, true), LLMNR_QUERY));
    CHECK(says(asked(reverse, sizeof reverse, false), LLMNR_QUERY));
    CHECK(refused(asked(none, sizeof none, false), LLMNR_REFUSAL_SEVERAL_LABELS));
}

static void lookups(void)
{
    static const uint8_t name[] = {1, 'f', 0};
    llmnr_lookup_start_step started = llmnr_lookup_start(settings(), 1, name, 2, 1, false, 4, 0x1234, out, sizeof out);
    CHECK(refused(started.outcome, LLMNR_REFUSAL_QUESTION) && started.lookup.phase == LLMNR_PHASE_ENDED);
    several();
    started = llmnr_lookup_start(settings(), 1, name, sizeof name, 1, false, 4, 0x1234, out, sizeof out);
    CHECK(says(started.outcome, LLMNR_QUERY) && started.outcome.len == QUERY && started.to.port == LLMNR_PORT);
    const llmnr_lookup asking = started.lookup;
    llmnr_lookup l = asking;
    CHECK(l.phase == LLMNR_PHASE_ASKING && l.sends == 1 && l.due == 104 && l.id == 0x1234 && l.qtype == 1 && l.len == 3);

    llmnr_lookup_step s = answered(l, 0, 1, 5);
    CHECK(s.outcome.what == LLMNR_FOUND && s.outcome.at == QUERY && s.outcome.answers == 1 && s.phase == LLMNR_PHASE_ENDED);
    CHECK(refused(answered(l, TENTATIVE, 1, 5).outcome, LLMNR_REFUSAL_TENTATIVE));
    CHECK(refused(answered(l, 0, 2, 5).outcome, LLMNR_REFUSAL_RECORDS));
    s = answered(l, CONFLICT, 1, 5);
    CHECK(s.outcome.what == LLMNR_PART && s.outcome.at == QUERY && s.outcome.answers == 1);
    CHECK(s.phase == LLMNR_PHASE_COLLECTING && s.sends == 0 && s.due == 104 && s.clock == 5);
    llmnr_lookup_take(&l, s);
    s = llmnr_lookup_tick(l, 104, 7, out, sizeof out);
    CHECK(says(s.outcome, LLMNR_COLLECTED) && s.phase == LLMNR_PHASE_ENDED && s.due == 0);

    l = asking;
    CHECK(says(llmnr_lookup_tick(l, 103, 7, out, sizeof out).outcome, LLMNR_QUIET));
    s = llmnr_lookup_tick(l, 104, 7, out, sizeof out);
    CHECK(says(s.outcome, LLMNR_QUERY) && s.phase == LLMNR_PHASE_ASKING && s.sends == 2 && s.due == 204 && s.clock == 104);
    CHECK(out[0] == 0x12 && out[1] == 0x34 && out[TYPE] == 1);
    llmnr_lookup_take(&l, s);
    llmnr_lookup_take(&l, llmnr_lookup_tick(l, 204, 7, out, sizeof out));
    s = llmnr_lookup_tick(l, 304, 7, out, sizeof out);
    CHECK(says(s.outcome, LLMNR_NO_SUCH_NAME) && s.phase == LLMNR_PHASE_ENDED);
    llmnr_lookup_take(&l, s);
    CHECK(refused(answered(l, 0, 1, 305).outcome, LLMNR_REFUSAL_UNMATCHED));
    l = asking;
    for (unsigned other = LLMNR_PHASE_COLLECTING + 1; other < 256; other++) {
        l.phase = (uint8_t)other;
        CHECK(says(llmnr_lookup_tick(l, 104, 7, out, sizeof out).outcome, LLMNR_QUIET));
    }
}

int main(void)
{
    make_table(table);
    states();
    defence();
    outcomes();
    stopped();
    refusals();
    longest();
    lookups();
    return told("constants");
}
