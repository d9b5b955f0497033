/*
 * The later calls of a lookup against the archive: each field of the lookup goes in, in its own place, and clock and phase come back. What
 * llmnr_lookup_take changes, and what not.
 */
#include "check.h"
#include "values.h"

static uint8_t out[LLMNR_ROOM];

static const llmnr_address groups[2] = {
    {4, {224, 0, 0, 252}},
    {6, {0xFF, 2, 0, 0, 0, 0, 0, 0, 0, 0, 0, 0, 0, 1, 0, 3}},
};

/* Any values in every field; its interface is used, with the first or the second family. */
static llmnr_lookup any_lookup(unsigned at, unsigned second, uint8_t phase)
{
    llmnr_lookup l;
    memset(&l, 0, sizeof l);
    for (unsigned i = 0; i < LLMNR_INTERFACES; i++)
        l.settings[i] = any_setting();
    l.settings[at].family = groups[second].family;
    l.settings[at].interval = 1000;
    l.interface = at;
    for (unsigned j = 0; j < LLMNR_LONGEST; j++)
        l.name[j] = (uint8_t)(value() >> 56);
    l.len = (size_t)(value() >> 56);
    l.qtype = (uint16_t)(value() >> 48);
    l.id = (uint16_t)(value() >> 48);
    l.clock = value() >> 20;
    l.phase = phase;
    l.sends = (uint8_t)(value() >> 56 | 1);
    l.due = value() | 1;
    return l;
}

static llmnr_lookup_step ticks(llmnr_lookup l, uint64_t time)
{
    return llmnr_lookup_tick(l, time, 0xABCD, out, sizeof out);
}

/* Whether a step has this clock and outcome, and these numbers of a phase. */
static void gives(llmnr_lookup_step s, uint64_t clock, uint8_t what, uint8_t phase, uint8_t sends, uint64_t due)
{
    static const uint8_t none[16];
    CHECK(s.clock == clock);
    CHECK(s.outcome.what == what && s.outcome.name == 0);
    CHECK(s.phase == phase && s.sends == sends && s.due == due);
    if (what != LLMNR_QUERY)
        CHECK(s.to.address.family == 0 && memcmp(s.to.address.octets, none, 16) == 0 && s.to.port == 0 && s.outcome.len == 0);
}

/* A refused call gives clock and phase as they were; any number that is no phase's is Ended, and what a phase does not use is zero. */
static void refused(unsigned at, uint8_t phase)
{
    llmnr_lookup l = any_lookup(at, at % 2, phase);
    llmnr_endpoint from = {groups[at % 2], 1};
    int asking = phase == LLMNR_PHASE_ASKING, collecting = phase == LLMNR_PHASE_COLLECTING;
    for (unsigned round = 0; round < 2; round++) {
        uint8_t refusal = round == 0 ? LLMNR_REFUSAL_ROOM : LLMNR_REFUSAL_CLOCK;
        size_t len = round == 0 ? 0 : sizeof out;
        l.clock = round == 0 ? value() : l.clock | 1;
        const llmnr_lookup_step s[2] = {
            llmnr_lookup_tick(l, 0, 0, out, len),
            llmnr_lookup_receive(l, from, from.address, NULL, 0, 0, 0, out, len),
        };
        for (unsigned call = 0; call < 2; call++) {
            gives(s[call], l.clock, LLMNR_REFUSED, asking || collecting ? phase : LLMNR_PHASE_ENDED, asking ? l.sends : 0,
                  asking || collecting ? l.due : 0);
            CHECK(s[call].outcome.refusal == refusal && s[call].outcome.answers == 0 && s[call].outcome.at == 0);
        }
    }
}

/* A tick that asks again writes ID, name and type of the lookup, for the group of its interface. */
static void asks(llmnr_lookup l, size_t len)
{
    uint8_t want[12 + LLMNR_LONGEST + 4] = {(uint8_t)(l.id >> 8), (uint8_t)l.id, 0, 0, 0, 1};
    const uint8_t end[4] = {(uint8_t)(l.qtype >> 8), (uint8_t)l.qtype, 0, 1};
    const llmnr_address *group = &groups[l.settings[l.interface].family == 6];
    uint64_t interval = l.settings[l.interface].interval == 100 ? 100 : 1000;
    memcpy(want + 12, l.name, len);
    memcpy(want + 12 + len, end, sizeof end);
    l.sends = 2;
    l.due = l.clock + 5;
    llmnr_lookup_step s = ticks(l, l.clock + 7);
    gives(s, l.clock + 7, LLMNR_QUERY, LLMNR_PHASE_ASKING, 3, l.clock + 7 + interval);
    CHECK(s.outcome.len == len + 16 && memcmp(out, want, len + 16) == 0);
    CHECK(s.to.address.family == group->family && memcmp(s.to.address.octets, group->octets, 16) == 0 && s.to.port == LLMNR_PORT);
}

static void asked_again(unsigned at, unsigned second)
{
    llmnr_lookup l = any_lookup(at, second, LLMNR_PHASE_ASKING);
    for (l.len = 0; l.len <= LLMNR_LONGEST; l.len++)
        asks(l, l.len);
    for (unsigned bit = 8; bit < 64; bit++) {
        l.len = (size_t)1 << bit;
        asks(l, LLMNR_LONGEST);
    }
    for (unsigned bit = 0; bit <= 16; bit++) {
        l.len = 8 + bit;
        l.settings[at].interval = (uint16_t)(100u ^ (bit == 16 ? 0 : 1u << bit));
        asks(l, l.len);
    }
    l.due = l.clock;
    for (unsigned bit = 2; bit < 64; bit++) {
        l.interface = at | (size_t)1 << bit;
        gives(ticks(l, l.clock), l.clock, LLMNR_QUIET, LLMNR_PHASE_ASKING, l.sends, l.due);
    }
}

/* A tick before the lookup is due, and one when it is. */
static void due_lookup(unsigned at, uint8_t phase, uint8_t sends)
{
    llmnr_lookup l = any_lookup(at, at % 2, phase);
    int asking = phase == LLMNR_PHASE_ASKING;
    l.sends = sends;
    l.due = l.clock + (value() >> 20 | 1);
    gives(ticks(l, l.due - 1), l.due - 1, LLMNR_QUIET, phase, asking ? sends : 0, l.due);
    if (asking && sends < 3)
        gives(ticks(l, l.due), l.due, LLMNR_QUERY, phase, (uint8_t)(sends + 1), l.due + 1000);
    else
        gives(ticks(l, l.due), l.due, asking ? LLMNR_NO_SUCH_NAME : LLMNR_COLLECTED, LLMNR_PHASE_ENDED, 0, 0);
    for (unsigned bit = 48; bit < 64; bit++) {
        l.due = UINT64_C(1) << bit;
        gives(ticks(l, LLMNR_LATEST), LLMNR_LATEST, LLMNR_QUIET, phase, asking ? sends : 0, l.due);
    }
}

/* A lookup of the name a by IPv6, and the response that it waits for. */
static llmnr_lookup waiting(unsigned at, uint8_t *response, uint16_t flags)
{
    llmnr_lookup l = any_lookup(at, 1, LLMNR_PHASE_ASKING);
    make_query(response, l.id, flags, 0);
    response[15] = (uint8_t)(l.qtype >> 8), response[16] = (uint8_t)l.qtype;
    memcpy(l.name, response + 12, 3);
    l.len = 3;
    for (unsigned j = 0; j < LLMNR_INTERFACES; j++)
        l.settings[j].family = 6;
    return l;
}

static llmnr_lookup_step receives(llmnr_lookup l, llmnr_endpoint from, const uint8_t *response)
{
    const llmnr_address to = {6, {0xFE, 0x80}};
    return llmnr_lookup_receive(l, from, to, response, QUERY, l.clock + 9, 0xABCD, out, sizeof out);
}

/* Every bit of ID, type and name counts, and every octet of every interface's address: a response from one of these is our own. */
static void responses(unsigned at)
{
    uint8_t response[QUERY];
    llmnr_endpoint from = {{6, {0xFE, 0x80, 1}}, 5355};
    llmnr_lookup l = waiting(at, response, 0x8400);
    gives(receives(l, from, response), l.clock + 9, LLMNR_PART, LLMNR_PHASE_COLLECTING, 0, l.due);
    l = waiting(at, response, 0x8000);
    gives(receives(l, from, response), l.clock + 9, LLMNR_FOUND, LLMNR_PHASE_ENDED, 0, 0);
    for (unsigned bit = 0; bit < 16; bit++) {
        llmnr_lookup ids = l, types = l, names = l;
        ids.id = (uint16_t)(ids.id ^ 1u << bit);
        types.qtype = (uint16_t)(types.qtype ^ 1u << bit);
        names.name[bit / 8] = (uint8_t)(names.name[bit / 8] ^ (bit == 13 ? 0x60 : 1u << bit % 8)); /* not only another case */
        const llmnr_lookup_step s[3] = {receives(ids, from, response), receives(types, from, response), receives(names, from, response)};
        for (unsigned field = 0; field < 3; field++) {
            gives(s[field], l.clock, LLMNR_REFUSED, LLMNR_PHASE_ASKING, l.sends, l.due);
            CHECK(s[field].outcome.refusal == LLMNR_REFUSAL_UNMATCHED);
        }
    }
    for (unsigned j = 0; j < LLMNR_INTERFACES; j++) {
        memcpy(from.address.octets, l.settings[j].address, 16);
        llmnr_lookup_step s = receives(l, from, response);
        gives(s, l.clock, LLMNR_REFUSED, LLMNR_PHASE_ASKING, l.sends, l.due);
        CHECK(s.outcome.refusal == LLMNR_REFUSAL_OWN);
        for (unsigned octet = 0; octet < 16; octet++) {
            llmnr_lookup other = l;
            other.settings[j].address[octet] ^= 0x10;
            CHECK(receives(other, from, response).outcome.what == LLMNR_FOUND);
        }
        llmnr_lookup other = l;
        other.settings[j].family = 5;
        CHECK(receives(other, from, response).outcome.refusal == (j == at ? LLMNR_REFUSAL_INTERFACE : 0));
    }
}

/* A step taken into a lookup: clock, phase, sends and due, and of all other octets none. */
static void taken(unsigned at)
{
    for (unsigned fields = 0; fields < 16; fields++) {
        llmnr_lookup l = any_lookup(at, at % 2, (uint8_t)(value() >> 56)), want;
        llmnr_lookup_step s;
        memcpy(&want, &l, sizeof l);
        for (unsigned j = 0; j < sizeof s; j++)
            ((uint8_t *)&s)[j] = (uint8_t)(value() >> 56);
        want.clock = s.clock = fields & 1 ? ~l.clock : l.clock;
        want.phase = s.phase = fields & 2 ? (uint8_t)~l.phase : l.phase;
        want.sends = s.sends = fields & 4 ? (uint8_t)~l.sends : l.sends;
        want.due = s.due = fields & 8 ? ~l.due : l.due;
        llmnr_lookup_take(&l, s);
        CHECK(memcmp(&l, &want, sizeof l) == 0);
    }
}

int main(void)
{
    for (unsigned at = 0; at < LLMNR_INTERFACES; at++) {
        for (unsigned phase = 0; phase < 256; phase++)
            refused(at, (uint8_t)phase);
        asked_again(at, 0);
        asked_again(at, 1);
        for (unsigned sends = 0; sends < 256; sends++) {
            due_lookup(at, LLMNR_PHASE_ASKING, (uint8_t)sends);
            due_lookup(at, LLMNR_PHASE_COLLECTING, (uint8_t)sends);
        }
        responses(at);
        taken(at);
    }
    return told("lookups");
}
