/*
 * Two ports, one moment (rule C16), with the archive and llmnr_take: two calls on different interfaces at one time, each step taken into the
 * host before the other call is made. In either order the host is the same at the end, octet for octet, and each call has given the same step,
 * but for the clock of a refused one, and the same buffer. On one interface the order must be seen to matter.
 */
#include "check.h"
#include "values.h"

enum { PAIRS = 40000 };

static uint8_t table[ENTRIES];

enum { START, TICK, RECEIVE, KINDS };

/* A call with all that it is given but the host. */
typedef struct call {
    unsigned kind;
    size_t interface, name, room;
    llmnr_endpoint from;
    llmnr_address to;
    uint8_t datagram[QUERY + RECORD];
    uint64_t time;
    uint16_t id;
} call;

/* What it gives: the step, and the buffer that it was lent. */
typedef struct given {
    llmnr_step step;
    uint8_t out[LLMNR_ROOM];
} given;

enum { BEFORE, AT, AFTER, TIMES };

/*
 * What the pairs have reached: by the first call's kind, and how often both have changed a name; first calls that start a Stopped name
 * before, at and after its due time, and those that stop a name, by whether it is then due in 30 seconds.
 */
typedef struct counts {
    unsigned accepted[KINDS], refused[KINDS], both_changed;
    unsigned again[TIMES], stopped[2];
} counts;

static unsigned pick(unsigned n)
{
    return (unsigned)(value() >> 33) % n;
}

/* Interfaces with 192.0.2.16 and those after it, some unused; of the first two names any state, near its due time, the others Off. */
static llmnr_host any_host(void)
{
    llmnr_host h;
    memset(&h, 0, sizeof h);
    h.clock = 1000 + pick(3);
    for (unsigned i = 0; i < LLMNR_INTERFACES; i++) {
        const uint8_t address[4] = {192, 0, 2, (uint8_t)(16 + i)};
        h.settings.interfaces[i].family = pick(16) == 0 ? 0 : 4;
        memcpy(h.settings.interfaces[i].address, address, sizeof address);
        h.settings.interfaces[i].interval = pick(2) == 0 ? 100 : 1000;
        for (unsigned k = 0; k < 2; k++) {
            llmnr_name *n = &h.interfaces[i].names[k];
            n->state = (uint8_t)pick(LLMNR_STATE_SHARED + 2);
            n->sends = (uint8_t)(1 + pick(4));
            n->id = (uint16_t)(7 + pick(2));
            n->qtype = (uint16_t)(pick(2) == 0 ? 1 : 255);
            n->qclass = 1;
            n->due = h.clock + pick(3);
        }
    }
    return h;
}

/*
 * A call at a time: a datagram is a query with C clear or set, or a response with T clear or set and no answer or one. Octets behind the
 * question of a query are not read.
 */
static call any_call(size_t interface, uint64_t time)
{
    const uint16_t flags[4] = {0, 0x0400, 0x8000, 0x8100};
    const uint32_t ttls[4] = {0, 1, 0x7FFFFFFF, 0x80000000};
    const llmnr_address group = {4, {224, 0, 0, 252}}, ours = {4, {192, 0, 2, 17}};
    const llmnr_endpoint below = {{4, {192, 0, 2, 5}}, 5355}, above = {{4, {192, 0, 2, 99}}, 5355};
    const uint16_t picked = flags[pick(4)];
    call c;
    memset(&c, 0, sizeof c);
    c.kind = pick(KINDS);
    c.interface = interface;
    c.name = pick(8) == 0 ? 7 : pick(2);
    c.room = pick(32) == 0 ? LLMNR_ROOM - 1 : LLMNR_ROOM;
    c.time = time;
    c.id = (uint16_t)(7 + pick(2));
    c.from = pick(2) == 0 ? below : above;
    c.to = picked < 0x8000 ? group : ours;
    make_query(c.datagram, c.id, picked, pick(3));
    c.datagram[16] = pick(2) == 0 ? 1 : 255;
    c.datagram[7] = picked < 0x8000 ? 0 : (uint8_t)pick(2);
    make_record(c.datagram + QUERY, ttls[pick(4)]);
    return c;
}

/* Makes a call of a host, and takes its step into it. */
static given make(llmnr_host *h, const call *c)
{
    llmnr_names n;
    given g;
    memset(&n, 0, sizeof n);
    memset(&g, 0xA5, sizeof g);
    if (c->interface < LLMNR_INTERFACES)
        n = h->interfaces[c->interface];
    if (c->kind == START)
        g.step = llmnr_start(h->settings, h->clock, n, table, sizeof table, c->interface, c->name, c->time, c->id, g.out, c->room);
    else if (c->kind == TICK)
        g.step = llmnr_tick(h->settings, h->clock, n, table, sizeof table, c->interface, c->time, c->id, g.out, c->room);
    else
        g.step = llmnr_receive(h->settings, h->clock, n, table, sizeof table, c->interface, c->from, c->to, c->datagram,
                               sizeof c->datagram, c->time, c->id, g.out, c->room);
    llmnr_take(h, c->interface, g.step);
    return g;
}

static int same_outcome(llmnr_outcome a, llmnr_outcome b)
{
    return a.what == b.what && a.refusal == b.refusal && a.name == b.name && a.len == b.len && a.at == b.at;
}

static int same_given(const given *a, const given *b)
{
    const llmnr_step *s = &a->step, *t = &b->step;
    return same_name(s->name, t->name) && same_outcome(s->outcome, t->outcome) && s->changed == t->changed && s->to.port == t->to.port
        && s->to.address.family == t->to.address.family && memcmp(s->to.address.octets, t->to.address.octets, 16) == 0
        && memcmp(a->out, b->out, sizeof a->out) == 0;
}

/* Counts what the first call has come to. A start of a Stopped name is too soon exactly before its due time, if no other check fails. */
static void count(const llmnr_host *h, const call *c, const llmnr_step *s, counts *reached)
{
    (s->outcome.what == LLMNR_REFUSED ? reached->refused : reached->accepted)[c->kind]++;
    if (s->outcome.what == LLMNR_STOPPED)
        reached->stopped[s->name.due == c->time + 30000]++;
    if (c->kind != START || c->interface >= LLMNR_INTERFACES || (s->outcome.refusal != 0 && s->outcome.refusal != LLMNR_REFUSAL_TOO_SOON))
        return;
    const llmnr_name *n = &h->interfaces[c->interface].names[c->name];
    CHECK((s->outcome.refusal != 0) == (n->state == LLMNR_STATE_STOPPED && c->time < n->due));
    if (n->state == LLMNR_STATE_STOPPED)
        reached->again[c->time < n->due ? BEFORE : c->time == n->due ? AT : AFTER]++;
}

/* Whether two calls give the same in either order; what they come to is counted. */
static int either_order(const llmnr_host *h, const call *c, const call *e, counts *reached)
{
    llmnr_host one = *h, other = *h;
    given first = make(&one, c), then = make(&one, e);
    given early = make(&other, e), late = make(&other, c);
    count(h, c, &first.step, reached);
    reached->both_changed += first.step.changed && early.step.changed;
    return memcmp(&one, &other, sizeof one) == 0 && same_given(&first, &late) && same_given(&then, &early);
}

int main(void)
{
    counts apart, together;
    unsigned matters = 0;
    memset(&apart, 0, sizeof apart);
    memset(&together, 0, sizeof together);
    make_table(table);
    for (unsigned pair = 0; pair < PAIRS; pair++) {
        llmnr_host h = any_host();
        uint64_t time = h.clock - 1 + pick(4);
        size_t i = pick(LLMNR_INTERFACES + 1), j = (i + 1 + pick(LLMNR_INTERFACES)) % (LLMNR_INTERFACES + 1);
        call c = any_call(i, time), e = any_call(j, time);
        CHECK(either_order(&h, &c, &e, &apart));
        e.interface = i;
        matters += !either_order(&h, &c, &e, &together);
    }
    for (unsigned kind = 0; kind < KINDS; kind++)
        CHECK(apart.accepted[kind] > PAIRS / 50 && apart.refused[kind] > PAIRS / 50);
    for (unsigned when = 0; when < TIMES; when++)
        CHECK(apart.again[when] > PAIRS / 200);
    CHECK(apart.stopped[0] > PAIRS / 2000 && apart.stopped[1] > PAIRS / 2000);
    CHECK(apart.both_changed > PAIRS / 50 && matters > PAIRS / 50);
    return told("orders");
}
