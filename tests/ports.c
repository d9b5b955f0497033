/*
 * Records that belong to some ports alone: masks of a table, kind 6, against the archive. A reply has the records that are valid on the
 * interface asked, all its octets as they should be; of the others it has nothing, and TC does not tell of them. A bad mask is refused by
 * every call that is lent the table.
 */
#include "check.h"

enum { UNIQUE = 1, SHARED = 2, A = 3, AAAA = 4, MASK = 6 };
enum { TYPE_A = 1, TYPE_PTR = 12, TYPE_AAAA = 28, ANY = 255 };

static const char scale3[] = "\6scale3", other[] = "\1b";
static const uint8_t hall[4] = {192, 0, 2, 17}, office[4] = {198, 51, 100, 17};
static const uint8_t both[16] = {0x20, 1, 0x0D, 0xB8, 0, 0, 0, 0, 0, 0, 0, 0, 0, 0, 0, 0x17};

/* ---- a table, entry by entry */

static uint8_t table[LLMNR_TABLE];
static size_t table_len;

static void entry(uint8_t kind, const void *body, size_t len)
{
    const uint8_t head[4] = {(uint8_t)(4 + len), 0, kind, 0};
    memcpy(table + table_len, head, sizeof head);
    if (len != 0)
        memcpy(table + table_len + sizeof head, body, len);
    table_len += sizeof head + len;
}

static void name(uint8_t kind, const char *octets)
{
    entry(kind, octets, strlen(octets) + 1);
}

static void record(uint8_t kind, const uint8_t *data)
{
    entry(kind, data, kind == A ? 4 : 16);
}

static void on(uint8_t mask)
{
    entry(MASK, &mask, 1);
}

/* Begins the table anew, with scale3. */
static void begin(void)
{
    table_len = 0;
    name(UNIQUE, scale3);
}

/* ---- a query, and the reply to it */

static uint8_t query[LLMNR_ROOM], want[LLMNR_ROOM], out[LLMNR_ROOM];
static size_t query_len, want_len;

/* A question, and a reply with no answer as yet, of a name that is Unique. */
static void question(const char *octets, uint8_t type)
{
    const uint8_t header[12] = {0x12, 0x34, 0, 0, 0, 1}, rest[4] = {0, type, 0, 1};
    const size_t len = strlen(octets) + 1;
    memcpy(query, header, sizeof header);
    memcpy(query + 12, octets, len);
    memcpy(query + 12 + len, rest, sizeof rest);
    query_len = 12 + len + sizeof rest;
    memset(want, 0xA5, sizeof want);
    memcpy(want, query, query_len);
    want[2] = 0x80;
    want_len = query_len;
}

/* One more answer of the reply. */
static void answer(uint8_t kind, const uint8_t *data)
{
    const uint8_t len = kind == A ? 4 : 16;
    const uint8_t fixed[12] = {0xC0, 12, 0, kind == A ? TYPE_A : TYPE_AAAA, 0, 1, 0, 0, 0, 30, 0, len};
    memcpy(want + want_len, fixed, sizeof fixed);
    memcpy(want + want_len + sizeof fixed, data, len);
    want_len += sizeof fixed + len;
    want[7]++;
}

/* TC: an answer is left out. */
static void cut(void)
{
    want[2] |= 2;
}

/* ---- a host with all interfaces, 192.0.2.16 and those after it */

static llmnr_settings settings(void)
{
    llmnr_settings s;
    memset(&s, 0, sizeof s);
    for (unsigned i = 0; i < LLMNR_INTERFACES; i++) {
        const uint8_t address[4] = {192, 0, 2, (uint8_t)(16 + i)};
        s.interfaces[i].family = 4;
        memcpy(s.interfaces[i].address, address, sizeof address);
        s.interfaces[i].interval = 100;
    }
    return s;
}

static llmnr_step asked(llmnr_host h, size_t i)
{
    const llmnr_endpoint from = {{4, {192, 0, 2, 99}}, 50000};
    const llmnr_address group = {4, {224, 0, 0, 252}};
    memset(out, 0xA5, sizeof out);
    return llmnr_receive(h.settings, h.clock, h.interfaces[i], table, table_len, i, from, group, query, query_len, h.clock, 7, out,
                         sizeof out);
}

/* The query, asked on an interface of a host, gets the reply, and nothing stands behind it. */
static void replies(llmnr_host h, size_t i)
{
    const llmnr_step s = asked(h, i);
    CHECK(s.outcome.what == LLMNR_REPLY && s.outcome.len == want_len && !s.changed);
    CHECK(memcmp(out, want, sizeof out) == 0);
}

/* The same of a host whose names are all Unique. */
static void serves(size_t i)
{
    const llmnr_set_up_step ready = llmnr_set_up(table, table_len, settings(), 0, 0);
    llmnr_host h = ready.host;
    CHECK(ready.outcome.what == LLMNR_READY);
    for (unsigned k = 0; k < LLMNR_NAMES; k++)
        h.interfaces[i].names[k].state = LLMNR_STATE_UNIQUE;
    replies(h, i);
}

/* ---- which records */

/* The table of an indicator with two ports: an address for each, and one for both. */
static void two_ports(void)
{
    begin(), record(AAAA, both), on(1), record(A, hall), on(2), record(A, office);
    question(scale3, TYPE_A), answer(A, hall), serves(0);
    question(scale3, TYPE_A), answer(A, office), serves(1);
    question(scale3, ANY), answer(AAAA, both), answer(A, hall), serves(0);
    question(scale3, ANY), answer(AAAA, both), answer(A, office), serves(1);
    question(scale3, TYPE_AAAA), answer(AAAA, both);
    for (size_t i = 0; i < LLMNR_INTERFACES; i++)
        serves(i);
    question(scale3, TYPE_A), serves(2), serves(3);
    question(scale3, TYPE_PTR), serves(0), serves(1);
    begin(), on(1), record(A, hall), on(2), record(AAAA, both);
    question(scale3, TYPE_AAAA), serves(0);
    question(scale3, TYPE_A), serves(1);
    question(scale3, ANY), serves(2);
}

/* From set-up on: both ports ask for the name, and answer for it, first with T set, each with its own address. */
static void life(void)
{
    begin(), on(1), record(A, hall), on(2), record(A, office);
    llmnr_host h = llmnr_set_up(table, table_len, settings(), 5, 0).host;
    for (size_t i = 0; i < 2; i++)
        llmnr_take(&h, i, llmnr_start(h.settings, h.clock, h.interfaces[i], table, table_len, i, 0, 5, 9, out, sizeof out));
    for (unsigned turn = 0; turn < 4; turn++) {
        for (size_t i = 0; i < 2; i++) {
            question(scale3, TYPE_A), answer(A, i == 0 ? hall : office);
            want[2] |= turn < 3 ? 1 : 0;
            replies(h, i);
            CHECK(h.interfaces[i].names[0].state == (turn < 3 ? LLMNR_STATE_VERIFYING : LLMNR_STATE_UNIQUE));
            llmnr_take(&h, i, llmnr_tick(h.settings, h.clock, h.interfaces[i], table, table_len, i, 105 + 100 * turn, 9, out, sizeof out));
        }
    }
}

/* Every mask on every interface: before all records, between two, and right behind another, of which it undoes all. */
static void bits(void)
{
    for (uint8_t mask = 1; mask < 16; mask++) {
        const uint8_t others = mask == 15 ? 1 : 15 - mask;
        for (unsigned i = 0; i < LLMNR_INTERFACES; i++) {
            const bool valid = (mask >> i & 1) == 1;
            begin(), on(mask), record(A, hall), on(others), on(mask), record(AAAA, both);
            question(scale3, ANY);
            if (valid)
                answer(A, hall), answer(AAAA, both);
            serves(i);
            begin(), record(A, hall), on(mask), record(A, office), on(others);
            question(scale3, TYPE_A), answer(A, hall);
            if (valid)
                answer(A, office);
            serves(i);
        }
    }
}

/* A mask ends where the next name begins, and says nothing of the names before. */
static void names(void)
{
    begin(), record(A, hall), on(8), record(A, office), on(4), name(SHARED, other), record(A, office), on(2), record(A, hall);
    question(scale3, TYPE_A), answer(A, hall), serves(0), serves(1), serves(2);
    answer(A, office), serves(3);
    question(other, TYPE_A), answer(A, office), serves(0), serves(2), serves(3);
    answer(A, hall), serves(1);
}

/* 17 AAAA records and the question for scale3 are 500 octets; records of another port take none of the 12 that are left, and set no TC. */
static void room(void)
{
    for (unsigned first = 0; first < 2; first++) {
        begin();
        for (unsigned k = 0; first == 1 && k < 5; k++)
            on(2), record(AAAA, both);
        on(1);
        for (unsigned k = 0; k < 17; k++)
            record(AAAA, both);
        on(2), record(AAAA, both), on(5), record(A, hall);
        question(scale3, TYPE_AAAA);
        for (unsigned k = 0; k < 17; k++)
            answer(AAAA, both);
        CHECK(want_len == 500);
        serves(0);
        query[query_len - 3] = want[query_len - 3] = ANY;
        cut(), serves(0);
        question(scale3, TYPE_A), answer(A, hall), serves(0), serves(2);
        question(scale3, ANY), answer(A, hall), serves(2);
        question(scale3, ANY);
        for (unsigned k = 0; k < (first == 1 ? 6 : 1); k++)
            answer(AAAA, both);
        serves(1);
    }
}

/* ---- bad masks */

static int refused(llmnr_outcome o, size_t at)
{
    return o.what == LLMNR_REFUSED && o.refusal == LLMNR_REFUSAL_TABLE && o.at == at && o.answers == 0 && o.name == 0 && o.len == 0;
}

/* The table is bad at an offset: for the check, for a set-up, and for a later call of a host that is ready. */
static void bad(size_t at)
{
    const llmnr_settings s = settings();
    const llmnr_table_check t = llmnr_check_table(table, table_len);
    llmnr_host h = llmnr_set_up(NULL, 0, s, 0, 0).host;
    h.interfaces[1].names[0].state = LLMNR_STATE_UNIQUE;
    CHECK(!t.good && t.names == 0 && t.at == at);
    const llmnr_set_up_step ready = llmnr_set_up(table, table_len, s, 0, 0);
    CHECK(refused(ready.outcome, at) && ready.host.settings.interfaces[1].family == 0);
    CHECK(refused(llmnr_start(s, 0, h.interfaces[1], table, table_len, 1, 0, 0, 7, out, sizeof out).outcome, at));
    CHECK(refused(llmnr_tick(s, 0, h.interfaces[1], table, table_len, 1, 0, 7, out, sizeof out).outcome, at));
    question(scale3, TYPE_A);
    CHECK(refused(asked(h, 1).outcome, at) && out[0] == 0xA5);
}

static void good(void)
{
    const llmnr_table_check t = llmnr_check_table(table, table_len);
    CHECK(t.good && t.names == 1 && t.at == 0);
    CHECK(llmnr_set_up(table, table_len, settings(), 0, 0).outcome.what == LLMNR_READY);
}

static void bad_masks(void)
{
    static const uint8_t two[2] = {1, 0};
    for (unsigned mask = 0; mask < 256; mask++) {
        begin(), record(A, hall), on((uint8_t)mask);
        if (mask > 0 && mask < 16)
            good();
        else
            bad(20);
        begin(), on((uint8_t)mask), record(A, hall);
        if (mask > 0 && mask < 16)
            good();
        else
            bad(12);
    }
    begin(), entry(MASK, two, 2), record(A, hall), bad(12);
    begin(), entry(MASK, NULL, 0), record(A, hall), bad(12);
    table_len = 0, on(1), bad(0);
    table_len = 0, on(1), name(UNIQUE, scale3), record(A, hall), bad(0);
}

/* A mask is none of the 24 records of a name, and there may be any number. */
static void counts(void)
{
    begin();
    for (unsigned k = 0; k < 24; k++)
        on(3), record(A, hall);
    good();
    for (unsigned k = 0; k < 100; k++)
        on(12);
    good();
    record(A, hall), bad(12 + 24 * 13 + 100 * 5);
}

int main(void)
{
    two_ports();
    life();
    bits();
    names();
    room();
    bad_masks();
    counts();
    return told("ports");
}
