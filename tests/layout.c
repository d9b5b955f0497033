/*
 * The structs of include/llmnr.h against those of the archive: every field of every struct goes in with a value of its own, and what comes
 * back depends on it. Sizes, alignments and offsets are those of the ABI. The later calls of a host are in steps.c, those of a lookup in
 * lookups.c.
 */
#include "check.h"
#include "values.h"

#define HAS_SIZE(type, size, align) \
    CHECK(sizeof(type) == (size)); \
    CHECK(offsetof(struct { char c; type t; }, t) == (align))

#define AT(type, field, offset) CHECK(offsetof(type, field) == (offset))

static void sizes(void)
{
    HAS_SIZE(llmnr_address, 17, 1);
    HAS_SIZE(llmnr_endpoint, 20, 2);
    HAS_SIZE(llmnr_setting, 20, 2);
    HAS_SIZE(llmnr_settings, 80, 2);
    HAS_SIZE(llmnr_outcome, 32, 8);
    HAS_SIZE(llmnr_name, 16, 8);
    HAS_SIZE(llmnr_names, 128, 8);
    HAS_SIZE(llmnr_host, 600, 8);
    HAS_SIZE(llmnr_step, 80, 8);
    HAS_SIZE(llmnr_set_up_step, 632, 8);
    HAS_SIZE(llmnr_lookup, 384, 8);
    HAS_SIZE(llmnr_lookup_start_step, 440, 8);
    HAS_SIZE(llmnr_lookup_step, 72, 8);
    HAS_SIZE(llmnr_record_read, 40, 8);
    HAS_SIZE(llmnr_table_check, 24, 8);
}

static void offsets(void)
{
    AT(llmnr_address, octets, 1), AT(llmnr_endpoint, port, 18);
    AT(llmnr_setting, address, 1), AT(llmnr_setting, interval, 18);
    AT(llmnr_outcome, what, 0), AT(llmnr_outcome, refusal, 1), AT(llmnr_outcome, answers, 2), AT(llmnr_outcome, at, 8);
    AT(llmnr_outcome, name, 16), AT(llmnr_outcome, len, 24);
    AT(llmnr_name, state, 0), AT(llmnr_name, sends, 1), AT(llmnr_name, id, 2), AT(llmnr_name, qtype, 4), AT(llmnr_name, qclass, 6);
    AT(llmnr_name, due, 8), AT(llmnr_host, settings, 0), AT(llmnr_host, interfaces, 80), AT(llmnr_host, clock, 592);
    AT(llmnr_step, clock, 0), AT(llmnr_step, name, 8), AT(llmnr_step, outcome, 24), AT(llmnr_step, to, 56), AT(llmnr_step, changed, 76);
    AT(llmnr_set_up_step, host, 0), AT(llmnr_set_up_step, outcome, 600);
    AT(llmnr_lookup, interface, 80), AT(llmnr_lookup, name, 88), AT(llmnr_lookup, len, 344), AT(llmnr_lookup, qtype, 352);
    AT(llmnr_lookup, id, 354), AT(llmnr_lookup, clock, 360), AT(llmnr_lookup, phase, 368), AT(llmnr_lookup, sends, 369);
    AT(llmnr_lookup, due, 376);
    AT(llmnr_lookup_start_step, lookup, 0), AT(llmnr_lookup_start_step, outcome, 384), AT(llmnr_lookup_start_step, to, 416);
    AT(llmnr_lookup_step, clock, 0), AT(llmnr_lookup_step, due, 8), AT(llmnr_lookup_step, outcome, 16), AT(llmnr_lookup_step, to, 48);
    AT(llmnr_lookup_step, phase, 68), AT(llmnr_lookup_step, sends, 69);
    AT(llmnr_record_read, rtype, 2), AT(llmnr_record_read, rclass, 4), AT(llmnr_record_read, ttl, 8), AT(llmnr_record_read, start, 16);
    AT(llmnr_record_read, len, 24), AT(llmnr_record_read, next, 32);
    AT(llmnr_table_check, names, 8), AT(llmnr_table_check, at, 16);
}

/* ---- the settings of a set-up and of a lookup's start come back */

static const llmnr_name no_name;
static const llmnr_setting no_setting;

static void settings(void)
{
    uint8_t out[LLMNR_ROOM];
    llmnr_settings s;
    for (unsigned i = 0; i < LLMNR_INTERFACES; i++) {
        s.interfaces[i] = any_setting();
        s.interfaces[i].family = (uint8_t)(i % 2 == 0 ? 4 : 7);
        s.interfaces[i].address[0] = (uint8_t)(10 + i);
        s.interfaces[i].interval = i == 0 ? 100 : 1000;
    }
    llmnr_set_up_step h = llmnr_set_up(NULL, 0, s, 77, 0);
    llmnr_lookup_start_step l = llmnr_lookup_start(s, 2, (const uint8_t *)"\1a", 3, 28, false, 78, 79, out, sizeof out);
    CHECK(h.outcome.what == LLMNR_READY && h.host.clock == 77);
    CHECK(l.outcome.what == LLMNR_QUERY && l.lookup.clock == 78 && l.lookup.interface == 2);
    for (unsigned i = 0; i < LLMNR_INTERFACES; i++) {
        CHECK(same_setting(h.host.settings.interfaces[i], s.interfaces[i]));
        CHECK(same_setting(l.lookup.settings[i], s.interfaces[i]));
        for (unsigned k = 0; k < LLMNR_NAMES; k++)
            CHECK(same_name(h.host.interfaces[i].names[k], no_name));
    }
    s.interfaces[0].interval = 0;
    h = llmnr_set_up(NULL, 0, s, 77, 0);
    CHECK(h.outcome.what == LLMNR_REFUSED && h.outcome.refusal == LLMNR_REFUSAL_SETTINGS && h.host.clock == 0);
    for (unsigned i = 0; i < LLMNR_INTERFACES; i++) {
        CHECK(same_setting(h.host.settings.interfaces[i], no_setting));
        for (unsigned k = 0; k < LLMNR_NAMES; k++)
            CHECK(same_name(h.host.interfaces[i].names[k], no_name));
    }
}

/* ---- records and tables */

static void reading(void)
{
    static const uint8_t record[] = {0, 1, 2, 3, 4, 5, 6, 7, 8, 0, 3, 9, 9, 9, 9};
    static const uint8_t bad[] = {7, 0, 1, 0, 1, 'a', 0, 7, 0, 1, 0, 1, 'A', 0};
    llmnr_record_read r = llmnr_record(record, sizeof record, 0);
    CHECK(r.good && r.rtype == 0x0102 && r.rclass == 0x0304 && r.ttl == 0x05060708);
    CHECK(r.start == 11 && r.len == 3 && r.next == 14);
    r = llmnr_record(record, sizeof record - 2, 0);
    CHECK(!r.good && r.rtype == 0 && r.rclass == 0 && r.ttl == 0 && r.start == 0 && r.len == 0 && r.next == 0);
    uint8_t table[ENTRIES];
    make_table(table);
    llmnr_table_check t = llmnr_check_table(table, sizeof table);
    CHECK(t.good && t.names == LLMNR_NAMES && t.at == 0);
    t = llmnr_check_table(bad, sizeof bad);
    CHECK(!t.good && t.names == 0 && t.at == 7);
    t = llmnr_check_table(NULL, 0);
    CHECK(t.good && t.names == 0 && t.at == 0);
}

/* ---- names: at 12 the name Ab, at 16 a pointer to it, at 18 a pointer to itself */

static void names(void)
{
    static const uint8_t message[] = {0, 0, 0, 0, 0, 0, 0, 0, 0, 0, 0, 0, 2, 'A', 'b', 0, 0xC0, 12, 0xC0, 18};
    static const uint8_t name[] = {2, 'a', 'B', 0}, other[] = {2, 'a', 'c', 0};
    CHECK(llmnr_same_name(message, sizeof message, 16, name, sizeof name, 0));
    CHECK(llmnr_same_name(name, sizeof name, 0, message, sizeof message, 16));
    CHECK(llmnr_same_name(message, sizeof message, 12, message, sizeof message, 16));
    CHECK(!llmnr_same_name(message, sizeof message, 16, other, sizeof other, 0));
    CHECK(!llmnr_same_name(message, sizeof message, 18, message, sizeof message, 18));
    CHECK(!llmnr_same_name(NULL, 0, 0, NULL, 0, 0));
}

int main(void)
{
    sizes();
    offsets();
    settings();
    reading();
    names();
    return told("layout");
}
