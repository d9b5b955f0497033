/*
 * No call writes past the end of its result. By the ABI of x86-64 the address of a result that is a struct of more than 16 octets is a
 * hidden first argument: here it is an open one, and stands before octets that must stay.
 */
#define llmnr_set_up by_value_set_up
#define llmnr_start by_value_start
#define llmnr_receive by_value_receive
#define llmnr_tick by_value_tick
#define llmnr_lookup_start by_value_lookup_start
#define llmnr_lookup_receive by_value_lookup_receive
#define llmnr_lookup_tick by_value_lookup_tick
#define llmnr_record by_value_record
#define llmnr_check_table by_value_check_table
#include "check.h"
#undef llmnr_set_up
#undef llmnr_start
#undef llmnr_receive
#undef llmnr_tick
#undef llmnr_lookup_start
#undef llmnr_lookup_receive
#undef llmnr_lookup_tick
#undef llmnr_record
#undef llmnr_check_table

void llmnr_set_up(llmnr_set_up_step *, const uint8_t *, size_t, llmnr_settings, uint64_t, uint16_t);
void llmnr_start(llmnr_step *, llmnr_settings, uint64_t, llmnr_names, const uint8_t *, size_t, size_t, size_t, uint64_t, uint16_t,
                 uint8_t *, size_t);
void llmnr_receive(llmnr_step *, llmnr_settings, uint64_t, llmnr_names, const uint8_t *, size_t, size_t, llmnr_endpoint, llmnr_address,
                   const uint8_t *, size_t, uint64_t, uint16_t, uint8_t *, size_t);
void llmnr_tick(llmnr_step *, llmnr_settings, uint64_t, llmnr_names, const uint8_t *, size_t, size_t, uint64_t, uint16_t, uint8_t *,
                size_t);
void llmnr_lookup_start(llmnr_lookup_start_step *, llmnr_settings, size_t, const uint8_t *, size_t, uint16_t, bool, uint64_t, uint16_t,
                        uint8_t *, size_t);
void llmnr_lookup_receive(llmnr_lookup_step *, llmnr_lookup, llmnr_endpoint, llmnr_address, const uint8_t *, size_t, uint64_t, uint16_t,
                          uint8_t *, size_t);
void llmnr_lookup_tick(llmnr_lookup_step *, llmnr_lookup, uint64_t, uint16_t, uint8_t *, size_t);
void llmnr_record(llmnr_record_read *, const uint8_t *, size_t, size_t);
void llmnr_check_table(llmnr_table_check *, const uint8_t *, size_t);

#define ENDS(type, call, holds) do { \
        struct { uint8_t before[64]; type result; uint8_t after[64]; } r; \
        memset(&r, fill, sizeof r); \
        call; \
        CHECK(holds); \
        for (unsigned j = 0; j < sizeof r.after; j++) \
            CHECK(r.before[j] == fill && r.after[j] == fill); \
    } while (0)

int main(void)
{
    uint8_t table[ENTRIES], query[QUERY], response[QUERY], out[LLMNR_ROOM];
    const llmnr_endpoint from = {{4, {192, 0, 2, 5}}, 50000};
    const llmnr_address group = {4, {224, 0, 0, 252}}, ours = {4, {192, 0, 2, 17}};
    llmnr_settings s;
    llmnr_names n;
    llmnr_lookup_start_step asked;
    make_table(table);
    make_query(query, 1, 0, 0);
    make_query(response, 1, 0x8000, 0);
    memset(&s, 0, sizeof s);
    memset(&n, 0, sizeof n);
    s.interfaces[0].family = 4;
    s.interfaces[0].interval = 100;
    n.names[0].state = LLMNR_STATE_VERIFYING;
    llmnr_lookup_start(&asked, s, 0, query + 12, 3, 1, false, 0, 1, out, sizeof out);
    for (unsigned turn = 0; turn < 2; turn++) {
        const uint8_t fill = turn == 0 ? 0xA5 : 0x5A;
        ENDS(llmnr_set_up_step, llmnr_set_up(&r.result, table, sizeof table, s, 0, 0), r.result.outcome.what == LLMNR_READY);
        ENDS(llmnr_step, llmnr_start(&r.result, s, 0, n, table, sizeof table, 0, 1, 0, 0, out, sizeof out), r.result.changed);
        ENDS(llmnr_step, llmnr_receive(&r.result, s, 0, n, table, sizeof table, 0, from, group, query, sizeof query, 0, 0, out, sizeof out),
             r.result.outcome.what == LLMNR_REPLY);
        ENDS(llmnr_step, llmnr_tick(&r.result, s, 0, n, table, sizeof table, 0, 0, 0, out, sizeof out), r.result.changed);
        ENDS(llmnr_step, llmnr_tick(&r.result, s, 0, n, table, sizeof table, 0, 0, 0, NULL, 0), !r.result.changed);
        ENDS(llmnr_lookup_start_step, llmnr_lookup_start(&r.result, s, 0, query + 12, 3, 1, false, 0, 1, out, sizeof out),
             r.result.outcome.what == LLMNR_QUERY);
        ENDS(llmnr_lookup_start_step, llmnr_lookup_start(&r.result, s, 0, NULL, 0, 1, false, 0, 1, NULL, 0),
             r.result.outcome.what == LLMNR_REFUSED);
        ENDS(llmnr_lookup_step,
             llmnr_lookup_receive(&r.result, asked.lookup, from, ours, response, sizeof response, 0, 0, out, sizeof out),
             r.result.outcome.what == LLMNR_FOUND);
        ENDS(llmnr_lookup_step, llmnr_lookup_tick(&r.result, asked.lookup, 100, 0, out, sizeof out), r.result.outcome.what == LLMNR_QUERY);
        ENDS(llmnr_lookup_step, llmnr_lookup_tick(&r.result, asked.lookup, 0, 0, NULL, 0), r.result.outcome.what == LLMNR_REFUSED);
        ENDS(llmnr_record_read, llmnr_record(&r.result, query, sizeof query, 12), !r.result.good);
        ENDS(llmnr_table_check, llmnr_check_table(&r.result, table, sizeof table), r.result.good);
    }
    return told("ends");
}
