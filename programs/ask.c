/*
 * ask.c - looks a name up by LLMNR, by IPv4 and IPv6 at once, and prints each address with the source that it came from.
 *
 * The rules are those of docs/RULES.md; numbers such as P14 are of that page. Each family has a lookup of its own, on a socket of its
 * own. What other makers' hosts do otherwise is told in docs/INTEROP.md.
 */
#define _POSIX_C_SOURCE 200809L
#include <errno.h>
#include <stdio.h>
#include <stdlib.h>
#include <string.h>
#include <strings.h>

#include "llmnr.h"
#include "net.h"
#include "words.h"

#define FAMILIES 2
#define MOST_TRIES 5     /* lookups in a row while a host answers that it is still verifying the name */
#define MOST_POINTERS 16 /* of a name in a datagram (L13) */

enum { NOT_FOUND = 1, FAILED = 2 };
enum { FLAG_TC = 0x02 }; /* in the third octet of a message (M2) */
enum { TYPE_A = 1, TYPE_PTR = 12, TYPE_AAAA = 28, TYPE_ANY = 255, CLASS_IN = 1 };

const char program[] = "ask";

static const char help[] =
    "usage: ask [-i INTERFACE] [--interval 100|1000] [--several] NAME [TYPE]\n"
    "\n"
    "Asks the hosts on the link for a name by LLMNR (RFC 4795), and prints a line for each record: its type, its data, and\n"
    "the address of the host that sent it. Without TYPE it asks by IPv4 for A and by IPv6 for AAAA; with TYPE (A, AAAA,\n"
    "PTR, ANY or a number) it asks for that by both. In NAME, \\DDD is the octet with that decimal number.\n"
    "\n"
    "  -i INTERFACE   ask there (usual: the first network interface that has a link and an address)\n"
    "  --interval MS  wait so long before asking again; three questions are asked. 100 (usual; what RFC 4795 gives for\n"
    "                 Ethernet and WLAN) or 1000 (what it gives for all kinds of links)\n"
    "  --several      NAME may have several labels, such as scale3.example. Without it only a name of one label is asked\n"
    "                 for (RFC 4795, section 3), or one or more labels before in-addr.arpa or ip6.arpa\n"
    "\n"
    "Of a name that several hosts share all answers are printed. While a host answers that it does not yet own the name,\n"
    "ask goes on asking for some time. A name that only this machine itself answers for is not found.\n"
    "\n"
    "exit status: 0 a record was found   1 nobody answered, or the name has no such record (a message tells which)\n"
    "  2 usage, or asking failed\n";

/* A lookup by one family, and what has become of it. */
typedef struct question {
    net_interface interface;
    size_t number; /* of the interface in the settings */
    int socket;
    uint16_t type;
    llmnr_lookup lookup;
    int tries;
    bool tentative; /* a host has answered that it is still verifying the name */
} question;

typedef struct asker {
    const char *port; /* the network interface */
    uint16_t interval;
    const char *text; /* the name as given */
    uint8_t name[LLMNR_LONGEST];
    size_t name_len;
    int type; /* -1: A or AAAA, by family */
    bool several; /* the name may have several labels */
    llmnr_settings settings;
    question questions[FAMILIES];
    size_t count;
    size_t records;
    bool empty;     /* the name was found, but without a record of the type */
    bool tentative; /* all that was heard in the end is a host that is still verifying it */
    bool own;       /* this machine has answered itself */
    net_datagram datagram;
    uint8_t out[LLMNR_ROOM];
} asker;

/* ---- records ---- */

/* Copies the name at an offset of a datagram, with its pointers followed. Gives its octets; 0 if it is no name. */
static size_t expand(const net_datagram *d, size_t at, uint8_t *name)
{
    size_t len = 0, pointers = 0;

    while (at < d->len) {
        size_t head = d->octets[at];

        if (head >= 192) {
            if (at + 1 >= d->len || ++pointers > MOST_POINTERS)
                return 0;
            at = (head - 192) * 256 + d->octets[at + 1];
            continue;
        }
        if (head > 63 || at + 1 + head > d->len || len + 1 + head > (head == 0 ? LLMNR_LONGEST : LLMNR_LONGEST - 1))
            return 0;
        memcpy(name + len, d->octets + at, 1 + head);
        len += 1 + head;
        at += 1 + head;
        if (head == 0)
            return len;
    }
    return 0;
}

/* Writes the data of a record that is no address and no name of one: in hexadecimal, as RFC 3597 does. */
static void print_unknown(const net_datagram *d, const llmnr_record_read *record)
{
    size_t k;

    printf("TYPE%u \\# %zu ", record->rtype, record->len);
    for (k = 0; k < record->len; k++)
        printf("%02x", d->octets[record->start + k]);
}

static void print_record(const asker *me, const llmnr_record_read *record)
{
    const net_datagram *d = &me->datagram;
    llmnr_address address = {0};
    uint8_t name[LLMNR_LONGEST];
    char text[WORDS_NAME], source[WORDS_ADDRESS];

    if ((record->rtype == TYPE_A && record->len == 4) || (record->rtype == TYPE_AAAA && record->len == 16)) {
        address.family = record->len == 4 ? 4 : 6;
        memcpy(address.octets, d->octets + record->start, record->len);
        words_of_address(&address, me->port, text);
        printf("%s %s", record->rtype == TYPE_A ? "A" : "AAAA", text);
    } else if (record->rtype == TYPE_PTR && expand(d, record->start, name) != 0) {
        words_of_name(name, text);
        printf("PTR %s", text);
    } else {
        print_unknown(d, record);
    }
    words_of_address(&d->from.address, me->port, source);
    printf(" from %s\n", source);
}

/* Prints the records of a response that were asked for (P16). The library has seen that all of them are whole. */
static void print_answers(asker *me, const question *q, const llmnr_outcome *outcome)
{
    size_t at = outcome->at, printed = 0;
    unsigned k;

    for (k = 0; k < outcome->answers; k++) {
        llmnr_record_read record = llmnr_record(me->datagram.octets, me->datagram.len, at);

        if (!record.good)
            break;
        if (record.rclass == CLASS_IN && (q->type == TYPE_ANY || record.rtype == q->type)
            && llmnr_same_name(me->datagram.octets, me->datagram.len, at, me->name, me->name_len, 0)) {
            print_record(me, &record);
            printed++;
        }
        at = record.next;
    }
    if (me->datagram.octets[2] & FLAG_TC)
        fprintf(stderr, "%s: %s: records were left out of this answer, which is too long\n", program, me->text);
    me->records += printed;
    me->empty = me->empty || printed == 0;
    fflush(stdout);
}

/* ---- the calls ---- */

static uint16_t fresh_id(void)
{
    uint16_t id = 0;

    if (!net_id(&id))
        fail(FAILED, "/dev/urandom: %s", strerror(errno));
    return id;
}

/* Sends what a call wrote, if its outcome is a query. */
static void send_query(const asker *me, const question *q, const llmnr_outcome *outcome, const llmnr_endpoint *to)
{
    if (outcome->what == LLMNR_QUERY && !net_send(q->socket, &q->interface, to, me->out, outcome->len))
        fail(FAILED, "%s/%s: cannot send a query: %s", me->port, net_family(&q->interface), strerror(errno));
}

/* Takes the step that a later call gave into its lookup (P15), and sends what it wrote. */
static void act(const asker *me, question *q, const llmnr_lookup_step *step)
{
    llmnr_lookup_take(&q->lookup, *step);
    send_query(me, q, &step->outcome, &step->to);
}

static void start(asker *me, question *q)
{
    llmnr_lookup_start_step step = llmnr_lookup_start(me->settings, q->number, me->name, me->name_len, q->type, me->several, net_time(),
                                                      fresh_id(), me->out, sizeof me->out);

    if (step.outcome.refusal == LLMNR_REFUSAL_SEVERAL_LABELS)
        fail(FAILED, "%s: a name of several labels needs --several", me->text);
    if (step.outcome.what == LLMNR_REFUSED)
        fail(FAILED, "%s: the library refused the lookup with %d", me->text, step.outcome.refusal);
    q->lookup = step.lookup;
    q->tentative = false;
    q->tries++;
    send_query(me, q, &step.outcome, &step.to);
}

/* Hands over all datagrams that have come to a lookup's socket on its network interface (P14). */
static void drain(asker *me, question *q, uint64_t time)
{
    const net_datagram *d = &me->datagram;
    int got = 1;
    size_t n;

    for (n = 0; n < NET_WAITING && (got = net_receive(q->socket, &me->datagram)) == 1; n++) {
        llmnr_lookup_step step;

        if (d->index != q->interface.index)
            continue;
        step = llmnr_lookup_receive(q->lookup, d->from, d->to, d->octets, d->len, time, fresh_id(), me->out, sizeof me->out);
        act(me, q, &step);
        if (step.outcome.what == LLMNR_FOUND || step.outcome.what == LLMNR_PART)
            print_answers(me, q, &step.outcome);
        q->tentative = q->tentative || step.outcome.refusal == LLMNR_REFUSAL_TENTATIVE;
        me->own = me->own || step.outcome.refusal == LLMNR_REFUSAL_OWN;
    }
    if (got < 0)
        fail(FAILED, "cannot receive: %s", strerror(errno));
}

/* Serves a lookup that is due. One that ended while a host was still verifying the name is started again. */
static void tick(asker *me, question *q, uint64_t time)
{
    llmnr_lookup_step step = llmnr_lookup_tick(q->lookup, time, fresh_id(), me->out, sizeof me->out);

    act(me, q, &step);
    if (step.outcome.what != LLMNR_NO_SUCH_NAME || !q->tentative)
        return;
    if (q->tries < MOST_TRIES)
        start(me, q);
    else
        me->tentative = true;
}

/* Until all lookups have ended. All calls of one turn have the time at which it began: what had come by then is handed over first (P15). */
static void run(asker *me)
{
    for (;;) {
        uint64_t time, due = UINT64_MAX;
        int sockets[FAMILIES];
        size_t k;

        for (k = 0; k < me->count; k++) {
            const llmnr_lookup *lookup = &me->questions[k].lookup;

            sockets[k] = me->questions[k].socket;
            if (lookup->phase != LLMNR_PHASE_ENDED && lookup->due < due)
                due = lookup->due;
        }
        if (due == UINT64_MAX)
            return;
        if (!net_wait(sockets, me->count, due, NULL))
            fail(FAILED, "cannot wait: %s", strerror(errno));
        time = net_time();
        for (k = 0; k < me->count; k++) {
            drain(me, &me->questions[k], time);
            tick(me, &me->questions[k], time);
        }
    }
}

/* ---- the beginning and the end ---- */

/* Adds a question by a family, if the network interface has an address of it. */
static void add_question(asker *me, uint8_t family)
{
    question *q = &me->questions[me->count];
    llmnr_setting *setting = &me->settings.interfaces[me->count];

    if (!net_find(me->port, family, &q->interface) || !net_usable(&q->interface))
        return;
    q->number = me->count++;
    q->type = (uint16_t)(me->type >= 0 ? me->type : family == 4 ? TYPE_A : TYPE_AAAA);
    setting->family = family;
    memcpy(setting->address, q->interface.address.octets, sizeof setting->address);
    setting->interval = me->interval;
    q->socket = net_open(family, 0, true);
    if (q->socket < 0)
        fail(FAILED, "cannot open a socket for IPv%d: %s", family, strerror(errno));
}

/* A type by its word or number; -1 if it is none. */
static int type_of(const char *word)
{
    static const struct { const char *word; int type; } types[] = {
        {"A", TYPE_A}, {"AAAA", TYPE_AAAA}, {"PTR", TYPE_PTR}, {"ANY", TYPE_ANY}};
    char *end;
    long number;
    size_t k;

    for (k = 0; k < sizeof types / sizeof types[0]; k++)
        if (strcasecmp(word, types[k].word) == 0)
            return types[k].type;
    number = strtol(word, &end, 10);
    return word[0] >= '0' && word[0] <= '9' && *end == '\0' && number <= 65535 ? (int)number : -1;
}

static void read_arguments(asker *me, int argc, char **argv)
{
    const char *why;
    int at;

    for (at = 1; at < argc && argv[at][0] == '-' && argv[at][1] != '\0'; at++) {
        if (strcmp(argv[at], "--help") == 0) {
            fputs(help, stdout);
            exit(0);
        } else if (strcmp(argv[at], "-i") == 0 && at + 1 < argc) {
            me->port = argv[++at];
        } else if (strcmp(argv[at], "--several") == 0) {
            me->several = true;
        } else if (strcmp(argv[at], "--interval") == 0) {
            me->interval = words_to_interval(argv[++at]);
            if (me->interval == 0)
                fail(FAILED, "--interval is 100 or 1000");
        } else {
            fail(FAILED, "%s: no such option, or a word is missing behind it; --help tells more", argv[at]);
        }
    }
    if (argc - at < 1 || argc - at > 2)
        fail(FAILED, "a name is needed, and a type may follow; --help tells more");
    me->text = argv[at];
    me->name_len = words_to_name(argv[at], me->name, &why);
    if (me->name_len == 0)
        fail(FAILED, "%s: not a name: %s", argv[at], why);
    if (me->name[0] == 0)
        fail(FAILED, "%s: the root cannot be asked for", argv[at]);
    me->type = argc - at == 2 ? type_of(argv[at + 1]) : -1;
    if (argc - at == 2 && me->type < 0)
        fail(FAILED, "%s: not a type; A, AAAA, PTR, ANY or a number", argv[at + 1]);
}

/* Says what came of it if nothing was printed. */
static int conclude(const asker *me)
{
    if (me->records > 0)
        return 0;
    if (me->empty)
        fail(NOT_FOUND, "%s: found, but no such record", me->text);
    if (me->tentative)
        fail(NOT_FOUND, "%s: a host is still verifying the name; ask again", me->text);
    if (me->own)
        fail(NOT_FOUND, "%s: only this machine answers", me->text);
    fail(NOT_FOUND, "%s: nobody answered", me->text);
    return NOT_FOUND;
}

int main(int argc, char **argv)
{
    static asker me = {.interval = 100};
    char first[IF_NAMESIZE];
    size_t k;

    read_arguments(&me, argc, argv);
    if (me.port == NULL && !net_first(first))
        fail(FAILED, "no network interface has a link and an address");
    me.port = me.port == NULL ? first : me.port;
    if (if_nametoindex(me.port) == 0)
        fail(FAILED, "%s: no such network interface", me.port);
    add_question(&me, 4);
    add_question(&me, 6);
    if (me.count == 0)
        fail(FAILED, "%s: down, no link, or no address", me.port);
    for (k = 0; k < me.count; k++)
        start(&me, &me.questions[k]);
    run(&me);
    return conclude(&me);
}
