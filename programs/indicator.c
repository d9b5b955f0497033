/*
 * indicator.c - an LLMNR host: answers for the names of a table on the given network interfaces, after it has made sure that no other
 * host on the link has them, and gives a name up where the rules say so.
 *
 * The rules are those of docs/RULES.md; numbers such as P9 are of that page. The library decides; this program only carries datagrams
 * and the time to it, and back what it writes. In the loop nothing is allocated.
 */
#define _POSIX_C_SOURCE 200809L
#include <errno.h>
#include <signal.h>
#include <stdio.h>
#include <stdlib.h>
#include <string.h>
#include <time.h>
#include <unistd.h>

#include "llmnr.h"
#include "net.h"
#include "table.h"
#include "words.h"

#define USABLE_WITHIN 10000 /* milliseconds within which the system must let us use an address */

const char program[] = "indicator";

static const char help[] =
    "usage: indicator [--interval 100|1000] [--verbose] TABLE INTERFACE...\n"
    "\n"
    "Answers LLMNR queries (RFC 4795) for the names of TABLE, a file made by make_table, on network interfaces such as\n"
    "eth0, by IPv4 and IPv6. A unique name is first asked for three times; it is answered for once nobody has objected.\n"
    "An interface with addresses of both families counts as two, first IPv4, then IPv6; there may be 4 in all. They are\n"
    "numbered from 0 in this order; \"on\" in the text of a table goes by these numbers (make_table --help tells more).\n"
    "Addresses are read and names are verified once: start it again if a cable was moved to another link.\n"
    "\n"
    "  --interval MS  wait so long for an answer to each question: 1000 (usual; what RFC 4795 gives for all kinds of links)\n"
    "                 or 100 (what it gives for Ethernet and WLAN). All hosts of a link need the same.\n"
    "  --verbose      print interface numbers and datagrams too, and what became of each: a reply, or a refusal (rules N)\n"
    "\n"
    "Prints a line for each change: time (UTC), name, interface and family, and the state: verifying (asked for, not yet\n"
    "owned), unique (owned), defending (owned; somebody told of a conflict), stopped (another host has it; it may no\n"
    "longer be used here), shared (in use with others). Ends on SIGINT and SIGTERM.\n"
    "\n"
    "A stopped name is not tried again. The program started anew knows nothing of that and tries it at once: wait until\n"
    "the TTL of the other host's answer has run out, which is 30 s as a rule (RFC 4795, section 4.2).\n"
    "\n"
    "exit status: 0 ended by a signal   2 usage   3 table cannot be read   4 table is bad   5 no such network interface\n"
    "  6 it is down, has no link or no address that can be used   7 more than 4 addresses   8 UDP port 5355 is taken by\n"
    "  another program   9 the system lacks something (sockets, group, random numbers)   10 a query could not be sent, or\n"
    "  link or address was lost   11 the library refused a call\n";

typedef struct indicator {
    bool verbose;
    uint16_t interval;
    uint8_t table[LLMNR_TABLE + 1];
    size_t table_len;
    size_t names;
    net_interface used[LLMNR_INTERFACES];
    size_t count;
    int sockets[3]; /* of IPv4, of IPv6, -1 if unused; last the end of a pipe that a signal makes readable */
    llmnr_host host;
    net_datagram datagram;
    uint8_t out[LLMNR_ROOM];
} indicator;

static volatile sig_atomic_t ended;
static int wake;

/* ---- what is printed ---- */

/* One line about a name; from is where the datagram came from that changed it, or NULL. */
static void print_change(const indicator *me, size_t i, size_t number, const llmnr_endpoint *from)
{
    static const char *const words[] = {"off", "verifying", "unique", "defending", "stopped", "shared"};
    const net_interface *used = &me->used[i];
    char now[WORDS_TIME], text[WORDS_NAME], source[WORDS_ADDRESS];

    words_of_now(now);
    words_of_name(table_name(me->table, number), text);
    printf("%s %s %s/%s %s", now, text, used->port, net_family(used), words[me->host.interfaces[i].names[number].state]);
    if (from != NULL) {
        words_of_address(&from->address, used->port, source);
        printf(", after a datagram from %s", source);
    }
    putchar('\n');
}

/* One line about a datagram, with --verbose. */
static void print_datagram(const indicator *me, size_t i, const llmnr_outcome *outcome)
{
    const net_datagram *d = &me->datagram;
    const net_interface *used = &me->used[i];
    char now[WORDS_TIME], from[WORDS_ADDRESS], to[WORDS_ADDRESS];

    words_of_now(now);
    words_of_address(&d->from.address, used->port, from);
    words_of_address(&d->to, used->port, to);
    printf("%s %s/%s %zu octets from %s port %u to %s: ", now, used->port, net_family(used), d->len, from, d->from.port, to);
    if (outcome->what == LLMNR_REFUSED)
        printf("refused %d\n", outcome->refusal);
    else if (outcome->len > 0)
        printf("%s of %zu octets\n", outcome->what == LLMNR_REPLY ? "reply" : "query", outcome->len);
    else
        printf("%s\n", outcome->what == LLMNR_KEPT ? "kept" : "stopped");
}

/* ---- the calls ---- */

static uint16_t fresh_id(void)
{
    uint16_t id = 0;

    if (!net_id(&id))
        fail(FAILED_SOCKET, "/dev/urandom: %s", strerror(errno));
    return id;
}

/*
 * Sends what a call wrote (P3). A query that nobody can hear ends the program, since a name that was not asked for must not be owned. A
 * reply may be lost, unless the address is: then names have to be verified anew.
 */
static void send_out(const indicator *me, size_t i, const llmnr_step *step)
{
    const net_interface *used = &me->used[i];
    bool query = step->outcome.what == LLMNR_QUERY;
    int error;

    if (query && !net_linked(used))
        fail(FAILED_LOST, "%s/%s: the link is lost", used->port, net_family(used));
    if (net_send(me->sockets[used->address.family == 4 ? 0 : 1], used, &step->to, me->out, step->outcome.len))
        return;
    error = errno;
    if (query)
        fail(FAILED_LOST, "%s/%s: cannot send a query: %s", used->port, net_family(used), strerror(error));
    if (!net_usable(used))
        fail(FAILED_LOST, "%s/%s: the address is lost", used->port, net_family(used));
    if (me->verbose)
        printf("%s/%s: a reply was not sent: %s\n", used->port, net_family(used), strerror(error));
}

/* Keeps the state that a call gave (P2), sends what it wrote, and tells of a name whose state is another now. */
static void act(indicator *me, size_t i, const llmnr_step *step, const llmnr_endpoint *from)
{
    const llmnr_outcome *outcome = &step->outcome;
    bool another = step->changed && step->name.state != me->host.interfaces[i].names[outcome->name].state;

    llmnr_take(&me->host, i, *step);
    if (outcome->what == LLMNR_QUERY || outcome->what == LLMNR_REPLY)
        send_out(me, i, step);
    if (another)
        print_change(me, i, outcome->name, from);
}

static void set_up(indicator *me)
{
    llmnr_settings settings = {{{0}}};
    llmnr_set_up_step step;
    size_t i;

    for (i = 0; i < me->count; i++) {
        settings.interfaces[i].family = me->used[i].address.family;
        memcpy(settings.interfaces[i].address, me->used[i].address.octets, sizeof me->used[i].address.octets);
        settings.interfaces[i].interval = me->interval;
    }
    step = llmnr_set_up(me->table, me->table_len, settings, net_time(), fresh_id());
    if (step.outcome.what == LLMNR_REFUSED)
        fail(FAILED_REFUSED, "the library refused the set-up with %d", step.outcome.refusal);
    me->host = step.host;
}

/* Starts each name once. All are Off, so that no start is too soon; one that stops later is not started again. */
static void start_names(indicator *me)
{
    size_t i, number;

    for (i = 0; i < me->count; i++) {
        for (number = 0; number < me->names; number++) {
            llmnr_step step = llmnr_start(me->host.settings, me->host.clock, me->host.interfaces[i], me->table, me->table_len, i,
                                          number, net_time(), fresh_id(), me->out, sizeof me->out);

            if (step.outcome.what == LLMNR_REFUSED)
                fail(FAILED_REFUSED, "the library refused the start of name %zu with %d", number, step.outcome.refusal);
            act(me, i, &step, NULL);
        }
    }
}

/* Hands a datagram over, if it came on an interface that we use (P6). */
static void hand_over(indicator *me, uint64_t time)
{
    const net_datagram *d = &me->datagram;
    llmnr_step step;
    size_t i = 0;

    while (i < me->count && (me->used[i].index != d->index || me->used[i].address.family != d->to.family))
        i++;
    if (i == me->count)
        return;
    step = llmnr_receive(me->host.settings, me->host.clock, me->host.interfaces[i], me->table, me->table_len, i, d->from, d->to,
                         d->octets, d->len, time, fresh_id(), me->out, sizeof me->out);
    if (me->verbose)
        print_datagram(me, i, &step.outcome);
    act(me, i, &step, &d->from);
}

/* Hands over what has come. A flood does not keep the names from being served: what had come when this began is among the first. */
static void drain(indicator *me, int socket, uint64_t time)
{
    int got = 1;
    size_t n;

    for (n = 0; n < NET_WAITING && (got = net_receive(socket, &me->datagram)) == 1; n++)
        hand_over(me, time);
    if (got < 0)
        fail(FAILED_SOCKET, "cannot receive: %s", strerror(errno));
}

/* The earliest due time on an interface (P7); UINT64_MAX if there is none. */
static uint64_t due_on(const indicator *me, size_t i)
{
    uint64_t least = UINT64_MAX;
    size_t number;

    for (number = 0; number < me->names; number++) {
        const llmnr_name *name = &me->host.interfaces[i].names[number];

        if ((name->state == LLMNR_STATE_VERIFYING || name->state == LLMNR_STATE_DEFENDING) && name->due < least)
            least = name->due;
    }
    return least;
}

/* Serves all names of an interface that are due: a tick serves one (P8). */
static void serve(indicator *me, size_t i, uint64_t time)
{
    llmnr_step step;

    if (due_on(me, i) > time)
        return;
    do {
        step = llmnr_tick(me->host.settings, me->host.clock, me->host.interfaces[i], me->table, me->table_len, i, time, fresh_id(),
                          me->out, sizeof me->out);
        if (step.outcome.what == LLMNR_REFUSED)
            fail(FAILED_REFUSED, "the library refused a tick with %d", step.outcome.refusal);
        act(me, i, &step, NULL);
    } while (step.outcome.what != LLMNR_QUIET);
}

/*
 * Until a signal comes. All calls of one turn have the time at which it began. Before a tick both sockets are looked at, also one that
 * could not be read when the wait ended: a datagram that had come when a name fell due is handed over first (P9).
 */
static void run(indicator *me)
{
    while (!ended) {
        uint64_t time, due = UINT64_MAX;
        bool readable[3];
        size_t i;

        for (i = 0; i < me->count; i++)
            due = due_on(me, i) < due ? due_on(me, i) : due;
        if (!net_wait(me->sockets, 3, due, readable))
            fail(FAILED_SOCKET, "cannot wait: %s", strerror(errno));
        time = net_time();
        for (i = 0; i < 2; i++)
            if (me->sockets[i] >= 0 && (readable[i] || due <= time))
                drain(me, me->sockets[i], time);
        for (i = 0; i < me->count; i++)
            serve(me, i, time);
    }
}

/* ---- the beginning ---- */

/* Adds our address of a family on a network interface, if it has one. */
static void use_family(indicator *me, const char *port, uint8_t family)
{
    const struct timespec moment = {0, 50000000};
    uint64_t until = net_time() + USABLE_WITHIN;
    net_interface found;

    if (!net_find(port, family, &found))
        return;
    if (me->count == LLMNR_INTERFACES)
        fail(FAILED_TOO_MANY, "%s: more than %d addresses in all", port, LLMNR_INTERFACES);
    /* After power-up an IPv6 address is there at once, but may not be used for a second or two. */
    while (!ended && !net_usable(&found) && net_time() < until)
        nanosleep(&moment, NULL);
    if (ended)
        exit(0);
    if (!net_usable(&found))
        fail(FAILED_NO_ADDRESS, "%s: its %s address cannot be used: %s", port, net_family(&found), strerror(errno));
    if (me->verbose)
        printf("%s/%s: interface %zu\n", port, net_family(&found), me->count);
    me->used[me->count++] = found;
}

static void use_port(indicator *me, const char *port)
{
    size_t i, before = me->count;

    for (i = 0; i < me->count; i++)
        if (strcmp(me->used[i].port, port) == 0)
            fail(FAILED_USAGE, "%s is named twice", port);
    if (if_nametoindex(port) == 0)
        fail(FAILED_NO_PORT, "%s: no such network interface", port);
    use_family(me, port, 4);
    use_family(me, port, 6);
    if (me->count == before)
        fail(FAILED_NO_ADDRESS, "%s: down, no link, or no address", port);
}

/* Opens the socket of a family if an interface uses it, and joins the group on each that does. */
static void open_family(indicator *me, uint8_t family)
{
    int *socket = &me->sockets[family == 4 ? 0 : 1];
    size_t i;

    for (i = 0; i < me->count; i++) {
        if (me->used[i].address.family != family)
            continue;
        if (*socket < 0)
            *socket = net_open(family, LLMNR_PORT, false);
        if (*socket < 0 && errno == EADDRINUSE)
            fail(FAILED_TAKEN, "UDP port %d is taken by another program", LLMNR_PORT);
        if (*socket < 0)
            fail(FAILED_SOCKET, "cannot open a socket for IPv%d: %s", family, strerror(errno));
        if (!net_join(*socket, &me->used[i]))
            fail(FAILED_SOCKET, "%s: cannot join the group: %s", me->used[i].port, strerror(errno));
    }
}

static void on_signal(int number)
{
    (void)number;
    ended = 1;
    if (write(wake, "", 1) < 0)
        return; /* full: it is readable already */
}

/* A signal makes a pipe readable, so that it is never missed between the look at `ended` and the sleep. */
static void catch_signals(indicator *me)
{
    struct sigaction action;
    int ends[2];

    if (pipe(ends) != 0)
        fail(FAILED_SOCKET, "cannot make a pipe: %s", strerror(errno));
    me->sockets[2] = ends[0];
    wake = ends[1];
    memset(&action, 0, sizeof action);
    action.sa_handler = on_signal;
    sigaction(SIGINT, &action, NULL);
    sigaction(SIGTERM, &action, NULL);
    action.sa_handler = SIG_IGN; /* whoever reads what we print may go; we answer on */
    sigaction(SIGPIPE, &action, NULL);
}

/* Reads the options. Gives the place of the first word after them. */
static int read_options(indicator *me, int argc, char **argv)
{
    int at;

    for (at = 1; at < argc && argv[at][0] == '-'; at++) {
        if (strcmp(argv[at], "--help") == 0) {
            fputs(help, stdout);
            exit(0);
        } else if (strcmp(argv[at], "--verbose") == 0) {
            me->verbose = true;
        } else if (strcmp(argv[at], "--interval") == 0) {
            me->interval = words_to_interval(argv[++at]);
            if (me->interval == 0)
                fail(FAILED_USAGE, "--interval is 100 or 1000");
        } else {
            fail(FAILED_USAGE, "%s: no such option; --help tells more", argv[at]);
        }
    }
    if (argc - at < 2)
        fail(FAILED_USAGE, "a table and a network interface are needed; --help tells more");
    return at;
}

int main(int argc, char **argv)
{
    static indicator me = {.interval = 1000, .sockets = {-1, -1, -1}};
    static char lines[4096];
    int at = read_options(&me, argc, argv);

    setvbuf(stdout, lines, _IOLBF, sizeof lines);
    catch_signals(&me);
    me.table_len = table_load(argv[at++], me.table, &me.names);
    for (; at < argc; at++)
        use_port(&me, argv[at]);
    open_family(&me, 4);
    open_family(&me, 6);
    set_up(&me);
    start_names(&me);
    run(&me);
    return 0;
}
