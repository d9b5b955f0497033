/*
 * LLMNR (RFC 4795) for C: the calls of a host, which answers for its names, and of a lookup, which asks for one.
 *
 * Every call takes the state by value, of a host only what it needs, and gives by value what may have changed. llmnr_set_up and
 * llmnr_lookup_start give the whole state. The library has none of its own: no heap, no globals, no locks, no system calls. Any number of
 * hosts and lookups may live side by side, and calls on different ones may run at the same time.
 *
 * Each call is proved to do what the library's definition says on the state that the structs stand for, for every value of every field.
 * docs/RULES.md says what that is. Rule numbers below (P3, K4) are of that page. llmnr_take and llmnr_lookup_take are plain C in this header:
 * what they are to do is proved to give the definition's next state, and they themselves are tested.
 *
 * What the caller owes:
 * - A pointer comes with its length in octets, right after it, and is only used during the call. The octets stay the caller's.
 *   With length 0 the pointer may be NULL. Otherwise that many octets can be read there, and written if the pointer is not const.
 * - `out` overlaps no other octets of the same call. It has LLMNR_ROOM octets or more, or the call is refused.
 * - `time` is in milliseconds, from one clock that never goes back, and at most LLMNR_LATEST.
 * - `id` is fresh for each call, best drawn at random. It is used if the call begins a query of its own.
 * - Every field of a struct is set, for example by `= {0}`: a host with all interfaces unused, or an ended lookup. Structs are compared
 *   field by field, since what stands between the fields is left open.
 * - A call takes up to 2 KiB of stack, with its arguments and its result.
 *
 * Link with libllmnr_c.a, for x86-64. It needs nothing but memcpy and memset of the C library.
 */
#ifndef LLMNR_H
#define LLMNR_H

#include <stdbool.h>
#include <stddef.h>
#include <stdint.h>

#ifdef __cplusplus
extern "C" {
#endif

#define LLMNR_INTERFACES 4  /* of a host */
#define LLMNR_NAMES 8       /* of a name table */
#define LLMNR_LONGEST 255   /* octets of a name, with its length octets and the final zero */
#define LLMNR_ROOM 512      /* octets of `out` that a call needs */
#define LLMNR_TABLE 4096    /* octets of a name table, at the most */
#define LLMNR_DATAGRAM 9194 /* octets of a datagram that is read, at the most */
#define LLMNR_PORT 5355     /* UDP port of hosts */
#define LLMNR_LATEST UINT64_C(281474976710655) /* the latest time, 2^48 - 1 */

/* ---- addresses and settings ---- */

/* family is 4 or 6. Family 4 uses the first four octets. Octets are in the order of the wire. */
typedef struct llmnr_address {
    uint8_t family;
    uint8_t octets[16];
} llmnr_address;

/* An address and a UDP port, which is a plain number (host byte order). */
typedef struct llmnr_endpoint {
    llmnr_address address;
    uint16_t port;
} llmnr_endpoint;

/* The settings of one interface. A family other than 4 and 6: unused. interval is 100 or 1000, in milliseconds. */
typedef struct llmnr_setting {
    uint8_t family;
    uint8_t address[16];
    uint16_t interval;
} llmnr_setting;

typedef struct llmnr_settings {
    llmnr_setting interfaces[LLMNR_INTERFACES];
} llmnr_settings;

/* ---- what a call comes to ---- */

enum {
    LLMNR_REFUSED = 0,      /* refusal has the number; the state and out are as they were */
    LLMNR_READY = 1,        /* set-up: the host is ready */
    LLMNR_QUIET = 2,        /* tick: nothing was due */
    LLMNR_KEPT = 3,         /* a response was heard, and the name goes on as it was */
    LLMNR_QUERY = 4,        /* send the first len octets of out to `to` */
    LLMNR_REPLY = 5,        /* the same */
    LLMNR_UNIQUE = 6,       /* the host owns the name on this interface */
    LLMNR_SHARED = 7,       /* the host uses the name, which is shared */
    LLMNR_STOPPED = 8,      /* the host may no longer use the name on this interface */
    LLMNR_PART = 9,         /* lookup: a response of one of several hosts; more may come */
    LLMNR_FOUND = 10,       /* lookup: the response; the lookup has ended */
    LLMNR_COLLECTED = 11,   /* lookup: ended, after the parts that were told before */
    LLMNR_NO_SUCH_NAME = 12 /* lookup: ended, nobody has answered */
};

/* Why a call was refused. */
enum {
    LLMNR_REFUSAL_ROOM = 1,          /* out is too small */
    LLMNR_REFUSAL_TABLE = 2,         /* the table is not good; `at` is the offset of its first bad entry */
    LLMNR_REFUSAL_INTERFACE = 3,     /* no such interface, or it is unused */
    LLMNR_REFUSAL_CLOCK = 4,         /* time is too large, or before the last accepted one */
    LLMNR_REFUSAL_LENGTH = 5,        /* the datagram is too short or too long */
    LLMNR_REFUSAL_ADDRESS = 6,       /* of another family; a query not to the group, or a response to it */
    LLMNR_REFUSAL_OPCODE = 7,        /* not 0 */
    LLMNR_REFUSAL_RCODE = 8,         /* of a response, not 0 */
    LLMNR_REFUSAL_COUNTS = 9,        /* not one question, or a query with records */
    LLMNR_REFUSAL_QUESTION = 10,     /* a bad name, or cut short; lookup start: the name given is none to look up */
    LLMNR_REFUSAL_CLASS = 11,        /* of a query, neither 1 nor 255 */
    LLMNR_REFUSAL_NOT_OURS = 12,     /* the table does not have the name, or it is off on this interface */
    LLMNR_REFUSAL_STOPPED = 13,      /* the name has stopped on this interface */
    LLMNR_REFUSAL_NOTIFICATION = 14, /* a conflict notification for a name that is not Unique, or from ourselves */
    LLMNR_REFUSAL_UNMATCHED = 15,    /* no query of ours waits for this response */
    LLMNR_REFUSAL_OWN = 16,          /* a response from one of our own addresses */
    LLMNR_REFUSAL_TENTATIVE = 17,    /* lookup: the sender is still verifying the name */
    LLMNR_REFUSAL_RECORDS = 18,      /* lookup: a bad answer record */
    LLMNR_REFUSAL_BUSY = 19,         /* start of a name that is neither Off nor Stopped */
    LLMNR_REFUSAL_SETTINGS = 20,     /* an interface has a group address, or a bad interval */
    LLMNR_REFUSAL_TOO_SOON = 21,     /* start of a Stopped name before its `due` */
    LLMNR_REFUSAL_SEVERAL_LABELS = 22 /* lookup start: the name has several labels, and there is no permission */
};

/* Fields that an outcome does not use are 0. */
typedef struct llmnr_outcome {
    uint8_t what;     /* LLMNR_REFUSED, .. */
    uint8_t refusal;  /* LLMNR_REFUSAL_ROOM, .. */
    uint16_t answers; /* part, found: how many answer records the response has */
    size_t at;        /* part, found: the offset of the first; refusal 2: of the table's bad entry */
    size_t name;      /* the number of the name in the table, from 0 */
    size_t len;       /* query, reply: octets of out to send */
} llmnr_outcome;

/* ---- a host ---- */

/* What an interface makes of a name. Any number that is not here counts as Off. */
enum {
    LLMNR_STATE_OFF = 0,
    LLMNR_STATE_VERIFYING = 1, /* sends, id, due */
    LLMNR_STATE_UNIQUE = 2,
    LLMNR_STATE_DEFENDING = 3, /* id, qtype, qclass, due */
    LLMNR_STATE_STOPPED = 4,   /* due */
    LLMNR_STATE_SHARED = 5
};

/* Fields that a state does not use are not read. In a name that a call has changed they are 0. */
typedef struct llmnr_name {
    uint8_t state;
    uint8_t sends;   /* how often the query has been sent */
    uint16_t id;     /* of the query that waits for responses; its type and class */
    uint16_t qtype;
    uint16_t qclass;
    uint64_t due;    /* when to tick; of a Stopped name: from when on it may be started again */
} llmnr_name;

/* The names of one interface, in the table's order. */
typedef struct llmnr_names {
    llmnr_name names[LLMNR_NAMES];
} llmnr_names;

/*
 * The whole state of a host. clock is the last accepted time. Hand the settings, the clock and the names of one interface to a call on that
 * interface, and take the step that it gives into the host before the next call:
 *
 *     llmnr_step s = llmnr_tick(host.settings, host.clock, host.interfaces[i], table, table_len, i, time, id, out, sizeof out);
 *     llmnr_take(&host, i, s);
 *
 * What a call comes to depends on no name of another interface. With an interface number above 3 it is refused, whatever names it is given.
 * Two calls on different interfaces at the same time give the same in either order (C16).
 */
typedef struct llmnr_host {
    llmnr_settings settings;
    llmnr_names interfaces[LLMNR_INTERFACES];
    uint64_t clock;
} llmnr_host;

/* What a call comes to on one interface: at most one name has a new state, and the clock may have moved. */
typedef struct llmnr_step {
    uint64_t clock;        /* of the host, after the call; as it was if refused */
    llmnr_name name;       /* if changed: the name with number outcome.name, after the call; else all zero */
    llmnr_outcome outcome;
    llmnr_endpoint to;     /* where to send; all zero unless the outcome is a query or a reply */
    bool changed;          /* whether the name has a new state: exactly if the outcome is QUERY, UNIQUE, SHARED or STOPPED */
} llmnr_step;

/* Takes a step into the host whose settings, clock and names of this interface it was made of. Of a refused one the host stays as it is. */
static inline void llmnr_take(llmnr_host *host, size_t interface, llmnr_step step)
{
    host->clock = step.clock;
    if (step.changed)
        host->interfaces[interface].names[step.outcome.name] = step.name;
}

/* A new host, and whether it is ready. */
typedef struct llmnr_set_up_step {
    llmnr_host host;
    llmnr_outcome outcome;
} llmnr_set_up_step;

/* Makes a host, with all names Off: READY, or refused (2, 4, 20). A refused one is all zero. It needs no buffer. */
llmnr_set_up_step llmnr_set_up(const uint8_t *table, size_t table_len, llmnr_settings settings, uint64_t time, uint16_t id);

/*
 * Begins to use a name of the table on an interface. A unique one: QUERY, to be sent. A shared one: SHARED. Or refused (1 to 4, 12, 19, 21).
 *
 * A Stopped name may be started again from its `due` on, and is refused with 21 before that (RFC 4795, section 4.2). Its `due` is the time
 * of the response that stopped it, plus the TTL of the response's first answer record, or 30 seconds if there is no answer or the first
 * cannot be read. A TTL with its top bit set counts as 0. A `due` after LLMNR_LATEST is never reached.
 */
llmnr_step llmnr_start(llmnr_settings settings, uint64_t clock, llmnr_names names, const uint8_t *table, size_t table_len,
                       size_t interface, size_t name, uint64_t time, uint16_t id, uint8_t *out, size_t out_len);

/*
 * Takes a datagram that came on an interface, with its source address and port and its destination address: REPLY or QUERY, to be sent;
 * KEPT; STOPPED; or refused, for most of what other hosts say.
 *
 * A reply has only those records of the name that are valid on this interface, and no answer if there are none. An entry of kind 6 in the
 * table, a mask of one octet, says where the records after it are valid, up to the next kind 6 or the next name: bit 0 stands for interface
 * 0, and so on to bit 3. Records of a name before any kind 6 are valid on every interface.
 */
llmnr_step llmnr_receive(llmnr_settings settings, uint64_t clock, llmnr_names names, const uint8_t *table, size_t table_len,
                         size_t interface, llmnr_endpoint from, llmnr_address to, const uint8_t *datagram, size_t datagram_len,
                         uint64_t time, uint16_t id, uint8_t *out, size_t out_len);

/*
 * Serves one name that is due on an interface: QUERY, to be sent; UNIQUE; or QUIET. Call it when the least `due` of the interface's
 * Verifying and Defending names has come, and again until it is QUIET or refused. Hand over the datagrams that have come before.
 */
llmnr_step llmnr_tick(llmnr_settings settings, uint64_t clock, llmnr_names names, const uint8_t *table, size_t table_len,
                      size_t interface, uint64_t time, uint16_t id, uint8_t *out, size_t out_len);

/* ---- a lookup ---- */

/* How far a lookup is. Any number that is not here counts as Ended. */
enum {
    LLMNR_PHASE_ENDED = 0,
    LLMNR_PHASE_ASKING = 1,    /* sends, due */
    LLMNR_PHASE_COLLECTING = 2 /* due */
};

/*
 * The whole state of a lookup. What a phase does not use of sends and due is not read. Hand the lookup to a later call, and take the step
 * that it gives into the lookup before the next one:
 *
 *     llmnr_lookup_step s = llmnr_lookup_tick(lookup, time, id, out, sizeof out);
 *     llmnr_lookup_take(&lookup, s);
 */
typedef struct llmnr_lookup {
    llmnr_setting settings[LLMNR_INTERFACES];
    size_t interface;
    uint8_t name[LLMNR_LONGEST];
    size_t len;      /* octets of the name */
    uint16_t qtype;
    uint16_t id;
    uint64_t clock;  /* the last accepted time */
    uint8_t phase;
    uint8_t sends;   /* how often the query has been sent */
    uint64_t due;    /* when to tick */
} llmnr_lookup;

/* A new lookup, the outcome, and where to send. */
typedef struct llmnr_lookup_start_step {
    llmnr_lookup lookup;
    llmnr_outcome outcome;
    llmnr_endpoint to;
} llmnr_lookup_start_step;

/*
 * What a later call comes to: the clock and the phase of the lookup after it. All else of the lookup stays. What the phase does not use of
 * sends and due is 0. If refused, clock and phase are as they were; a phase number that is none comes back as 0.
 */
typedef struct llmnr_lookup_step {
    uint64_t clock;        /* of the lookup, after the call */
    uint64_t due;          /* its phase, sends and due, after the call */
    llmnr_outcome outcome;
    llmnr_endpoint to;     /* where to send; all zero unless the outcome is a query */
    uint8_t phase;
    uint8_t sends;
} llmnr_lookup_step;

/* Takes a step into the lookup that it was made of. */
static inline void llmnr_lookup_take(llmnr_lookup *lookup, llmnr_lookup_step step)
{
    lookup->clock = step.clock;
    lookup->phase = step.phase;
    lookup->sends = step.sends;
    lookup->due = step.due;
}

/*
 * Asks on an interface for the records of a type (1 for A, 28 for AAAA) of a name, given as on the wire: "\6scale3", 8 octets with the
 * final zero. QUERY, to be sent from a port of its own; or refused (1, 3, 4, 10, 22), with an ended lookup that is all zero.
 *
 * A name of one label can always be asked for, and so can one or more labels before in-addr.arpa or ip6.arpa. Any other name of two or more
 * labels, such as scale3.example, is refused with 22 unless permission is true (RFC 4795, section 3).
 */
llmnr_lookup_start_step llmnr_lookup_start(llmnr_settings settings, size_t interface, const uint8_t *name, size_t name_len, uint16_t qtype,
                                           bool permission, uint64_t time, uint16_t id, uint8_t *out, size_t out_len);

/* Takes a datagram that came on the lookup's port: FOUND, PART, or refused. llmnr_record reads the answers. */
llmnr_lookup_step llmnr_lookup_receive(llmnr_lookup lookup, llmnr_endpoint from, llmnr_address to, const uint8_t *datagram,
                                       size_t datagram_len, uint64_t time, uint16_t id, uint8_t *out, size_t out_len);

/* Call it when `due` has come: QUERY, to be sent again; NO_SUCH_NAME; COLLECTED; or QUIET. */
llmnr_lookup_step llmnr_lookup_tick(llmnr_lookup lookup, uint64_t time, uint16_t id, uint8_t *out, size_t out_len);

/* ---- reading ---- */

/* A resource record: its data are len octets from start on, and the next record begins at next. All zero if it is not good. */
typedef struct llmnr_record_read {
    bool good;
    uint16_t rtype;
    uint16_t rclass;
    uint32_t ttl; /* in seconds */
    size_t start;
    size_t len;
    size_t next;
} llmnr_record_read;

/* Reads the record at an offset of a datagram. The first answer of a response stands at `at` of its outcome, and there are `answers`. */
llmnr_record_read llmnr_record(const uint8_t *datagram, size_t datagram_len, size_t at);

/*
 * Whether the names at two offsets are equal, each with or without compression pointers, in two messages or in one. A name that cannot be
 * read equals nothing. A record begins with its owner's name; the name of a question stands at 12.
 */
bool llmnr_same_name(const uint8_t *message, size_t message_len, size_t at, const uint8_t *other, size_t other_len, size_t other_at);

/* A good table has so many names; of another, at is the offset of the first bad entry. */
typedef struct llmnr_table_check {
    bool good;
    size_t names;
    size_t at;
} llmnr_table_check;

/* Checks a name table, as every call of a host does. */
llmnr_table_check llmnr_check_table(const uint8_t *table, size_t table_len);

#ifdef __cplusplus
}
#endif

#endif
