/*
 * net.h - the network below the programs: network interfaces and their addresses, UDP sockets that tell where a datagram went and on
 * which interface it came, waiting, the clock, and IDs.
 *
 * What can fail gives false or -1 and leaves the reason in errno.
 */
#ifndef NET_H
#define NET_H

#include <net/if.h>

#include "llmnr.h"

/* One octet more than the longest datagram that is read (L3): a longer one is then refused with 5, and not cut and read. */
#define NET_DATAGRAM (LLMNR_DATAGRAM + 1)

/* At most so many datagrams wait in a socket, by the size of its buffer: after as many, all that had come before the first are taken. */
#define NET_WAITING 4096

/* An address of ours on a network interface, which is an interface of a host or a lookup. */
typedef struct net_interface {
    char port[IF_NAMESIZE]; /* the network interface, such as eth0 */
    unsigned index;         /* its number in the system */
    llmnr_address address;
} net_interface;

/* A datagram, where it came from and went to, and the number of the network interface on which it came. */
typedef struct net_datagram {
    uint8_t octets[NET_DATAGRAM];
    size_t len;
    llmnr_endpoint from;
    llmnr_address to;
    unsigned index;
} net_datagram;

/* Finds our address of a family on a network interface that is up and has a link; of IPv6 a link-local one before others. */
bool net_find(const char *port, uint8_t family, net_interface *found);

/* Finds the first network interface that has such an address, can multicast and is not the loopback: IF_NAMESIZE characters. */
bool net_first(char *port);

/* The interface's family as a word: IPv4 or IPv6. */
const char *net_family(const net_interface *interface);

/* Whether we may send from the address. An IPv6 address may not be used while the system looks whether another machine has it. */
bool net_usable(const net_interface *interface);

/* Whether the network interface is up and has a link. */
bool net_linked(const net_interface *interface);

/* Opens a UDP socket on a port, or on any for 0. loop: what it sends to a group is heard on this machine too. */
int net_open(uint8_t family, uint16_t port, bool loop);

/* Joins the LLMNR group on an interface. */
bool net_join(int socket, const net_interface *interface);

/* Takes a datagram that has come: 1, or 0 if there is none, or -1. */
int net_receive(int socket, net_datagram *datagram);

/* Sends from an interface's own address. */
bool net_send(int socket, const net_interface *interface, const llmnr_endpoint *to, const uint8_t *octets, size_t len);

/*
 * Sleeps until one of the descriptors can be read, or the time has come; UINT64_MAX never comes. readable, unless it is NULL, then tells of
 * each whether it can be.
 */
bool net_wait(const int *descriptors, size_t count, uint64_t due, bool *readable);

/* Milliseconds on a clock that never goes back (P5). */
uint64_t net_time(void);

/* A fresh ID, drawn at random (P4). */
bool net_id(uint16_t *id);

#endif
