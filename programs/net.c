/* net.c - see net.h. _GNU_SOURCE is for packet information: in_pktinfo, in6_pktinfo and the options around them. */
#define _GNU_SOURCE
#include "net.h"

#include <arpa/inet.h>
#include <errno.h>
#include <fcntl.h>
#include <ifaddrs.h>
#include <netinet/in.h>
#include <string.h>
#include <sys/ioctl.h>
#include <sys/select.h>
#include <sys/socket.h>
#include <time.h>
#include <unistd.h>

#define HOPS 255             /* RFC 4795, section 2.5, recommends it */
#define RECEIVE_ROOM 1048576 /* the system doubles it: 2 MiB, and with its own data a datagram takes more than 512 octets of them */

/* ---- addresses ---- */

/* An address and a port as the system has them. */
typedef union place {
    struct sockaddr any;
    struct sockaddr_in four;
    struct sockaddr_in6 six;
} place;

static llmnr_address address_in(const place *where)
{
    llmnr_address address = {0};

    if (where->any.sa_family == AF_INET) {
        address.family = 4;
        memcpy(address.octets, &where->four.sin_addr, 4);
    } else if (where->any.sa_family == AF_INET6) {
        address.family = 6;
        memcpy(address.octets, &where->six.sin6_addr, 16);
    }
    return address;
}

/* Fills in a place on a network interface. Gives its length. */
static socklen_t make_place(const llmnr_address *address, uint16_t port, unsigned index, place *where)
{
    memset(where, 0, sizeof *where);
    if (address->family == 4) {
        where->four.sin_family = AF_INET;
        where->four.sin_port = htons(port);
        memcpy(&where->four.sin_addr, address->octets, 4);
        return sizeof where->four;
    }
    where->six.sin6_family = AF_INET6;
    where->six.sin6_port = htons(port);
    where->six.sin6_scope_id = index;
    memcpy(&where->six.sin6_addr, address->octets, 16);
    return sizeof where->six;
}

/*
 * The address in one entry of the system's list; family 0 if it has none of IPv4 or IPv6, or its network interface is down or has no link:
 * what is asked there is asked of nobody.
 */
static llmnr_address listed(const struct ifaddrs *one)
{
    place where;

    memset(&where, 0, sizeof where);
    if (one->ifa_addr != NULL && (one->ifa_flags & IFF_UP) && (one->ifa_flags & IFF_RUNNING)) {
        if (one->ifa_addr->sa_family == AF_INET)
            memcpy(&where.four, one->ifa_addr, sizeof where.four);
        else if (one->ifa_addr->sa_family == AF_INET6)
            memcpy(&where.six, one->ifa_addr, sizeof where.six);
    }
    return address_in(&where);
}

static bool is_link_local(const llmnr_address *address)
{
    return address->octets[0] == 0xfe && (address->octets[1] & 0xc0) == 0x80;
}

bool net_find(const char *port, uint8_t family, net_interface *found)
{
    struct ifaddrs *all, *one;
    bool any = false;

    if (getifaddrs(&all) != 0)
        return false;
    for (one = all; one != NULL; one = one->ifa_next) {
        llmnr_address address = listed(one);

        if (address.family != family || strcmp(one->ifa_name, port) != 0)
            continue;
        if (any && (family == 4 || is_link_local(&found->address) || !is_link_local(&address)))
            continue;
        any = true;
        found->index = if_nametoindex(port);
        found->address = address;
        memset(found->port, 0, sizeof found->port);
        strncpy(found->port, port, IF_NAMESIZE - 1);
    }
    freeifaddrs(all);
    return any;
}

bool net_first(char *port)
{
    struct ifaddrs *all, *one;
    bool any = false;

    if (getifaddrs(&all) != 0)
        return false;
    for (one = all; one != NULL && !any; one = one->ifa_next) {
        if (listed(one).family == 0 || (one->ifa_flags & IFF_LOOPBACK) || !(one->ifa_flags & IFF_MULTICAST))
            continue;
        any = true;
        memset(port, 0, IF_NAMESIZE);
        strncpy(port, one->ifa_name, IF_NAMESIZE - 1);
    }
    freeifaddrs(all);
    return any;
}

const char *net_family(const net_interface *interface)
{
    return interface->address.family == 4 ? "IPv4" : "IPv6";
}

bool net_usable(const net_interface *interface)
{
    place where;
    socklen_t len = make_place(&interface->address, 0, interface->index, &where);
    int trial = socket(where.any.sa_family, SOCK_DGRAM, 0), error;
    bool usable;

    if (trial < 0)
        return false;
    usable = bind(trial, &where.any, len) == 0;
    error = errno;
    close(trial);
    errno = error;
    return usable;
}

bool net_linked(const net_interface *interface)
{
    struct ifreq request;
    int trial = socket(AF_INET, SOCK_DGRAM, 0);
    bool known;

    if (trial < 0)
        return false;
    memset(&request, 0, sizeof request);
    memcpy(request.ifr_name, interface->port, IF_NAMESIZE);
    known = ioctl(trial, SIOCGIFFLAGS, &request) == 0;
    close(trial);
    return known && (request.ifr_flags & IFF_UP) && (request.ifr_flags & IFF_RUNNING);
}

/* ---- sockets ---- */

static bool set(int socket, int level, int option, int value)
{
    return setsockopt(socket, level, option, &value, sizeof value) == 0;
}

/* MULTICAST_ALL off: only groups that this socket has joined, and not those of other programs. */
static bool set_4(int socket, bool loop)
{
    return set(socket, IPPROTO_IP, IP_PKTINFO, 1) && set(socket, IPPROTO_IP, IP_TTL, HOPS)
        && set(socket, IPPROTO_IP, IP_MULTICAST_TTL, HOPS) && set(socket, IPPROTO_IP, IP_MULTICAST_LOOP, loop)
        && set(socket, IPPROTO_IP, IP_MULTICAST_ALL, 0);
}

static bool set_6(int socket, bool loop)
{
#ifdef IPV6_MULTICAST_ALL
    set(socket, IPPROTO_IPV6, IPV6_MULTICAST_ALL, 0); /* not in every system */
#endif
    return set(socket, IPPROTO_IPV6, IPV6_V6ONLY, 1) && set(socket, IPPROTO_IPV6, IPV6_RECVPKTINFO, 1)
        && set(socket, IPPROTO_IPV6, IPV6_UNICAST_HOPS, HOPS) && set(socket, IPPROTO_IPV6, IPV6_MULTICAST_HOPS, HOPS)
        && set(socket, IPPROTO_IPV6, IPV6_MULTICAST_LOOP, loop);
}

/* No SO_REUSEADDR: a second program on the port would take responses away from the first, or the first from it. */
int net_open(uint8_t family, uint16_t port, bool loop)
{
    const llmnr_address any = {family, {0}};
    place where;
    socklen_t len = make_place(&any, port, 0, &where);
    int opened = socket(where.any.sa_family, SOCK_DGRAM, 0), error;

    if (opened < 0)
        return -1;
    if (!set(opened, SOL_SOCKET, SO_RCVBUFFORCE, RECEIVE_ROOM)) /* for root; others get as much as the system grants */
        set(opened, SOL_SOCKET, SO_RCVBUF, RECEIVE_ROOM);
    if ((family == 4 ? set_4(opened, loop) : set_6(opened, loop)) && bind(opened, &where.any, len) == 0)
        return opened;
    error = errno;
    close(opened);
    errno = error;
    return -1;
}

bool net_join(int socket, const net_interface *interface)
{
    if (interface->address.family == 4) {
        struct ip_mreqn member = {0};

        inet_pton(AF_INET, "224.0.0.252", &member.imr_multiaddr);
        member.imr_ifindex = (int)interface->index;
        return setsockopt(socket, IPPROTO_IP, IP_ADD_MEMBERSHIP, &member, sizeof member) == 0;
    } else {
        struct ipv6_mreq member = {0};

        inet_pton(AF_INET6, "ff02::1:3", &member.ipv6mr_multiaddr);
        member.ipv6mr_interface = interface->index;
        return setsockopt(socket, IPPROTO_IPV6, IPV6_JOIN_GROUP, &member, sizeof member) == 0;
    }
}

/* ---- datagrams ---- */

/* Room for the packet information of either family, aligned. */
typedef union control {
    struct cmsghdr head;
    char octets[CMSG_SPACE(sizeof(struct in6_pktinfo))];
} control;

/* Takes destination and network interface from the packet information; false if it is not there. */
static bool read_information(struct msghdr *message, net_datagram *datagram)
{
    struct cmsghdr *one = CMSG_FIRSTHDR(message);

    memset(&datagram->to, 0, sizeof datagram->to);
    if (one == NULL)
        return false;
    if (one->cmsg_level == IPPROTO_IP && one->cmsg_type == IP_PKTINFO) {
        struct in_pktinfo information;

        memcpy(&information, CMSG_DATA(one), sizeof information);
        datagram->to.family = 4;
        memcpy(datagram->to.octets, &information.ipi_addr, 4);
        datagram->index = (unsigned)information.ipi_ifindex;
        return true;
    }
    if (one->cmsg_level == IPPROTO_IPV6 && one->cmsg_type == IPV6_PKTINFO) {
        struct in6_pktinfo information;

        memcpy(&information, CMSG_DATA(one), sizeof information);
        datagram->to.family = 6;
        memcpy(datagram->to.octets, &information.ipi6_addr, 16);
        datagram->index = information.ipi6_ifindex;
        return true;
    }
    return false;
}

int net_receive(int socket, net_datagram *datagram)
{
    place from;
    control room;
    struct iovec part = {datagram->octets, sizeof datagram->octets};
    struct msghdr message = {0};
    ssize_t len;

    do {
        message.msg_name = &from;
        message.msg_namelen = sizeof from;
        message.msg_iov = &part;
        message.msg_iovlen = 1;
        message.msg_control = &room;
        message.msg_controllen = sizeof room;
        len = recvmsg(socket, &message, MSG_DONTWAIT);
    } while ((len < 0 && errno == EINTR) || (len >= 0 && !read_information(&message, datagram)));
    if (len < 0)
        return errno == EAGAIN || errno == EWOULDBLOCK ? 0 : -1;
    datagram->len = (size_t)len;
    datagram->from.address = address_in(&from);
    datagram->from.port = ntohs(from.any.sa_family == AF_INET ? from.four.sin_port : from.six.sin6_port);
    return 1;
}

static void put_information(struct msghdr *message, control *room, int level, int type, const void *information, size_t len)
{
    room->head.cmsg_level = level;
    room->head.cmsg_type = type;
    room->head.cmsg_len = CMSG_LEN(len);
    memcpy(CMSG_DATA(&room->head), information, len);
    message->msg_control = room;
    message->msg_controllen = CMSG_SPACE(len);
}

/* Writes the packet information that has a datagram sent by the interface and from its address. */
static void write_information(struct msghdr *message, control *room, const net_interface *interface)
{
    if (interface->address.family == 4) {
        struct in_pktinfo information = {0};

        information.ipi_ifindex = (int)interface->index;
        memcpy(&information.ipi_spec_dst, interface->address.octets, 4);
        put_information(message, room, IPPROTO_IP, IP_PKTINFO, &information, sizeof information);
    } else {
        struct in6_pktinfo information = {0};

        information.ipi6_ifindex = interface->index;
        memcpy(&information.ipi6_addr, interface->address.octets, 16);
        put_information(message, room, IPPROTO_IPV6, IPV6_PKTINFO, &information, sizeof information);
    }
}

bool net_send(int socket, const net_interface *interface, const llmnr_endpoint *to, const uint8_t *octets, size_t len)
{
    place where;
    control room = {{0}};
    struct iovec part = {(void *)(uintptr_t)octets, len};
    struct msghdr message = {0};
    ssize_t sent;

    message.msg_name = &where;
    message.msg_namelen = make_place(&to->address, to->port, interface->index, &where);
    message.msg_iov = &part;
    message.msg_iovlen = 1;
    write_information(&message, &room, interface);
    do {
        sent = sendmsg(socket, &message, 0);
    } while (sent < 0 && errno == EINTR);
    return sent == (ssize_t)len;
}

/* ---- waiting, the clock, IDs ---- */

bool net_wait(const int *descriptors, size_t count, uint64_t due, bool *readable)
{
    struct timespec now, left;
    fd_set watched;
    int highest = -1, ready;
    size_t k;

    FD_ZERO(&watched);
    for (k = 0; k < count; k++) {
        if (descriptors[k] < 0)
            continue;
        FD_SET(descriptors[k], &watched);
        highest = descriptors[k] > highest ? descriptors[k] : highest;
    }
    /* Nanoseconds, so that the sleep ends within the millisecond that is due. */
    clock_gettime(CLOCK_MONOTONIC, &now);
    left.tv_sec = (time_t)(due / 1000) - now.tv_sec;
    left.tv_nsec = (long)(due % 1000) * 1000000 - now.tv_nsec;
    if (left.tv_nsec < 0) {
        left.tv_sec -= 1;
        left.tv_nsec += 1000000000;
    }
    if (left.tv_sec < 0)
        left.tv_sec = left.tv_nsec = 0;
    ready = pselect(highest + 1, &watched, NULL, NULL, due == UINT64_MAX ? NULL : &left, NULL);
    for (k = 0; readable != NULL && k < count; k++)
        readable[k] = ready > 0 && descriptors[k] >= 0 && FD_ISSET(descriptors[k], &watched);
    return ready >= 0 || errno == EINTR;
}

uint64_t net_time(void)
{
    struct timespec now;

    clock_gettime(CLOCK_MONOTONIC, &now);
    return (uint64_t)now.tv_sec * 1000 + (uint64_t)now.tv_nsec / 1000000;
}

bool net_id(uint16_t *id)
{
    static uint16_t pool[256]; /* drawn together: a call needs an ID for each datagram */
    static size_t left = 0;
    static int source = -1;

    if (left == 0) {
        if (source < 0)
            source = open("/dev/urandom", O_RDONLY);
        if (source < 0 || read(source, pool, sizeof pool) != (ssize_t)sizeof pool)
            return false;
        left = sizeof pool / sizeof pool[0];
    }
    *id = pool[--left];
    return true;
}
