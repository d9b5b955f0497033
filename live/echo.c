/*
 * echo.c - the least that a server on LLMNR's port can do: it sends every datagram back to where it came from.
 *
 * usage: echo [--turns] INTERFACE
 *   Joins 224.0.0.252 on INTERFACE, on UDP port 5355. It sleeps in recvmsg, and answers by sendmsg: two system calls for a query.
 *   --turns  the system calls of indicator in its place: it sleeps in pselect, also for a socket of IPv6 on which nothing comes, and
 *            takes what has come until there is no more
 *
 * What indicator needs beyond `echo --turns` is what it does with a datagram between the two calls. Ends on SIGTERM, with status 0.
 */
#define _GNU_SOURCE
#include <arpa/inet.h>
#include <errno.h>
#include <net/if.h>
#include <netinet/in.h>
#include <signal.h>
#include <stdbool.h>
#include <stdio.h>
#include <stdlib.h>
#include <string.h>
#include <sys/select.h>
#include <sys/socket.h>
#include <unistd.h>

#define PORT 5355

static void fail(const char *what)
{
    perror(what);
    exit(1);
}

static void on_signal(int number)
{
    (void)number;
    _exit(0);
}

/* As indicator has it: told where a datagram went and on which interface it came, and only what this socket has joined. */
static int open_4(const char *interface)
{
    struct ip_mreqn member = {.imr_ifindex = (int)if_nametoindex(interface)};
    struct sockaddr_in any = {.sin_family = AF_INET, .sin_port = htons(PORT)};
    int opened = socket(AF_INET, SOCK_DGRAM, 0), yes = 1, no = 0, room = 1048576;

    inet_pton(AF_INET, "224.0.0.252", &member.imr_multiaddr);
    setsockopt(opened, SOL_SOCKET, SO_RCVBUFFORCE, &room, sizeof room);
    if (opened < 0 || member.imr_ifindex == 0 || setsockopt(opened, IPPROTO_IP, IP_PKTINFO, &yes, sizeof yes) != 0
        || setsockopt(opened, IPPROTO_IP, IP_MULTICAST_ALL, &no, sizeof no) != 0
        || bind(opened, (struct sockaddr *)&any, sizeof any) != 0
        || setsockopt(opened, IPPROTO_IP, IP_ADD_MEMBERSHIP, &member, sizeof member) != 0)
        fail(interface);
    return opened;
}

static int open_6(void)
{
    struct sockaddr_in6 any = {.sin6_family = AF_INET6, .sin6_port = htons(PORT)};
    int opened = socket(AF_INET6, SOCK_DGRAM, 0), yes = 1;

    if (opened < 0 || setsockopt(opened, IPPROTO_IPV6, IPV6_V6ONLY, &yes, sizeof yes) != 0
        || bind(opened, (struct sockaddr *)&any, sizeof any) != 0)
        fail("IPv6");
    return opened;
}

/*
 * Takes one datagram, and sends it back from the interface and the address that it came to: recvmsg gives the packet information as
 * sendmsg takes it. Gives whether there was one.
 */
static bool answer(int socket, int flags)
{
    static char octets[9195];
    struct sockaddr_storage from;
    union {
        struct cmsghdr head;
        char octets[CMSG_SPACE(sizeof(struct in6_pktinfo))];
    } room;
    struct iovec part = {octets, sizeof octets};
    struct msghdr message = {.msg_name = &from, .msg_namelen = sizeof from, .msg_iov = &part, .msg_iovlen = 1};
    ssize_t len;

    message.msg_control = &room;
    message.msg_controllen = sizeof room;
    len = recvmsg(socket, &message, flags);
    if (len < 0 && errno != EAGAIN)
        fail("recvmsg");
    part.iov_len = (size_t)len;
    if (len >= 0 && sendmsg(socket, &message, 0) != len)
        fail("sendmsg");
    return len >= 0;
}

int main(int argc, char **argv)
{
    bool turns = argc == 3 && strcmp(argv[1], "--turns") == 0;
    int four, six;

    if (argc != 2 && !turns) {
        fputs("usage: echo [--turns] INTERFACE\n", stderr);
        return 2;
    }
    signal(SIGTERM, on_signal);
    four = open_4(argv[argc - 1]);
    six = turns ? open_6() : -1;
    while (!turns)
        answer(four, 0);
    for (;;) {
        fd_set readable;

        FD_ZERO(&readable);
        FD_SET(four, &readable);
        FD_SET(six, &readable);
        if (pselect((four > six ? four : six) + 1, &readable, NULL, NULL, NULL, NULL) < 0)
            fail("pselect");
        while (FD_ISSET(four, &readable) && answer(four, MSG_DONTWAIT)) {}
        while (FD_ISSET(six, &readable) && answer(six, MSG_DONTWAIT)) {}
    }
}
