/*
 * load.c - sends LLMNR queries for a name at a steady rate, counts the answers, and sees what the host that answers needs for it.
 *
 * usage: load [--rate N] [--seconds S] [--family 4|6] [--echo] [--figures] PID INTERFACE NAME
 *   N queries a second (50000) for S seconds (5) go to the group by INTERFACE; they ask for the A record of NAME, which is one label.
 *   PID is the process that answers, on this machine. If the queries cannot be sent so fast, they are sent as fast as can be.
 *   --echo     what comes back is the query itself (echo.c), and counts as its answer
 *   --figures  prints four numbers and nothing else: queries, answers, and microseconds of processor time in user and in system mode
 *
 * Prints how many queries went out and how many answers came; those of a host that does not own the name yet (T is set) do not count. Of
 * the process it prints: its memory (VmRSS) before and after, its processor time for a query, the datagrams that came when its socket was
 * full, and how long it was kept waiting for a processor by others. Exit status: 0 if some queries were answered, its memory has not
 * grown, and it still answers; with --figures, if it still answers.
 *
 * Linux only: it uses sendmmsg and /proc.
 */
#define _GNU_SOURCE
#include <arpa/inet.h>
#include <net/if.h>
#include <netinet/in.h>
#include <poll.h>
#include <stdbool.h>
#include <stdint.h>
#include <stdio.h>
#include <stdlib.h>
#include <string.h>
#include <sys/socket.h>
#include <time.h>

#define BATCH 32
#define PORT 5355
#define WARM_UP 2000 /* queries before the first look at the process: all of its pages that are ever used are then in memory */

typedef struct load {
    int socket;
    struct sockaddr_storage group;
    socklen_t group_len;
    uint8_t queries[BATCH][80]; /* alike but for their IDs */
    size_t query_len;
    uint64_t sent, answers;
    bool echo;
} load;

/* What /proc says of a process. */
typedef struct usage {
    long memory; /* KiB */
    double cpu;  /* seconds on a processor */
    long user, system; /* the same in ticks of the system's clock, by which it is split: a sample */
    double wait; /* seconds ready, but without a processor, since other programs had them */
    long drops;
} usage;

static uint64_t now(void)
{
    struct timespec t;

    clock_gettime(CLOCK_MONOTONIC, &t);
    return (uint64_t)t.tv_sec * 1000000000u + (uint64_t)t.tv_nsec;
}

static void fail(const char *what)
{
    perror(what);
    exit(2);
}

/* ---- the process that answers ---- */

/* Sums the last column, the datagrams dropped, of the sockets on the port in one of the system's lists. */
static long drops_in(const char *pid, const char *list)
{
    char path[64], line[512], port[8];
    long sum = 0;
    FILE *file;

    snprintf(path, sizeof path, "/proc/%s/net/%s", pid, list);
    snprintf(port, sizeof port, ":%04X ", PORT);
    file = fopen(path, "r");
    while (file != NULL && fgets(line, sizeof line, file) != NULL) {
        char *local = strstr(line, port), *last;

        line[strcspn(line, "\n")] = '\0';
        while (line[0] != '\0' && line[strlen(line) - 1] == ' ')
            line[strlen(line) - 1] = '\0';
        last = strrchr(line, ' ');
        if (local != NULL && last != NULL)
            sum += atol(last);
    }
    if (file != NULL)
        fclose(file);
    return sum;
}

static usage look(const char *pid)
{
    char path[64], line[256];
    usage u = {-1, 0, 0, 0, 0, 0};
    FILE *file;

    snprintf(path, sizeof path, "/proc/%s/status", pid);
    file = fopen(path, "r");
    if (file == NULL)
        fail(path);
    while (fgets(line, sizeof line, file) != NULL)
        if (sscanf(line, "VmRSS: %ld", &u.memory) == 1)
            break;
    fclose(file);
    snprintf(path, sizeof path, "/proc/%s/schedstat", pid);
    file = fopen(path, "r");
    if (file == NULL || fscanf(file, "%lf %lf", &u.cpu, &u.wait) != 2)
        fail(path);
    fclose(file);
    u.cpu /= 1e9;
    u.wait /= 1e9;
    snprintf(path, sizeof path, "/proc/%s/stat", pid);
    file = fopen(path, "r");
    if (file == NULL || fgets(line, sizeof line, file) == NULL || strrchr(line, ')') == NULL
        || sscanf(strrchr(line, ')'), ") %*c %*d %*d %*d %*d %*d %*u %*u %*u %*u %*u %ld %ld", &u.user, &u.system) != 2)
        fail(path);
    fclose(file);
    u.drops = drops_in(pid, "udp") + drops_in(pid, "udp6");
    return u;
}

/* ---- queries and answers ---- */

static void make_queries(load *l, const char *name)
{
    size_t len = strlen(name), k;

    if (len == 0 || len > 60) {
        fprintf(stderr, "load: not a single label: %s\n", name);
        exit(2);
    }
    for (k = 0; k < BATCH; k++) {
        uint8_t *q = l->queries[k];

        q[5] = 1; /* QDCOUNT */
        q[12] = (uint8_t)len;
        memcpy(q + 13, name, len);
        q[13 + len + 2] = 1; /* type A, class IN */
        q[13 + len + 4] = 1;
    }
    l->query_len = 13 + len + 5;
}

static void open_socket(load *l, int family, const char *interface)
{
    int index = (int)if_nametoindex(interface), hops = 255, room = 4 << 20;

    if (index == 0)
        fail(interface);
    l->socket = socket(family == 4 ? AF_INET : AF_INET6, SOCK_DGRAM, 0);
    if (l->socket < 0)
        fail("socket");
    if (setsockopt(l->socket, SOL_SOCKET, SO_RCVBUFFORCE, &room, sizeof room) != 0)
        setsockopt(l->socket, SOL_SOCKET, SO_RCVBUF, &room, sizeof room);
    if (family == 4) {
        struct sockaddr_in *group = (struct sockaddr_in *)&l->group;
        struct ip_mreqn out = {.imr_ifindex = index};

        group->sin_family = AF_INET;
        group->sin_port = htons(PORT);
        inet_pton(AF_INET, "224.0.0.252", &group->sin_addr);
        l->group_len = sizeof *group;
        setsockopt(l->socket, IPPROTO_IP, IP_MULTICAST_IF, &out, sizeof out);
        setsockopt(l->socket, IPPROTO_IP, IP_MULTICAST_TTL, &hops, sizeof hops);
    } else {
        struct sockaddr_in6 *group = (struct sockaddr_in6 *)&l->group;

        group->sin6_family = AF_INET6;
        group->sin6_port = htons(PORT);
        group->sin6_scope_id = (unsigned)index;
        inet_pton(AF_INET6, "ff02::1:3", &group->sin6_addr);
        l->group_len = sizeof *group;
        setsockopt(l->socket, IPPROTO_IPV6, IPV6_MULTICAST_HOPS, &hops, sizeof hops);
    }
}

static void send_some(load *l, unsigned count)
{
    struct mmsghdr messages[BATCH];
    struct iovec parts[BATCH];
    unsigned k;
    int done;

    memset(messages, 0, sizeof messages);
    for (k = 0; k < count; k++) {
        l->queries[k][0] = (uint8_t)((l->sent + k) >> 8);
        l->queries[k][1] = (uint8_t)(l->sent + k);
        parts[k].iov_base = l->queries[k];
        parts[k].iov_len = l->query_len;
        messages[k].msg_hdr.msg_name = &l->group;
        messages[k].msg_hdr.msg_namelen = l->group_len;
        messages[k].msg_hdr.msg_iov = &parts[k];
        messages[k].msg_hdr.msg_iovlen = 1;
    }
    done = sendmmsg(l->socket, messages, count, 0);
    if (done < 0)
        fail("sendmmsg");
    l->sent += (unsigned)done;
}

/* Counts the answers that have come. */
static void count_answers(load *l)
{
    struct mmsghdr messages[BATCH];
    struct iovec parts[BATCH];
    uint8_t octets[BATCH][12];
    int got, k;

    do {
        memset(messages, 0, sizeof messages);
        for (k = 0; k < BATCH; k++) {
            parts[k].iov_base = octets[k];
            parts[k].iov_len = sizeof octets[k];
            messages[k].msg_hdr.msg_iov = &parts[k];
            messages[k].msg_hdr.msg_iovlen = 1;
        }
        got = recvmmsg(l->socket, messages, BATCH, MSG_DONTWAIT, NULL);
        for (k = 0; k < got; k++) {
            int flags = octets[k][2] * 256 + octets[k][3];

            l->answers += messages[k].msg_len == 12 && (l->echo ? flags == 0 : flags == 0x8000 && octets[k][7] > 0);
        }
    } while (got == BATCH);
}

/* Waits for answers until there are as many as queries, or so many milliseconds have passed. */
static void wait_for_answers(load *l, int milliseconds)
{
    uint64_t end = now() + (uint64_t)milliseconds * 1000000u;
    struct pollfd readable = {l->socket, POLLIN, 0};

    while (l->answers < l->sent && now() < end) {
        poll(&readable, 1, 10);
        count_answers(l);
    }
}

/* Sends so many queries, at a rate. Gives the seconds that it took. */
static double send_all(load *l, uint64_t count, double rate)
{
    const struct timespec moment = {0, 100000};
    uint64_t begin = now(), first = l->sent;

    while (l->sent - first < count) {
        uint64_t due = (uint64_t)((double)(now() - begin) / 1e9 * rate), gone = l->sent - first;

        due = due < count ? due : count;
        if (due > gone)
            send_some(l, (unsigned)(due - gone < BATCH ? due - gone : BATCH));
        else
            nanosleep(&moment, NULL);
        count_answers(l);
    }
    return (double)(now() - begin) / 1e9;
}

static bool still_answers(const load *l)
{
    return l->answers == l->sent;
}

static void print_figures(const usage *before, const usage *after, uint64_t sent, uint64_t answers)
{
    long user = after->user - before->user, system = after->system - before->system;
    double cpu = (after->cpu - before->cpu) * 1e6, in_user = user + system > 0 ? cpu * (double)user / (double)(user + system) : 0;

    printf("%llu %llu %.0f %.0f\n", (unsigned long long)sent, (unsigned long long)answers, in_user, cpu - in_user);
}

static bool report(const load *l, const usage *before, const usage *after, uint64_t sent, uint64_t answers, double seconds)
{
    bool still = still_answers(l);
    long drops = after->drops - before->drops;
    double cpu = after->cpu - before->cpu;

    printf("%llu queries in %.1f s (%.0f a second), %llu answers (%.3f %%)\n", (unsigned long long)sent, seconds,
           (double)sent / seconds, (unsigned long long)answers, 100.0 * (double)answers / (double)sent);
    printf("memory %ld KiB before, %ld KiB after%s; %.2f us of processor time for each query that reached it (%.0f %% of one)\n",
           before->memory, after->memory, after->memory > before->memory ? ", which is more" : "",
           cpu * 1e6 / ((double)sent - (double)drops), cpu * 100 / seconds);
    printf("%ld dropped at its full socket; it waited %.0f %% of the time for a processor\n", drops,
           (after->wait - before->wait) * 100 / seconds);
    printf("afterwards: %s\n", still ? "answers as before" : "does not answer as before");
    return answers > 0 && still && after->memory <= before->memory;
}

int main(int argc, char **argv)
{
    static load l;
    double rate = 50000, seconds = 5, took;
    uint64_t sent, answers;
    usage before, after;
    bool figures = false;
    int family = 4, at;

    for (at = 1; at + 1 < argc && strncmp(argv[at], "--", 2) == 0; at++) {
        if (strcmp(argv[at], "--rate") == 0)
            rate = atof(argv[++at]);
        else if (strcmp(argv[at], "--seconds") == 0)
            seconds = atof(argv[++at]);
        else if (strcmp(argv[at], "--family") == 0)
            family = atoi(argv[++at]);
        else if (strcmp(argv[at], "--echo") == 0)
            l.echo = true;
        else if (strcmp(argv[at], "--figures") == 0)
            figures = true;
    }
    if (argc - at != 3 || rate < 1 || seconds <= 0 || (family != 4 && family != 6)) {
        fputs("usage: load [--rate N] [--seconds S] [--family 4|6] [--echo] [--figures] PID INTERFACE NAME\n", stderr);
        return 2;
    }
    make_queries(&l, argv[at + 2]);
    open_socket(&l, family, argv[at + 1]);
    send_all(&l, WARM_UP, 10000);
    wait_for_answers(&l, 500);
    sent = l.sent;
    answers = l.answers;
    before = look(argv[at]);
    took = send_all(&l, (uint64_t)(rate * seconds), rate);
    wait_for_answers(&l, 500);
    after = look(argv[at]);
    sent = l.sent - sent;
    answers = l.answers - answers;
    l.sent = l.answers = 0;
    send_all(&l, 10, 100);
    wait_for_answers(&l, 1000);
    if (!figures)
        return report(&l, &before, &after, sent, answers, took) ? 0 : 1;
    print_figures(&before, &after, sent, answers);
    return still_answers(&l) ? 0 : 1;
}
