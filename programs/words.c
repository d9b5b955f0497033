/* words.c - see words.h. */
#define _POSIX_C_SOURCE 200809L
#include "words.h"

#include <arpa/inet.h>
#include <stdarg.h>
#include <stdio.h>
#include <stdlib.h>
#include <string.h>
#include <time.h>

#define LONGEST_LABEL 63

void fail(int status, const char *format, ...)
{
    va_list values;

    fflush(stdout);
    fprintf(stderr, "%s: ", program);
    va_start(values, format);
    vfprintf(stderr, format, values);
    va_end(values);
    fputc('\n', stderr);
    exit(status);
}

static bool is_digit(char c)
{
    return c >= '0' && c <= '9';
}

/* Takes one octet of a label from the text, as it is or as \DDD; -1 if it is no octet. */
static int take_octet(const char **text)
{
    const char *t = *text;
    int octet;

    if (*t != '\\') {
        *text = t + 1;
        return (unsigned char)*t;
    }
    if (!is_digit(t[1]) || !is_digit(t[2]) || !is_digit(t[3]))
        return -1;
    octet = (t[1] - '0') * 100 + (t[2] - '0') * 10 + (t[3] - '0');
    *text = t + 4;
    return octet <= 255 ? octet : -1;
}

/* Reads one label into the name, from its length octet on. Gives the octets that it takes; 0 if it is no label. */
static size_t take_label(const char **text, uint8_t *label, size_t room, const char **why)
{
    size_t len = 0;

    while (**text != '\0' && **text != '.') {
        int octet = take_octet(text);

        if (octet < 0) {
            *why = "a \\ needs three digits up to 255 behind it";
            return 0;
        }
        if (++len > LONGEST_LABEL) {
            *why = "a label of more than 63 octets";
            return 0;
        }
        if (len >= room) {
            *why = "a name of more than 255 octets";
            return 0;
        }
        label[len] = (uint8_t)octet;
    }
    if (len == 0) {
        *why = "an empty label";
        return 0;
    }
    label[0] = (uint8_t)len;
    return 1 + len;
}

size_t words_to_name(const char *text, uint8_t *name, const char **why)
{
    const size_t room = LLMNR_LONGEST - 1; /* the final zero is left */
    size_t len = 0;

    if (strcmp(text, ".") != 0) {
        for (;;) {
            size_t label = take_label(&text, name + len, room - len, why);

            if (label == 0)
                return 0;
            len += label;
            if (*text == '\0')
                break;
            text++;
        }
    }
    name[len] = 0;
    return len + 1;
}

uint8_t words_to_mask(const char *text, const char **why)
{
    unsigned mask = 0, bit;

    for (;; text += 2) {
        if (text[0] < '0' || text[0] >= '0' + LLMNR_INTERFACES || (text[1] != ',' && text[1] != '\0')) {
            *why = "numbers from 0 to 3 are needed, with commas between them";
            return 0;
        }
        bit = 1u << (text[0] - '0');
        if (bit <= mask) {
            *why = "each number has to be above the one before";
            return 0;
        }
        mask |= bit;
        if (text[1] == '\0')
            return (uint8_t)mask;
    }
}

uint16_t words_to_interval(const char *text)
{
    if (text != NULL && strcmp(text, "100") == 0)
        return 100;
    return text != NULL && strcmp(text, "1000") == 0 ? 1000 : 0;
}

/* Octets that stand for themselves. All else is written as \DDD, so that a name from the network cannot steer a terminal. */
static bool is_plain(uint8_t octet)
{
    return octet > ' ' && octet < 127 && octet != '.' && octet != '\\' && octet != '#';
}

void words_of_name(const uint8_t *name, char *text)
{
    size_t at, end;

    if (name[0] == 0)
        *text++ = '.';
    for (at = 0; name[at] != 0; at = end) {
        end = at + 1 + name[at];
        if (at > 0)
            *text++ = '.';
        while (++at < end) {
            if (is_plain(name[at]))
                *text++ = (char)name[at];
            else
                text += sprintf(text, "\\%03d", name[at]);
        }
    }
    *text = '\0';
}

void words_of_mask(uint8_t mask, char *text)
{
    const char *before = "";
    unsigned i;

    *text = '\0';
    for (i = 0; i < LLMNR_INTERFACES; i++) {
        if ((mask >> i & 1) != 0) {
            text += sprintf(text, "%s%u", before, i);
            before = ",";
        }
    }
}

void words_of_address(const llmnr_address *address, const char *port, char *text)
{
    bool link_local = address->family == 6 && address->octets[0] == 0xfe && (address->octets[1] & 0xc0) == 0x80;

    if (inet_ntop(address->family == 4 ? AF_INET : AF_INET6, address->octets, text, WORDS_ADDRESS) == NULL)
        strcpy(text, "?");
    if (link_local)
        snprintf(text + strlen(text), WORDS_ADDRESS - strlen(text), "%%%s", port);
}

void words_of_now(char *text)
{
    struct timespec now;
    struct tm day;
    size_t len;

    clock_gettime(CLOCK_REALTIME, &now);
    gmtime_r(&now.tv_sec, &day);
    len = strftime(text, WORDS_TIME, "%Y-%m-%dT%H:%M:%S", &day);
    snprintf(text + len, WORDS_TIME - len, ".%03ldZ", now.tv_nsec / 1000000);
}
