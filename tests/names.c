/*
 * Whether two names are equal, by llmnr_same_name and by the second program: its lines on standard input, each the answer, 0 or 1, the two
 * offsets and the two messages in hexadecimal; `=` is the first message again, `-` one of no octets. Every pair is asked both ways round.
 * The exit status is 0 only if no answer differs and both answers were seen.
 */
#include "llmnr.h"

#include <errno.h>
#include <stdio.h>
#include <stdlib.h>
#include <string.h>

enum { LINE = 1 << 17, SHOWN = 5 };

static char line[LINE], words[LINE];
static unsigned long pairs;

/* Octets on the heap, as many as there are, so that a reader of one more is seen by valgrind and by a sanitizer; NULL if there are none. */
typedef struct {
    uint8_t *octets;
    size_t len;
} message;

static void bad_line(const char *why)
{
    fprintf(stderr, "names: line %lu: %s: %s", pairs + 1, why, line);
    exit(2);
}

static void *room(size_t len)
{
    void *octets = malloc(len);
    if (octets == NULL) {
        fputs("names: no memory\n", stderr);
        exit(2);
    }
    return octets;
}

static unsigned digit(char c)
{
    static const char digits[] = "0123456789abcdef";
    const char *found = c == '\0' ? NULL : strchr(digits, c);
    if (found == NULL)
        bad_line("no digit");
    return (unsigned)(found - digits);
}

static message read_message(const char *word)
{
    message m = {NULL, 0};
    if (strcmp(word, "-") == 0)
        return m;
    m.len = strlen(word) / 2;
    if (m.len == 0 || strlen(word) % 2 != 0)
        bad_line("no octets");
    m.octets = room(m.len);
    for (size_t k = 0; k < m.len; k++)
        m.octets[k] = (uint8_t)(digit(word[2 * k]) << 4 | digit(word[2 * k + 1]));
    return m;
}

static message copy(message m)
{
    message c = {NULL, m.len};
    if (m.len != 0) {
        c.octets = room(m.len);
        memcpy(c.octets, m.octets, m.len);
    }
    return c;
}

static size_t offset(const char *word)
{
    char *end;
    errno = 0;
    const unsigned long long value = strtoull(word, &end, 10);
    if (*word < '0' || *word > '9' || *end != '\0' || errno != 0 || value > SIZE_MAX)
        bad_line("no offset");
    return (size_t)value;
}

static const char *next_word(char *from)
{
    const char *word = strtok(from, " ");
    if (word == NULL)
        bad_line("too few words");
    return word;
}

/* Whether the call gives this answer both ways round. */
static bool as_told(message s, size_t at, message t, size_t other_at, bool answer)
{
    return llmnr_same_name(s.octets, s.len, at, t.octets, t.len, other_at) == answer
        && llmnr_same_name(t.octets, t.len, other_at, s.octets, s.len, at) == answer;
}

int main(void)
{
    unsigned long equal = 0, differ = 0;
    while (fgets(line, sizeof line, stdin) != NULL) {
        char *end = strchr(line, '\n');
        if (end == NULL)
            bad_line("it does not end");
        memcpy(words, line, sizeof words);
        words[end - line] = '\0';
        const char *answer = next_word(words);
        if (strcmp(answer, "0") != 0 && strcmp(answer, "1") != 0)
            bad_line("no answer");
        const bool told = *answer == '1';
        const size_t at = offset(next_word(NULL)), other_at = offset(next_word(NULL));
        const message s = read_message(next_word(NULL));
        const char *other = next_word(NULL);
        const bool one = strcmp(other, "=") == 0;
        if (strtok(NULL, " ") != NULL)
            bad_line("too many words");
        /* The same message is asked about as itself and as a copy. */
        const message t = one ? copy(s) : read_message(other);
        if (!as_told(s, at, t, other_at, told) || (one && !as_told(s, at, s, other_at, told))) {
            if (differ++ < SHOWN)
                printf("not so: %s", line);
        }
        free(s.octets);
        free(t.octets);
        pairs++;
        equal += told;
    }
    printf("names: %lu pairs, %lu equal, %lu differ\n", pairs, equal, differ);
    return ferror(stdin) || differ != 0 || equal == 0 || equal == pairs;
}
