/*
 * make_table.c - makes a name table (rules T of docs/RULES.md) from a readable text, and such a text from a table.
 *
 * The library checks the table after each line; it decides what is good. The first bad entry is then always the last one, so its line is
 * known.
 */
#define _POSIX_C_SOURCE 200809L
#include <arpa/inet.h>
#include <errno.h>
#include <stdio.h>
#include <stdlib.h>
#include <string.h>

#include "llmnr.h"
#include "table.h"
#include "words.h"

#define SPACE " \t\r\n\v\f"

const char program[] = "make_table";

static const char help[] =
    "usage: make_table TEXT > TABLE\n"
    "       make_table --back TABLE > TEXT\n"
    "\n"
    "Makes the name table that indicator reads, or with --back the text of a table. A text has a line for each name, and\n"
    "below it a line for each of its records:\n"
    "\n"
    "    unique scale3            a name that one host alone may use\n"
    "        A 192.0.2.17\n"
    "        AAAA 2001:db8::17\n"
    "    shared printers          a name that several hosts use together\n"
    "        A 192.0.2.17\n"
    "    unique 17.2.0.192.in-addr.arpa\n"
    "        PTR scale3           a name as data; a dot alone is the root\n"
    "\n"
    "Records serve on every interface; those below an \"on\" only on the interfaces with its numbers, up to the next \"on\" or\n"
    "the next name. For indicator TABLE eth0 eth1, if both have IPv4 and IPv6:\n"
    "\n"
    "    unique scale3\n"
    "        on 0,1               asked at eth0, by IPv4 (0) or by IPv6 (1)\n"
    "        A 192.0.2.17\n"
    "        on 2,3               asked at eth1\n"
    "        A 198.51.100.17\n"
    "\n"
    "In a name \\DDD is the octet with that decimal number. A word that begins with # begins a comment. There are at most 8\n"
    "names, 24 records to a name, and 4096 octets in all. Terminals that use systemd-resolved need both A and AAAA.\n"
    "\n"
    "exit status: 0 done   2 usage   3 a file cannot be read or written   4 the text or the table is bad (a message tells\n"
    "  which line or which offset)\n";

static const struct {
    const char *word;
    unsigned kind;
} kinds[] = {
    {"unique", TABLE_UNIQUE}, {"shared", TABLE_SHARED}, {"A", TABLE_A}, {"AAAA", TABLE_AAAA}, {"PTR", TABLE_PTR}, {"on", TABLE_MASK},
};

#define KINDS (sizeof kinds / sizeof kinds[0])

/* A table that grows line by line. It has room for one entry more than fits. */
typedef struct maker {
    uint8_t table[LLMNR_TABLE + TABLE_HEAD + LLMNR_LONGEST];
    size_t len;
    size_t names;
    size_t line; /* number of the line that is being read */
} maker;

/* ---- from a text to a table ---- */

/* Reads what stands behind the first word into the body of an entry. Gives its octets. */
static size_t read_body(const maker *m, unsigned kind, const char *word, uint8_t *body)
{
    const char *why = "";
    size_t len;

    if (kind == TABLE_A || kind == TABLE_AAAA) {
        len = kind == TABLE_A ? 4 : 16;
        if (inet_pton(kind == TABLE_A ? AF_INET : AF_INET6, word, body) != 1)
            fail(FAILED_TABLE, "line %zu: not an IPv%d address: %s", m->line, kind == TABLE_A ? 4 : 6, word);
        return len;
    }
    if (kind == TABLE_MASK) {
        body[0] = words_to_mask(word, &why);
        if (body[0] == 0)
            fail(FAILED_TABLE, "line %zu: not interfaces: %s: %s", m->line, word, why);
        return 1;
    }
    len = words_to_name(word, body, &why);
    if (len == 0)
        fail(FAILED_TABLE, "line %zu: not a name: %s: %s", m->line, word, why);
    return len;
}

/* Why the library refuses an entry whose body is as it should be. */
static const char *reason(const maker *m, size_t at)
{
    unsigned kind = table_kind(m->table, at);

    if (m->len > LLMNR_TABLE)
        return "with this line the table has more than 4096 octets";
    if (kind == TABLE_MASK)
        return "on stands before any name";
    if (!table_is_name(kind))
        return m->names == 0 ? "a record before any name" : "a 25th record; a name has at most 24";
    if (m->names == LLMNR_NAMES)
        return "a ninth name; a table has at most 8";
    if (m->table[at + TABLE_HEAD] == 0)
        return "the root cannot be a name of the table";
    return "this name is in the table already (capital and small letters count alike)";
}

/* Adds an entry, and has the library check the table. */
static void add_entry(maker *m, unsigned kind, const char *word)
{
    size_t at = m->len, len = TABLE_HEAD + read_body(m, kind, word, m->table + at + TABLE_HEAD);
    llmnr_table_check check;

    m->table[at] = (uint8_t)(len % 256);
    m->table[at + 1] = (uint8_t)(len / 256);
    m->table[at + 2] = (uint8_t)kind;
    m->table[at + 3] = 0;
    m->len += len;
    check = llmnr_check_table(m->table, m->len);
    if (!check.good)
        fail(FAILED_TABLE, "line %zu: %s", m->line, reason(m, at));
    m->names = check.names;
}

/* Takes the next word of a line; NULL at its end or at a comment. */
static char *next_word(char **rest)
{
    char *word = *rest + strspn(*rest, SPACE), *end = word + strcspn(word, SPACE);

    *rest = *end == '\0' ? end : end + 1;
    *end = '\0';
    return word[0] == '\0' || word[0] == '#' ? NULL : word;
}

static void read_line(maker *m, char *line)
{
    char *rest = line, *first = next_word(&rest), *second, *third;
    size_t k;

    if (first == NULL)
        return;
    for (k = 0; k < KINDS && strcmp(first, kinds[k].word) != 0; k++)
        ;
    if (k == KINDS)
        fail(FAILED_TABLE, "line %zu: not understood: %s (unique, shared, A, AAAA, PTR or on)", m->line, first);
    second = next_word(&rest);
    if (second == NULL)
        fail(FAILED_TABLE, "line %zu: a word is missing after %s", m->line, first);
    third = next_word(&rest);
    if (third != NULL)
        fail(FAILED_TABLE, "line %zu: one word too many: %s", m->line, third);
    add_entry(m, kinds[k].kind, second);
}

static void write_out(const void *octets, size_t len)
{
    if (fwrite(octets, 1, len, stdout) != len || fflush(stdout) != 0)
        fail(FAILED_FILE, "cannot write: %s", strerror(errno));
}

static void make(const char *path)
{
    static maker m;
    FILE *file = fopen(path, "r");
    char *line = NULL;
    size_t room = 0;
    ssize_t len;

    if (file == NULL)
        fail(FAILED_FILE, "%s: %s", path, strerror(errno));
    while ((len = getline(&line, &room, file)) >= 0) {
        m.line++;
        if (strlen(line) != (size_t)len)
            fail(FAILED_TABLE, "line %zu: an octet 0; is this a text?", m.line);
        read_line(&m, line);
    }
    if (ferror(file))
        fail(FAILED_FILE, "%s: %s", path, strerror(errno));
    free(line);
    fclose(file);
    write_out(m.table, m.len);
}

/* ---- from a table to a text ---- */

static void print_entry(const uint8_t *table, size_t at)
{
    unsigned kind = table_kind(table, at);
    const uint8_t *body = table + at + TABLE_HEAD;
    char text[WORDS_NAME];
    size_t k;

    for (k = 0; k < KINDS && kinds[k].kind != kind; k++)
        ;
    if (k == KINDS)
        fail(FAILED_TABLE, "the entry at offset %zu is of kind %u, which has no word", at, kind);
    if (kind == TABLE_A || kind == TABLE_AAAA)
        inet_ntop(kind == TABLE_A ? AF_INET : AF_INET6, body, text, sizeof text);
    else if (kind == TABLE_MASK)
        words_of_mask(body[0], text);
    else
        words_of_name(body, text);
    printf("%s%s %s\n", table_is_name(kind) ? "" : "    ", kinds[k].word, text);
}

static void back(const char *path)
{
    static uint8_t table[LLMNR_TABLE + 1];
    size_t names, len = table_load(path, table, &names), at;

    for (at = 0; at < len; at += table_length(table, at))
        print_entry(table, at);
    write_out("", 0);
}

int main(int argc, char **argv)
{
    if (argc == 2 && strcmp(argv[1], "--help") == 0)
        write_out(help, strlen(help));
    else if (argc == 3 && strcmp(argv[1], "--back") == 0)
        back(argv[2]);
    else if (argc == 2 && argv[1][0] != '-')
        make(argv[1]);
    else
        fail(FAILED_USAGE, "make_table TEXT or make_table --back TABLE; --help tells more");
    return 0;
}
