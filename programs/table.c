/* table.c - see table.h. */
#define _POSIX_C_SOURCE 200809L
#include "table.h"

#include <errno.h>
#include <stdio.h>
#include <string.h>

#include "words.h"

size_t table_load(const char *path, uint8_t *table, size_t *names)
{
    FILE *file = fopen(path, "rb");
    llmnr_table_check check;
    size_t len;

    if (file == NULL)
        fail(FAILED_FILE, "%s: %s", path, strerror(errno));
    /* One octet more than a table may have tells a longer one. */
    len = fread(table, 1, LLMNR_TABLE + 1, file);
    if (ferror(file))
        fail(FAILED_FILE, "%s: %s", path, strerror(errno));
    fclose(file);
    check = llmnr_check_table(table, len);
    if (!check.good && len > LLMNR_TABLE)
        fail(FAILED_TABLE, "%s: more than %d octets, so no name table", path, LLMNR_TABLE);
    if (!check.good)
        fail(FAILED_TABLE, "%s: no good name table: the entry at offset %zu is bad", path, check.at);
    *names = check.names;
    return len;
}

size_t table_length(const uint8_t *table, size_t at)
{
    return table[at] + 256u * table[at + 1];
}

unsigned table_kind(const uint8_t *table, size_t at)
{
    return table[at + 2] + 256u * table[at + 3];
}

bool table_is_name(unsigned kind)
{
    return kind == TABLE_UNIQUE || kind == TABLE_SHARED;
}

const uint8_t *table_name(const uint8_t *table, size_t number)
{
    size_t at = 0;

    while (!table_is_name(table_kind(table, at)) || number-- > 0)
        at += table_length(table, at);
    return table + at + TABLE_HEAD;
}
