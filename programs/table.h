/* table.h - name tables as octets (rules T of docs/RULES.md): a file of one, and its entries. */
#ifndef TABLE_H
#define TABLE_H

#include "llmnr.h"

#define TABLE_HEAD 4 /* octets of an entry before its body: its length and its kind */

/* Kinds of entries. A mask is one octet, with a bit for each interface on which the records after it serve: bit 0 for interface 0. */
enum { TABLE_UNIQUE = 1, TABLE_SHARED = 2, TABLE_A = 3, TABLE_AAAA = 4, TABLE_PTR = 5, TABLE_MASK = 6 };

/*
 * Reads a file into LLMNR_TABLE + 1 octets and checks it. Gives its length, and in *names how many names it has. Ends the program if the
 * file cannot be read or is no good table.
 */
size_t table_load(const char *path, uint8_t *table, size_t *names);

/* The length and the kind of the entry at an offset of a good table. */
size_t table_length(const uint8_t *table, size_t at);
unsigned table_kind(const uint8_t *table, size_t at);

/* Whether entries of a kind are names; if not they are records or masks. */
bool table_is_name(unsigned kind);

/* The octets of a name of a good table, by its number (T12). */
const uint8_t *table_name(const uint8_t *table, size_t number);

#endif
