/*
 * words.h - names, addresses and masks as words, and the messages with which the programs end.
 *
 * A name in words has its labels with dots between them. \DDD is the octet with that decimal number; a dot alone is the root. Octets that
 * are not plain ASCII are written as \DDD; read as they stand, they are taken too. A mask in words has the numbers of its interfaces, from
 * 0 to 3 and rising, with commas between them: 0,2 is the mask 5.
 */
#ifndef WORDS_H
#define WORDS_H

#include "llmnr.h"

#define WORDS_NAME (4 * LLMNR_LONGEST + 1) /* characters of the longest name, with the zero at the end */
#define WORDS_ADDRESS 64                   /* of an address with the network interface behind it */
#define WORDS_TIME 32                      /* of a time */
#define WORDS_MASK (2 * LLMNR_INTERFACES)  /* of a mask */

/* Exit statuses of indicator and make_table. */
enum {
    FAILED_USAGE = 2,
    FAILED_FILE = 3,
    FAILED_TABLE = 4,
    FAILED_NO_PORT = 5,
    FAILED_NO_ADDRESS = 6,
    FAILED_TOO_MANY = 7,
    FAILED_TAKEN = 8,
    FAILED_SOCKET = 9,
    FAILED_LOST = 10,
    FAILED_REFUSED = 11
};

/* Each program says what it is called. */
extern const char program[];

/* Writes "PROGRAM: message" to standard error, and exits with the status. */
void fail(int status, const char *format, ...);

/* Reads a name into LLMNR_LONGEST octets. Gives how many it has; 0 if the text is no name, and then *why says why not. */
size_t words_to_name(const char *text, uint8_t *name, const char **why);

/* Reads a mask; 0 if the text is none, and then *why says why not. */
uint8_t words_to_mask(const char *text, const char **why);

/* Reads a repeat interval in milliseconds, 100 or 1000; 0 if it is neither, or NULL. */
uint16_t words_to_interval(const char *text);

/* Writes a good name, as it stands on the wire or in a table, as words: WORDS_NAME characters. */
void words_of_name(const uint8_t *name, char *text);

/* Writes a mask as words: WORDS_MASK characters. Bits 4 to 7 are not looked at. */
void words_of_mask(uint8_t mask, char *text);

/* Writes an address as words: WORDS_ADDRESS characters. One that holds on a link only gets the network interface behind it. */
void words_of_address(const llmnr_address *address, const char *port, char *text);

/* Writes the time of day, in UTC with milliseconds: WORDS_TIME characters. */
void words_of_now(char *text);

#endif
