/* The library's numbers in words. */
#ifndef NUMBERS_H
#define NUMBERS_H

#include "desk.h"

/* What a number of the executor (0 to 8), of replay (14) or of links (9 and 16) means. */
const char *meaning_of(uint32_t number);

/* The same of a number that stands where an answer of the executor belongs: no other than 0 to 8 is one. */
const char *meaning_of_answer(uint32_t number);

/* Tells a number that a subcommand's call of the library cannot give at a record: an error of the command itself. */
enum status cannot_be(const char *command, const char *file, size_t record, uint32_t number);

#endif
