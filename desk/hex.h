/* Hex digits, as the subcommands read them. */
#ifndef HEX_H
#define HEX_H

#include <stdint.h>

/* The value of a hex digit, in either case, or 16. */
uint32_t hex_digit(uint8_t c);

#endif
