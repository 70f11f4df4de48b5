/* Hex digits. */
#include "hex.h"

uint32_t hex_digit(uint8_t c)
{
    if (c >= '0' && c <= '9')
        return c - (uint32_t)'0';
    if (c >= 'A' && c <= 'F')
        return c - (uint32_t)'A' + 10;
    return c >= 'a' && c <= 'f' ? c - (uint32_t)'a' + 10 : 16;
}
