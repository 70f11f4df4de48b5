/* rvghash list: words in hex, one a line, into their texts. */
#include "hex.h"
#include "lines.h"

/* Reads 1 to 8 hex digits, after 0x or not; gives NULL, or what is wrong with them. */
static const char *read_hex(const uint8_t *hex, size_t length, uint32_t *word)
{
    size_t first = length > 1 && hex[0] == '0' && (hex[1] == 'x' || hex[1] == 'X') ? 2 : 0;
    if (first == length)
        return "not a number in hex";
    *word = 0;
    for (size_t i = first; i < length; i++) {
        if (hex_digit(hex[i]) > 15)
            return "not a number in hex";
        *word = *word << 4 | hex_digit(hex[i]);
    }
    return length - first > 8 ? "more than 32 bits (8 hex digits)" : NULL;
}

static const char *text_of(const uint8_t *hex, size_t length, struct turned *to)
{
    uint32_t word;
    const char *wrong = read_hex(hex, length, &word);
    if (wrong != NULL)
        return wrong;
    if (rvghash_disassemble(word, (uint8_t *)to->bytes, sizeof to->bytes, &to->length) != RVGHASH_DONE)
        return "none of the eight words";
    return NULL;
}

static enum status list(const struct arguments *arguments)
{
    return turn_lines(text_of, arguments->count, arguments->operands);
}

const struct subcommand list_command = {
    "list", NULL, "[FILE...]", "words in hex, one a line, into their texts",
    "Turns words in hex, one a line, into their texts: 0xB2862277 into vghsh.vv v4, v8, v12.\n"
    "A word has 1 to 8 hex digits, in either case, with 0x in front or without.\n" LINES_HELP,
    list,
};
