/* rvghash words: texts, one a line, into their words in hex. */
#include <inttypes.h>
#include <stdio.h>

#include "lines.h"

static const char *word_of(const uint8_t *text, size_t length, struct turned *to)
{
    uint32_t word;
    if (rvghash_assemble(text, length, &word) != RVGHASH_DONE)
        return "not the text of a word";
    to->length = (size_t)snprintf(to->bytes, sizeof to->bytes, "0x%08" PRIX32, word);
    return NULL;
}

static enum status words(const struct arguments *arguments)
{
    return turn_lines(word_of, arguments->count, arguments->operands);
}

const struct subcommand words_command = {
    "words", NULL, "[FILE...]", "texts, one a line, into their words in hex",
    "Turns texts, one a line, into their words in hex: vghsh.vv v4, v8, v12 into 0xB2862277.\n"
    "A text is exactly as rvghash list writes it: one space after the name, and after each comma.\n" LINES_HELP,
    words,
};
