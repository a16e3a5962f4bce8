/* Sets a text with a font from a stranger, in bounded time and memory.
 *
 * usage: stranger FONT < TEXT   TEXT is read until it has 65,536 bytes
 *
 * Any bytes may be passed as a font. A broken font is refused, with its first error. The lig/kern program of
 * an accepted font may never end. Each line therefore takes at most `limit` steps, and all lines of a call
 * take at most `call_limit` plus `limit` steps. */
#include <stdio.h>
#include <stdlib.h>
#include <tfmset.h>

enum { LONGEST = 65536, LARGEST_FONT = 131068 };

static uint8_t font[LARGEST_FONT], text[LONGEST], words[64];
static struct tfmset_line lines[LONGEST + 1];

int main(int count, char **arguments)
{
    struct tfmset_options options = {0};
    struct tfmset_counts counts;
    size_t font_length, length, i, set = 0;
    uint32_t code;
    FILE *file;

    if (count != 2 || (file = fopen(arguments[1], "rb")) == NULL)
        return EXIT_FAILURE;
    font_length = fread(font, 1, sizeof font, file);
    fclose(file);
    length = fread(text, 1, sizeof text, stdin);
    options.limit = 1000;
    options.call_limit = 1000000;
    code = tfmset_widths(font, font_length, &options, text, length, lines, LONGEST + 1, &counts);
    if (code == TFMSET_FONT_REFUSED
        && tfmset_fault_text(font, font_length, words, sizeof words, &i) == TFMSET_DONE)
        printf("the font is refused: %.*s\n", (int)i, (const char *)words);
    if (code != TFMSET_DONE)
        return EXIT_FAILURE;
    for (i = 0; i < counts.lines; i++)
        set += lines[i].refusal == TFMSET_SET;
    printf("%zu of %zu lines are set\n", set, counts.lines);
    return EXIT_SUCCESS;
}
