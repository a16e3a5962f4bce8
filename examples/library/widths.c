/* Prints the width of each word in sp, without kerns and ligatures.
 *
 * usage: widths FONT WORD..
 *
 * Shows how to call tfmset_fault_text and tfmset_characters. A character that the font doesn't have adds
 * nothing. */
#include <stdio.h>
#include <stdlib.h>
#include <tfmset.h>

int main(int words_count, char **words)
{
    static uint8_t font[131068];
    static struct tfmset_character characters[256];
    uint8_t reason[64];
    uint32_t code;
    size_t length, count;
    FILE *file;
    int i;

    if (words_count < 2 || (file = fopen(words[1], "rb")) == NULL)
        return EXIT_FAILURE;
    length = fread(font, 1, sizeof font, file);
    fclose(file);
    code = tfmset_characters(font, length, 0, characters, 256, &count);
    if (code == TFMSET_FONT_REFUSED
        && tfmset_fault_text(font, length, reason, sizeof reason, &count) == TFMSET_DONE)
        printf("font refused: %.*s\n", (int)count, (const char *)reason);
    if (code != TFMSET_DONE)
        return EXIT_FAILURE;
    for (i = 2; i < words_count; i++) {
        const unsigned char *at = (const unsigned char *)words[i];
        long width = 0;
        for (; *at != 0; at++)
            width += characters[*at].width;
        printf("%s %ld\n", words[i], width);
    }
    return EXIT_SUCCESS;
}
