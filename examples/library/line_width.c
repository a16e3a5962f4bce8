/* Prints the width of one line.
 *
 * usage: line_width < FONT */
#include <stdio.h>
#include <tfmset.h>

int main(void)
{
    static uint8_t font[131068], text[] = "office ox";
    size_t length = fread(font, 1, sizeof font, stdin);
    struct tfmset_options options = {0};
    struct tfmset_line line;
    struct tfmset_counts counts;
    uint32_t code = tfmset_widths(font, length, &options, text, sizeof text - 1, &line, 1, &counts);

    if (code != TFMSET_DONE) {
        fprintf(stderr, "tfmset_widths returned %u\n", (unsigned)code);
        return 1;
    }
    if (line.refusal != TFMSET_SET) {
        fprintf(stderr, "the line is refused, for reason %u\n", (unsigned)line.refusal);
        return 1;
    }
    printf("%.2f points\n", line.width / 65536.0);
    return 0;
}
