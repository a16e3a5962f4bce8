/* Sets the line "box" with the font on standard input. Functions with names of the toolchain are appended. */
#include <stdio.h>
#include <stdlib.h>
#include <tfmset.h>

static void called(const char *name)
{
    printf("%s is called\n", name);
    exit(1);
}

int main(void)
{
    static uint8_t font[131068], text[] = "box";
    size_t length = fread(font, 1, sizeof font, stdin);
    struct tfmset_options options = {0};
    struct tfmset_line line;
    struct tfmset_counts counts;
    uint32_t code = tfmset_widths(font, length, &options, text, 3, &line, 1, &counts);
    printf("%u %ld\n", (unsigned)code, (long)line.width);
    return 0;
}
