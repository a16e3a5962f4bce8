
#include <stdio.h>
int main(void)
{
    static uint8_t font[131068], text[] = TEXT;
    size_t length = fread(font, 1, sizeof font, stdin);
    struct tfmset_line *lines;
    struct tfmset_item *items;
    struct tfmset_counts counts;
    uint32_t code = set_lines(font, length, text, sizeof text - 1, &lines, &items, &counts);
    printf("%u %zu %zu %ld\n", (unsigned)code, counts.lines, counts.items, (long)lines[0].width);
    free(lines);
    free(items);
    return 0;
}
