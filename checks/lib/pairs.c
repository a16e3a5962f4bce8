/* Prints the pairs of the font on standard input, with the names of the fields in the header. */
#include <stdio.h>
#include <tfmset.h>
static struct tfmset_pair all[66049];
int main(void)
{
    static uint8_t font[131068];
    size_t i, count = 0, length = fread(font, 1, sizeof font, stdin);
    unsigned code = tfmset_pairs(font, length, 0, all, 66049, &count);
    for (i = 0; i < count; i++)
        printf("%u %u %u %d %u %u %u %u\n", all[i].left, all[i].right, all[i].action, all[i].kern, all[i].code,
               all[i].keep_left, all[i].keep_right, all[i].pass);
    return (int)code;
}
