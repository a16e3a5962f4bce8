/* Prints the record of `o` with the font on standard input, and with the largest numbers of a source and a line. */
#include <stdio.h>
#include <tfmset.h>
int main(void)
{
    static uint8_t font[131068], records[99];
    struct tfmset_options options = {0};
    struct tfmset_form form = {UINT64_MAX, UINT64_MAX - 1, 1};
    size_t count = 0, length = fread(font, 1, sizeof font, stdin);
    unsigned code = tfmset_records(font, length, &options, NULL, 0, (const uint8_t *)"o", 1, &form, records,
                                   sizeof records, &count);
    fwrite(records, 1, count, stdout);
    return (int)code;
}
