/* Prints a line for each word of a text: its width in points, and for each of its characters the bytes of the
 * text that the character comes from.
 *
 * usage: words FONT < TEXT   TEXT is read until it has 65,536 bytes. The characters of a word with more than
 * 1,024 items aren't printed.
 *
 * `main` sets all words in one call, which returns their widths. A program that gets its words one by one
 * prepares the font once, and sets each word in a call of its own, as `print_word` does. */
#include <stdio.h>
#include <stdlib.h>
#include <tfmset.h>

enum { LONGEST = 65536, LARGEST_FONT = 131068, MOST_ITEMS = 1024 };

static uint8_t font[LARGEST_FONT], text[LONGEST];
static struct tfmset_span words[LONGEST / 2];
static struct tfmset_line lines[LONGEST / 2];

/* Ends the program with a message. */
static void stop(const char *message)
{
    fprintf(stderr, "words: %s\n", message);
    exit(EXIT_FAILURE);
}

/* Finds the words of the text. Returns their number. */
static size_t find_words(size_t length)
{
    size_t count = 0, at = 0, start;
    while (at < length) {
        for (start = at; at < length && text[at] > ' '; at++) {
        }
        if (at > start) {
            words[count].offset = start;
            words[count].length = at - start;
            words[count].edges = TFMSET_LEFT_EDGE | TFMSET_RIGHT_EDGE;
            words[count++].hyphen = TFMSET_NO_HYPHEN;
        }
        at++;
    }
    return count;
}

/* Returns the table of the font, and sets its length. The caller frees the table. */
static uint8_t *prepare(size_t font_length, size_t *length)
{
    uint8_t *table;
    if (tfmset_prepare(font, font_length, 0, NULL, 0, length) != TFMSET_NO_ROOM)
        stop("the font is refused");
    table = malloc(*length);
    if (table == NULL || tfmset_prepare(font, font_length, 0, table, *length, length) != TFMSET_DONE)
        stop("not enough memory");
    return table;
}

/* Prints the bytes of each character of a word. */
static void print_word(const uint8_t *table, size_t table_length, size_t length,
                       const struct tfmset_span *word)
{
    static struct tfmset_placed items[MOST_ITEMS];
    const struct tfmset_options options = {0};
    struct tfmset_line line;
    struct tfmset_counts counts;
    uint32_t code;
    size_t i;
    code = tfmset_span_items(table, table_length, &options, text, length, word, 1, &line, 1, items, MOST_ITEMS,
                             &counts);
    if (code == TFMSET_NO_ROOM) {
        printf(" more than %d items", MOST_ITEMS);
        return;
    }
    if (code != TFMSET_DONE)
        stop("not enough memory");
    for (i = 0; i < counts.items; i++)
        if (items[i].kind == TFMSET_CHARACTER)
            printf(" %.*s", (int)items[i].length, (const char *)text + items[i].offset);
}

int main(int count, char **arguments)
{
    const struct tfmset_options options = {0};
    struct tfmset_counts counts;
    size_t font_length, table_length, length, i;
    uint8_t *table;
    FILE *file;

    if (count != 2)
        stop("usage: words FONT < TEXT");
    if ((file = fopen(arguments[1], "rb")) == NULL)
        stop("the font can't be opened");
    font_length = fread(font, 1, sizeof font, file);
    fclose(file);
    length = fread(text, 1, sizeof text, stdin);
    table = prepare(font_length, &table_length);
    if (tfmset_spans(table, table_length, &options, text, length, words, find_words(length), lines, LONGEST / 2,
                     &counts) != TFMSET_DONE)
        stop("not enough memory");
    for (i = 0; i < counts.lines; i++) {
        if (lines[i].refusal == TFMSET_SET)
            printf("%6.2f ", (double)lines[i].width / 65536);
        else
            printf("refused %u", (unsigned)lines[i].refusal);
        print_word(table, table_length, length, &words[i]);
        putchar('\n');
    }
    free(table);
    return EXIT_SUCCESS;
}
