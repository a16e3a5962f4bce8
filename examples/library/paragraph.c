/* Breaks a paragraph into lines of at most a given width. Each line takes as many words as fit.
 *
 * usage: paragraph FONT POINTS [ENCODING] < TEXT   TEXT is read until its words fill 65,536 bytes
 *
 * A word may be broken at a mark \- in the text. Its parts are then set as TeX sets those of a word that it
 * hyphenates: the hyphen belongs to the part before it, and a word that isn't broken is set as if it had no
 * mark. (At \- itself TeX makes no ligature and no kern, even if it doesn't break the word there.)
 *
 * ENCODING is the encoding of the font, for a text in UTF-8. A no-break space then is a space at which no line
 * ends. Without ENCODING, the bytes of the text are codes.
 *
 * One call returns the widths of all words and of their parts, which are spans of the text. The width of a
 * line is the sum of the widths of its words and spaces, since no ligature or kern crosses a space. */
#include <stdio.h>
#include <stdlib.h>
#include <string.h>
#include <tfmset.h>

enum { LONGEST = 65536, LARGEST_FONT = 131068, MOST_PARAMETERS = 32767, MOST_BREAKS = 64, MOST_SPANS = 2 * LONGEST };

static uint8_t font[LARGEST_FONT], text[LONGEST];
/* A span for each word, followed by two spans for each break of the word: the part before the break, with a
 * hyphen, and the part after it. */
static struct tfmset_span spans[MOST_SPANS];
static struct tfmset_line widths[MOST_SPANS];
static size_t count;
/* Whether a no-break space is before the word of a span. */
static unsigned char joined[MOST_SPANS];
/* The codes of the text, for each code the offset of its character, and the spans as spans of `codes`. */
static uint8_t codes[LONGEST];
static size_t offsets[LONGEST];
static struct tfmset_span coded[MOST_SPANS];
/* Parameters that the font doesn't have stay 0. */
static int32_t parameters[MOST_PARAMETERS];

/* Ends the program with a message. */
static void stop(const char *message)
{
    fprintf(stderr, "paragraph: %s\n", message);
    exit(EXIT_FAILURE);
}

/* Adds the span of the bytes from `start` to before `end`. */
static void add_span(size_t start, size_t end, uint32_t hyphen)
{
    if (count == MOST_SPANS)
        stop("the text has too many words and marks \\-");
    spans[count].offset = start;
    spans[count].length = end - start;
    spans[count].edges = TFMSET_LEFT_EDGE | TFMSET_RIGHT_EDGE;
    spans[count++].hyphen = hyphen;
}

/* Reads words from standard input into `text`, without their marks \-, and adds their spans. If the text is in
 * UTF-8, a no-break space also ends a word. Returns the number of bytes. */
static size_t read_words(int is_utf8)
{
    size_t length = 0, start = 0, breaks[MOST_BREAKS], found = 0, i;
    int byte, is_joined = 0, is_no_break;
    do {
        byte = length < LONGEST ? getchar() : EOF;
        is_no_break = is_utf8 && byte == 0xA0 && length > start && text[length - 1] == 0xC2;
        if (byte == '-' && length > start && text[length - 1] == '\\') {
            if (found == MOST_BREAKS)
                stop("a word has more than 64 marks \\-");
            breaks[found++] = --length;
        } else if (byte > ' ' && !is_no_break) {
            text[length++] = (uint8_t)byte;
        } else {
            length -= (size_t)is_no_break;
            if (length > start) {
                joined[count] = (unsigned char)is_joined;
                add_span(start, length, TFMSET_NO_HYPHEN);
                for (i = 0; i < found; i++) {
                    add_span(start, breaks[i], '-');
                    add_span(breaks[i], length, TFMSET_NO_HYPHEN);
                }
                is_joined = 0;
            }
            is_joined = is_joined || is_no_break;
            start = length;
            found = 0;
        }
    } while (byte != EOF);
    return length;
}

/* Encodes the text once, and finds the codes of each span. Returns the number of codes. */
static size_t encode(const char *encoding, size_t length)
{
    /* For each byte of the text, and for its end, the number of codes of the characters before it. */
    static size_t before[LONGEST + 1];
    struct tfmset_encoded encoded;
    size_t i, code = 0;
    /* The call also fails if a character has no codes, since there is no array for such characters. */
    if (tfmset_encode((const uint8_t *)encoding, strlen(encoding), text, length, codes, LONGEST, offsets, LONGEST,
                      NULL, 0, &encoded) != TFMSET_DONE)
        stop("the text can't be encoded");
    for (i = 0; i <= length; i++) {
        while (code < encoded.count && offsets[code] < i)
            code++;
        before[i] = code;
    }
    for (i = 0; i < count; i++) {
        coded[i] = spans[i];
        coded[i].offset = before[spans[i].offset];
        coded[i].length = before[spans[i].offset + spans[i].length] - coded[i].offset;
    }
    return encoded.count;
}

/* Returns the span of the next word. */
static size_t next_word(size_t word)
{
    do
        word++;
    while (word < count && spans[word].hyphen != TFMSET_NO_HYPHEN && ++word < count);
    return word;
}

/* Returns the width of a word with those that no-break spaces join to it. */
static int64_t joined_width(size_t word, int64_t space)
{
    int64_t width = widths[word].width;
    while ((word = next_word(word)) < count && joined[word])
        width += space + widths[word].width;
    return width;
}

/* Prints a span after `gap`, which is the space before it or empty. */
static void print_span(const char *gap, size_t i)
{
    fputs(gap, stdout);
    fwrite(text + spans[i].offset, 1, spans[i].length, stdout);
    if (spans[i].hyphen != TFMSET_NO_HYPHEN)
        putchar('-');
}

/* Prints the lines, each followed by its width in points. A word or part that is wider than `widest` has a
 * line to itself. Of words that are joined, only the first is broken. */
static void print_lines(int64_t space, int64_t widest)
{
    int64_t width = 0;
    size_t word, next, part, rest;
    for (word = 0; word < count; word = next) {
        next = next_word(word);
        rest = word;
        if (word > 0 && !joined[word] && width + space + joined_width(word, space) > widest) {
            for (part = next; rest == word && part > word + 1; part -= 2) {
                if (width + space + widths[part - 2].width <= widest) {
                    print_span(" ", part - 2);
                    width += space + widths[part - 2].width;
                    rest = part - 1;
                }
            }
            printf("  %.2f\n", (double)width / 65536);
            width = 0;
        } else if (word > 0) {
            width += space;
        }
        print_span(word == 0 || width == 0 ? "" : joined[word] ? "\302\240" : " ", rest);
        width += widths[rest].width;
    }
    if (count > 0)
        printf("  %.2f\n", (double)width / 65536);
}

/* Reads the font and its parameters. Returns the length of the font. */
static size_t read_font(const char *name)
{
    size_t length, found;
    FILE *file = fopen(name, "rb");
    if (file == NULL)
        stop("the font can't be opened");
    length = fread(font, 1, sizeof font, file);
    fclose(file);
    if (tfmset_parameters(font, length, 0, parameters, MOST_PARAMETERS, &found) != TFMSET_DONE)
        stop("the font is refused");
    return length;
}

int main(int argument_count, char **arguments)
{
    const struct tfmset_options options = {0};
    struct tfmset_counts counts;
    size_t length, code_count, i;

    if (argument_count < 3 || argument_count > 4)
        stop("usage: paragraph FONT POINTS [ENCODING] < TEXT");
    length = read_font(arguments[1]);
    code_count = read_words(argument_count == 4);
    code_count = encode(argument_count == 4 ? arguments[3] : "bytes", code_count);
    if (tfmset_spans(font, length, &options, codes, code_count, coded, count, widths, MOST_SPANS, &counts) !=
        TFMSET_DONE)
        stop("not enough memory");
    for (i = 0; i < count; i++) {
        if (widths[i].refusal != TFMSET_SET) {
            fprintf(stderr, "paragraph: the word at byte %zu of the words is refused, for reason %u\n",
                    spans[i].offset, (unsigned)widths[i].refusal);
            return EXIT_FAILURE;
        }
    }
    print_lines(parameters[1], (int64_t)(atof(arguments[2]) * 65536));
    return EXIT_SUCCESS;
}
