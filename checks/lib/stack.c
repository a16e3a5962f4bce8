/* Prints for each function of the library how many bytes of stack a thread used that called it: at two sizes, and
 * with each encoding and record format.
 *
 * usage: stack FONT TEXT [FUNCTION]   two files, and the only function that is called, without tfmset_
 *
 * The stack is filled with a pattern before the calls, and the bytes that have changed are counted: those of the calls,
 * and those that the thread itself needs, about 4,600. Each line is `NAME CODE BYTES`, with the largest return code. */
#include <pthread.h>
#include <stdio.h>
#include <stdlib.h>
#include <string.h>
#include <sys/mman.h>
#include <tfmset.h>

enum { ROOM = 1 << 20, LINES = 1 << 16, PATTERN = 0xA5, STACK = 1 << 20 };

#define FONT font, font_length
#define SETTINGS FONT, options_at(at.size)
#define SPANS FONT, span_options_at(at.size), text, text_length, spans, sizeof spans / sizeof *spans
#define NAME (const uint8_t *)encodings[at.encoding], strlen(encodings[at.encoding])

static uint8_t font[131068], text[ROOM], bytes[32 * ROOM];
static char vector[4096] = "/Numbers [";
static const char *const encodings[] = {"t1", "bytes", "ot1", "ly1", "latin1", vector};
static size_t font_length, text_length;
static const char *only;
static struct tfmset_line lines[LINES];
static struct tfmset_item items[2 * ROOM];
static struct tfmset_pair pairs[66049];
static struct tfmset_character characters[256];
static int32_t parameters[32767];
static struct tfmset_placed placed[2 * ROOM];
static struct tfmset_uncoded uncoded[LINES];
/* In the text of checks/library.py a word, a word with a hyphen, and a long one; and a span outside of it. */
static const struct tfmset_span spans[] = {{0, 3, 3, 256}, {4, 6, 3, 45}, {56004, 60000, 3, 256}, {9, 1 << 20, 0, 256}};
static const struct tfmset_form forms[] = {{1, 1, 1}, {1, 1, 2}, {1, 1, 3}};
static struct {
    struct tfmset_encoded encoded;
    struct tfmset_fault fault;
    struct tfmset_about about;
    struct tfmset_counts counts;
    size_t length;
    uint32_t size, code;
} out;

/* What a call has: the index of its encoding, its record format, and its size in sp. */
struct settings {
    uint32_t encoding, version, size;
};

static const struct tfmset_options *options_at(uint32_t size)
{
    static struct tfmset_options options = {0, 0, TFMSET_DEFAULT_LIMIT, TFMSET_SKIP, 1};
    options.size = size;
    return &options;
}

static const struct tfmset_options *span_options_at(uint32_t size)
{
    static struct tfmset_options options = {0};
    options.size = size;
    return &options;
}

/* A function that makes a call with so many encodings and record formats, at two sizes. */
#define CALLS(name, names, versions, arguments) \
    static void *call_##name(void *given) \
    { \
        struct settings at; \
        uint32_t most = 0; \
        (void)given; \
        for (at.encoding = 0; at.encoding < names; at.encoding++) \
            for (at.version = 1; at.version <= versions; at.version++) \
                for (at.size = 0; at.size <= 786432; at.size += 786432) { \
                    uint32_t code = arguments; \
                    most = code > most ? code : most; \
                } \
        out.code = most; \
        return NULL; \
    }
#define CALL(name, arguments) CALLS(name, 1, 1, arguments)
CALL(version, (tfmset_version() == TFMSET_VERSION ? TFMSET_DONE : TFMSET_OUT_OF_RANGE))
CALL(size, tfmset_size((const uint8_t *)"10.95pt", 7, &out.size))
CALLS(encode, 6, 1, tfmset_encode(NAME, text, text_length, bytes, sizeof bytes, NULL, 0, uncoded, LINES, &out.encoded))
CALL(check, tfmset_check(FONT, &out.fault))
CALL(fault_text, tfmset_fault_text(FONT, bytes, sizeof bytes, &out.length))
CALL(font, tfmset_font(FONT, at.size, &out.about))
CALL(characters, tfmset_characters(FONT, at.size, characters, 256, &out.length))
CALL(parameters, tfmset_parameters(FONT, at.size, parameters, 32767, &out.length))
CALL(pairs, tfmset_pairs(FONT, at.size, pairs, 66049, &out.length))
CALL(header_text, tfmset_header_text(FONT, TFMSET_FAMILY, bytes, sizeof bytes, &out.length))
CALL(set, tfmset_set(SETTINGS, text, text_length, lines, LINES, items, 2 * ROOM, &out.counts))
CALL(widths, tfmset_widths(SETTINGS, text, text_length, lines, LINES, &out.counts))
CALLS(records, 6, 3, tfmset_records(SETTINGS, NAME, text, text_length, &forms[at.version - 1], bytes, sizeof bytes,
                                    &out.length))
CALL(prepare, tfmset_prepare(FONT, at.size, bytes, sizeof bytes, &out.length))
CALL(spans, tfmset_spans(SPANS, lines, LINES, &out.counts))
CALL(span_items, tfmset_span_items(SPANS, lines, LINES, placed, 2 * ROOM, &out.counts))
CALL(refusal_text, tfmset_refusal_text(&lines[0], bytes, sizeof bytes, &out.length))

static size_t length_of(const char *name, uint8_t *content, size_t room)
{
    FILE *file = fopen(name, "rb");
    size_t length = file == NULL ? 0 : fread(content, 1, room, file);
    if (length == 0)
        exit(2);
    fclose(file);
    return length;
}

static void measure(const char *name, void *(*call)(void *))
{
    uint8_t *stack = mmap(NULL, STACK, PROT_READ | PROT_WRITE, MAP_PRIVATE | MAP_ANONYMOUS, -1, 0);
    pthread_attr_t attributes;
    pthread_t thread;
    size_t unused = 0;
    if (stack == MAP_FAILED)
        exit(2);
    memset(stack, PATTERN, STACK);
    out.code = 99;
    if (pthread_attr_init(&attributes) != 0 || pthread_attr_setstack(&attributes, stack, STACK) != 0
        || pthread_create(&thread, &attributes, call, NULL) != 0)
        exit(2);
    pthread_join(thread, NULL);
    while (unused < STACK && stack[unused] == PATTERN)
        unused++;
    printf("%s %u %zu\n", name, (unsigned)out.code, STACK - unused);
    munmap(stack, STACK);
}

#define MEASURE(name) (only == NULL || strcmp(only, #name) == 0 ? measure(#name, call_##name) : (void)0)

int main(int count, char **arguments)
{
    int code, at = (int)strlen(vector);
    if (count < 3)
        return 2;
    /* An encoding vector in which each code has the character with its number. */
    for (code = 0; code < 256; code++)
        at += sprintf(vector + at, "/uni%04X", code);
    strcpy(vector + at, "] def");
    font_length = length_of(arguments[1], font, sizeof font);
    text_length = length_of(arguments[2], text, sizeof text);
    only = count > 3 ? arguments[3] : NULL;
    MEASURE(version);
    MEASURE(size);
    MEASURE(encode);
    MEASURE(check);
    MEASURE(fault_text);
    MEASURE(font);
    MEASURE(characters);
    MEASURE(parameters);
    MEASURE(pairs);
    MEASURE(header_text);
    MEASURE(set);
    MEASURE(widths);
    MEASURE(records);
    MEASURE(prepare);
    MEASURE(spans);
    MEASURE(span_items);
    MEASURE(refusal_text);
    return 0;
}
