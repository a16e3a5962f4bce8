/* Calls the library for C with guarded arrays, in threads, and with allocations that fail.
 *
 * usage: library_lines FONT SIZE LIMIT POLICY TEXT [more]   FONT and TEXT are files, the others are numbers
 *
 * Prints the records of the lines in record format 2, put together from the results of tfmset_set, and then
 * the results of tfmset_records in formats 1 and 2. The words of the text are set as spans, too, with the font
 * and with its table. With `more` it first lets the first allocation of a function fail, then the second, and
 * so on, in one call each, and then again with all allocations after it, and prints the number of allocations
 * of each function on standard error; then eight threads call the library concurrently. After each call
 * nothing that it allocated may be left. Each result that isn't as the header says is printed on standard
 * error, and the exit status is then 1.
 *
 * Each array that the library writes to ends right before a page that can't be accessed, and the memory that
 * it reads is in pages that can't be written to. The program is linked with --wrap for malloc, realloc and
 * free. */
#include <pthread.h>
#include <stdio.h>
#include <stdlib.h>
#include <string.h>
#include <sys/mman.h>
#include <tfmset.h>
#include <unistd.h>

enum { THREADS = 8, ROUNDS = 20, PATTERN = 0xA5 };

struct text {
    const uint8_t *bytes;
    size_t length;
};

static struct text font, text;
static struct tfmset_options options;
static int failed;

static void must(int right, const char *what)
{
    if (right)
        return;
    fprintf(stderr, "FAILED  %s\n", what);
    __atomic_store_n(&failed, 1, __ATOMIC_SEQ_CST);
}

/* Allocations. `granted` is the number of allocations that still succeed, or -1 if all do. The one after them
 * fails, and with `all_fail` all that follow fail, too. `failures` is the number of allocations that failed,
 * and `allocated` the number of blocks that aren't freed yet. */

static _Thread_local long granted = -1, failures, allocated;
static _Thread_local int all_fail;

void *__real_malloc(size_t length);
void *__real_realloc(void *old, size_t length);
void __real_free(void *old);

static int fails(void)
{
    if (granted < 0 || granted-- > 0)
        return 0;
    granted = all_fail ? 0 : -1;
    failures++;
    return 1;
}

void *__wrap_malloc(size_t length)
{
    void *new = fails() ? NULL : __real_malloc(length);
    allocated += new != NULL;
    return new;
}

void *__wrap_realloc(void *old, size_t length)
{
    void *new = fails() ? NULL : __real_realloc(old, length);
    allocated += old == NULL && new != NULL;
    return new;
}

void __wrap_free(void *old)
{
    allocated -= old != NULL;
    __real_free(old);
}

/* Calls a function. When it returns, it has to have freed all that it allocated. */
#define CALLED(name, arguments) (allocated = 0, freed(tfmset_##name arguments, #name " frees its memory"))

static uint32_t freed(uint32_t code, const char *what)
{
    must(allocated == 0, what);
    return code;
}

/* Guarded arrays. */

struct array {
    uint8_t *begin, *at;
    size_t inside, length, page;
};

static struct array array_of(size_t length)
{
    struct array array;
    array.page = (size_t)sysconf(_SC_PAGESIZE);
    array.length = length;
    array.inside = (length + array.page - 1) / array.page * array.page;
    array.begin = mmap(NULL, array.inside + 2 * array.page, PROT_NONE, MAP_PRIVATE | MAP_ANONYMOUS, -1, 0);
    if (array.begin == MAP_FAILED)
        exit(2);
    mprotect(array.begin + array.page, array.inside, PROT_READ | PROT_WRITE);
    memset(array.begin + array.page, PATTERN, array.inside);
    array.at = array.begin + array.page + array.inside - length;
    return array;
}

/* Whether only the first `first` bytes were written to. */
static int is_kept(const struct array *array, size_t first)
{
    const uint8_t *at, *end = array->at + array->length;
    if (first > array->length)
        first = array->length;
    for (at = array->begin + array->page; at < end; at++)
        if (*at != PATTERN && (at < array->at || at >= array->at + first))
            return 0;
    return 1;
}

static void unmap(struct array *array)
{
    munmap(array->begin, array->inside + 2 * array->page);
}

/* Returns the contents of a file, in pages that can only be read. */
static struct text file_of(const char *name)
{
    FILE *file = fopen(name, "rb");
    struct array array;
    struct text content;
    long length;
    if (file == NULL || fseek(file, 0, SEEK_END) != 0 || (length = ftell(file)) < 0)
        exit(2);
    rewind(file);
    array = array_of((size_t)length);
    if (fread(array.at, 1, (size_t)length, file) != (size_t)length)
        exit(2);
    fclose(file);
    mprotect(array.begin + array.page, array.inside, PROT_READ);
    content.bytes = array.at;
    content.length = (size_t)length;
    return content;
}

/* The calls, with arrays of the given lengths. */

struct set {
    struct array lines, items;
    struct tfmset_counts counts;
    uint32_t code;
};

static const struct tfmset_counts untouched = {77, 88};

static struct set set_with(size_t lines, size_t items)
{
    struct set set;
    set.lines = array_of(lines * sizeof(struct tfmset_line));
    set.items = array_of(items * sizeof(struct tfmset_item));
    set.counts = untouched;
    set.code = CALLED(set, (font.bytes, font.length, &options, text.bytes, text.length,
                            (struct tfmset_line *)set.lines.at, lines,
                            (struct tfmset_item *)set.items.at, items, &set.counts));
    return set;
}

static struct set widths_with(size_t lines)
{
    struct set set;
    set.lines = array_of(lines * sizeof(struct tfmset_line));
    set.items = array_of(0);
    set.counts = untouched;
    set.code = CALLED(widths, (font.bytes, font.length, &options, text.bytes, text.length,
                               (struct tfmset_line *)set.lines.at, lines, &set.counts));
    return set;
}

/* The words of the text as spans, and the table of the font, in pages that can only be read. */
static struct tfmset_span *words;
static size_t word_count;
static struct text table;

#define SPANS(given) (given)->bytes, (given)->length, &plain, text.bytes, text.length, words, word_count

static struct set spans_with(const struct text *given, size_t lines)
{
    struct tfmset_options plain = {options.call_limit, options.size, options.limit, 0, 0};
    struct set set;
    set.lines = array_of(lines * sizeof(struct tfmset_line));
    set.items = array_of(0);
    set.counts = untouched;
    set.code = CALLED(spans, (SPANS(given), (struct tfmset_line *)set.lines.at, lines, &set.counts));
    return set;
}

static struct set span_items_with(const struct text *given, size_t lines, size_t items)
{
    struct tfmset_options plain = {options.call_limit, options.size, options.limit, 0, 0};
    struct set set;
    set.lines = array_of(lines * sizeof(struct tfmset_line));
    set.items = array_of(items * sizeof(struct tfmset_placed));
    set.counts = untouched;
    set.code = CALLED(span_items, (SPANS(given), (struct tfmset_line *)set.lines.at, lines,
                                   (struct tfmset_placed *)set.items.at, items, &set.counts));
    return set;
}

struct output {
    struct array bytes;
    size_t length;
    uint32_t code;
};

static struct output records_as(const char *encoding, uint32_t version, size_t length)
{
    struct tfmset_form form = {1, 1, 0};
    struct output output;
    form.version = version;
    output.bytes = array_of(length);
    output.length = 77;
    output.code = CALLED(records, (font.bytes, font.length, &options, (const uint8_t *)encoding,
                                   encoding == NULL ? 0 : strlen(encoding), text.bytes, text.length, &form,
                                   output.bytes.at, length, &output.length));
    return output;
}

static struct output records_with(uint32_t version, size_t length)
{
    return records_as(NULL, version, length);
}

/* An encoding vector in which each code has the character with its number. */
static char vector[4096];

static void make_vector(void)
{
    int code, at = sprintf(vector, "/Numbers [");
    for (code = 0; code < 256; code++)
        at += sprintf(vector + at, "/uni%04X", code);
    sprintf(vector + at, "] def");
}

/* With the encoding `bytes`, and of printable ASCII with Latin 1 and with the vector, the records are those without an
 * encoding. */
static struct output encoded_records_with(uint32_t version, size_t length)
{
    const char *encoding = version == 1 ? "latin1" : vector;
    size_t i;
    for (i = 0; i < text.length; i++)
        if (text.bytes[i] != '\n' && (text.bytes[i] < 32 || text.bytes[i] > 126))
            encoding = "bytes";
    return records_as(encoding, version, length);
}

static struct output table_with(size_t length)
{
    struct output output;
    output.bytes = array_of(length);
    output.length = 77;
    output.code = CALLED(prepare, (font.bytes, font.length, options.size, output.bytes.at, length, &output.length));
    return output;
}

static void unmap_set(struct set *set)
{
    unmap(&set->lines);
    unmap(&set->items);
}

static int is_same_line(const struct tfmset_line *one, const struct tfmset_line *other)
{
    return one->width == other->width && one->first == other->first && one->count == other->count
        && one->place == other->place && one->steps == other->steps && one->refusal == other->refusal
        && one->code == other->code;
}

/* Whether two results have the same lines, and, if `with_items`, the same items. */
static int is_same(const struct set *one, const struct set *other, int with_items)
{
    const struct tfmset_line *left = (const struct tfmset_line *)one->lines.at;
    const struct tfmset_line *right = (const struct tfmset_line *)other->lines.at;
    size_t i;
    for (i = 0; i < one->counts.lines; i++)
        if (!is_same_line(&left[i], &right[i]))
            return 0;
    return !with_items
        || memcmp(one->items.at, other->items.at, one->counts.items * sizeof(struct tfmset_item)) == 0;
}

/* Lengths of arrays. */

/* Checks the return value, the counts, and that nothing else is written to. */
static void check_set(const struct set *whole, size_t lines, size_t items)
{
    struct set set = set_with(lines, items);
    int fits = lines >= whole->counts.lines && items >= whole->counts.items;
    must(set.code == (fits ? TFMSET_DONE : TFMSET_NO_ROOM), "code of set");
    must(set.counts.lines == whole->counts.lines && set.counts.items == whole->counts.items, "counts of set");
    must(is_kept(&set.lines, set.counts.lines * sizeof(struct tfmset_line)), "other lines after set");
    must(is_kept(&set.items, set.counts.items * sizeof(struct tfmset_item)), "other items after set");
    must(!fits || is_same(whole, &set, 1), "set returns the same with other lengths");
    unmap_set(&set);
}

static void check_widths(const struct set *whole, size_t lines)
{
    struct set set = widths_with(lines);
    int fits = lines >= whole->counts.lines;
    must(set.code == (fits ? TFMSET_DONE : TFMSET_NO_ROOM), "code of widths");
    must(set.counts.lines == whole->counts.lines && set.counts.items == whole->counts.items,
         "counts of widths");
    must(is_kept(&set.lines, set.counts.lines * sizeof(struct tfmset_line)), "other lines after widths");
    must(!fits || is_same(whole, &set, 0), "widths returns the lines of set");
    unmap_set(&set);
}

/* Whether two results of spans are the same. */
static int is_same_span_items(const struct set *one, const struct set *other)
{
    const struct tfmset_placed *left = (const struct tfmset_placed *)one->items.at;
    const struct tfmset_placed *right = (const struct tfmset_placed *)other->items.at;
    size_t i;
    for (i = 0; i < one->counts.items; i++)
        if (left[i].offset != right[i].offset || left[i].length != right[i].length || left[i].kind != right[i].kind
            || left[i].code != right[i].code || left[i].width != right[i].width)
            return 0;
    return is_same(one, other, 0);
}

static void check_spans(const struct set *whole, const struct text *given, size_t lines, size_t items)
{
    struct set set = span_items_with(given, lines, items), widths = spans_with(given, lines);
    int has_lines = lines >= whole->counts.lines, fits = has_lines && items >= whole->counts.items;
    must(set.code == (fits ? TFMSET_DONE : TFMSET_NO_ROOM), "code of span_items");
    must(widths.code == (has_lines ? TFMSET_DONE : TFMSET_NO_ROOM), "code of spans");
    must(memcmp(&set.counts, &whole->counts, sizeof set.counts) == 0, "counts of span_items");
    must(memcmp(&widths.counts, &whole->counts, sizeof set.counts) == 0, "counts of spans");
    must(is_kept(&set.lines, set.counts.lines * sizeof(struct tfmset_line)), "other lines after span_items");
    must(is_kept(&widths.lines, set.counts.lines * sizeof(struct tfmset_line)), "other lines after spans");
    must(is_kept(&set.items, set.counts.items * sizeof(struct tfmset_placed)), "other items after span_items");
    must(!fits || is_same_span_items(whole, &set), "span_items returns the same with other lengths");
    must(!has_lines || is_same(whole, &widths, 0), "spans returns the lines of span_items");
    unmap_set(&set);
    unmap_set(&widths);
}

static void find_words(void)
{
    const uint8_t *end = text.bytes + text.length, *at = text.bytes, *start;
    words = malloc((text.length / 2 + 1) * sizeof *words);
    for (; at < end; at++) {
        for (start = at; at < end && *at > ' '; at++) {
        }
        if (at > start) {
            const struct tfmset_span word = {(size_t)(start - text.bytes), (size_t)(at - start), 3, TFMSET_NO_HYPHEN};
            words[word_count++] = word;
        }
    }
}

/* Makes the table, and sets the words into arrays of exactly the necessary lengths, with the font and with it. */
static struct set whole_spans(void)
{
    struct output none = table_with(0), output = table_with(none.length), less = table_with(none.length - 1);
    struct set start, whole;
    must(none.code == TFMSET_NO_ROOM && less.code == TFMSET_NO_ROOM && output.code == TFMSET_DONE, "codes of prepare");
    must(is_kept(&less.bytes, 0), "bytes after prepare without room");
    mprotect(output.bytes.begin + output.bytes.page, output.bytes.inside, PROT_READ);
    table.bytes = output.bytes.at;
    table.length = output.length;
    find_words();
    start = span_items_with(&font, 0, 0);
    whole = span_items_with(&font, start.counts.lines, start.counts.items);
    must(whole.code == TFMSET_DONE && whole.counts.lines == word_count, "span_items with arrays of the exact lengths");
    check_spans(&whole, &table, word_count, whole.counts.items);
    check_spans(&whole, &font, word_count + 2, whole.counts.items + 3);
    if (word_count > 0)
        check_spans(&whole, &table, word_count - 1, whole.counts.items);
    if (whole.counts.items > 0)
        check_spans(&whole, &table, word_count, whole.counts.items - 1);
    unmap_set(&start);
    unmap(&none.bytes);
    unmap(&less.bytes);
    return whole;
}

static void check_output(struct output output, const struct output *whole, size_t length)
{
    int fits = length >= whole->length;
    must(output.code == (fits ? TFMSET_DONE : TFMSET_NO_ROOM), "code of records");
    must(output.length == whole->length, "length of records");
    must(is_kept(&output.bytes, output.length), "other bytes after records");
    must(!fits || memcmp(output.bytes.at, whole->bytes.at, whole->length) == 0, "records are the same");
    unmap(&output.bytes);
}

static void check_records(uint32_t version, const struct output *whole, size_t length)
{
    check_output(records_with(version, length), whole, length);
    check_output(encoded_records_with(version, length), whole, length);
}

/* Sets the lines into arrays of exactly the lengths that are returned for arrays of length 0. */
static struct set whole_set(void)
{
    struct set none = set_with(0, 0), whole;
    must(none.code == (none.counts.lines > 0 ? TFMSET_NO_ROOM : TFMSET_DONE), "set with arrays of length 0");
    whole = set_with(none.counts.lines, none.counts.items);
    must(whole.code == TFMSET_DONE, "set with arrays of the exact lengths");
    unmap_set(&none);
    return whole;
}

static struct output whole_records(uint32_t version)
{
    struct output none = records_with(version, 0), whole;
    must(none.code == (none.length > 0 ? TFMSET_NO_ROOM : TFMSET_DONE), "records with an array of length 0");
    whole = records_with(version, none.length);
    must(whole.code == TFMSET_DONE, "records with an array of the exact length");
    unmap(&none.bytes);
    return whole;
}

static void check_lengths(const struct set *whole, const struct output *records)
{
    size_t lines = whole->counts.lines, items = whole->counts.items, length;
    uint32_t version;
    check_set(whole, lines, items);
    check_set(whole, lines + 2, items + 3);
    check_set(whole, lines, 0);
    check_set(whole, 0, items);
    check_widths(whole, 0);
    check_widths(whole, lines);
    check_widths(whole, lines + 2);
    if (lines > 0) {
        check_set(whole, lines - 1, items);
        check_widths(whole, lines - 1);
    }
    if (items > 0)
        check_set(whole, lines, items - 1);
    for (version = 1; version <= 2; version++) {
        length = records[version - 1].length;
        check_records(version, &records[version - 1], 0);
        check_records(version, &records[version - 1], length + 5);
        if (length > 0)
            check_records(version, &records[version - 1], length - 1);
    }
}

/* Threads: each calls with its own arrays, and has to get the same results. */

struct expected {
    const struct set *whole, *spans;
    const struct output *records;
};

static void *call_again(void *given)
{
    const struct expected *expected = given;
    int i;
    for (i = 0; i < ROUNDS; i++) {
        check_set(expected->whole, expected->whole->counts.lines, expected->whole->counts.items);
        check_widths(expected->whole, expected->whole->counts.lines);
        check_records(2, &expected->records[1], expected->records[1].length);
        check_spans(expected->spans, &table, word_count, expected->spans->counts.items);
    }
    return NULL;
}

static void check_threads(struct expected *expected)
{
    pthread_t threads[THREADS];
    int i;
    for (i = 0; i < THREADS; i++)
        must(pthread_create(&threads[i], NULL, call_again, expected) == 0, "a thread is started");
    for (i = 0; i < THREADS; i++)
        pthread_join(threads[i], NULL);
}

/* Failed allocations: each function returns whether a call reported one, with its struct unchanged. */

static int set_reports_failure(const struct expected *expected)
{
    struct set set = set_with(expected->whole->counts.lines, expected->whole->counts.items);
    int reported = set.code == TFMSET_OUT_OF_MEMORY && memcmp(&set.counts, &untouched, sizeof untouched) == 0;
    must(reported || is_same(expected->whole, &set, 1), "set is complete, or reports a failed allocation");
    unmap_set(&set);
    return reported;
}

static int widths_reports_failure(const struct expected *expected)
{
    struct set set = widths_with(expected->whole->counts.lines);
    int reported = set.code == TFMSET_OUT_OF_MEMORY && memcmp(&set.counts, &untouched, sizeof untouched) == 0;
    must(reported || is_same(expected->whole, &set, 0), "widths is complete, or reports a failed allocation");
    unmap_set(&set);
    return reported;
}

static int spans_report_failure(struct set set, const struct expected *expected, int with_items)
{
    int reported = set.code == TFMSET_OUT_OF_MEMORY && memcmp(&set.counts, &untouched, sizeof untouched) == 0;
    must(reported || (with_items ? is_same_span_items(expected->spans, &set) : is_same(expected->spans, &set, 0)),
         "spans are complete, or report a failed allocation");
    unmap_set(&set);
    return reported;
}

static int spans_reports_failure(const struct expected *expected)
{
    return spans_report_failure(spans_with(&font, word_count), expected, 0);
}

static int span_items_reports_failure(const struct expected *expected)
{
    return spans_report_failure(span_items_with(&font, word_count, expected->spans->counts.items), expected, 1);
}

static int prepared_spans_reports_failure(const struct expected *expected)
{
    return spans_report_failure(spans_with(&table, word_count), expected, 0);
}

static int prepare_reports_failure(const struct expected *expected)
{
    struct output output = table_with(table.length);
    int reported = output.code == TFMSET_OUT_OF_MEMORY && output.length == 77 && is_kept(&output.bytes, 0);
    (void)expected;
    must(reported || memcmp(output.bytes.at, table.bytes, table.length) == 0, "prepare is complete, or changes nothing");
    unmap(&output.bytes);
    return reported;
}

static int output_reports_failure(struct output output, const struct expected *expected)
{
    const struct output *whole = &expected->records[1];
    int reported = output.code == TFMSET_OUT_OF_MEMORY && output.length == 77;
    must(reported || memcmp(output.bytes.at, whole->bytes.at, whole->length) == 0,
         "records is complete, or reports a failed allocation");
    unmap(&output.bytes);
    return reported;
}

static int records_reports_failure(const struct expected *expected)
{
    return output_reports_failure(records_with(2, expected->records[1].length), expected);
}

static int encoded_records_reports_failure(const struct expected *expected)
{
    return output_reports_failure(encoded_records_with(2, expected->records[1].length), expected);
}

static int has_text(const uint8_t *at, size_t length, const char *wanted)
{
    size_t i, count = strlen(wanted);
    for (i = 0; i + count <= length; i++)
        if (memcmp(at + i, wanted, count) == 0)
            return 1;
    return 0;
}

/* Lines with a character without codes, which is skipped, and with a soft hyphen. */
static int uncoded_reports_failure(const struct expected *expected)
{
    static const uint8_t lines[] = "af\342\202\254fi x\nsoft\302\255ly\n";
    struct tfmset_options skipping = options;
    struct tfmset_form form = {1, 1, 1};
    struct array array = array_of(1024);
    size_t length = 77;
    uint32_t code;
    skipping.policy = TFMSET_SKIP;
    code = CALLED(records, (font.bytes, font.length, &skipping, (const uint8_t *)"t1", 2, lines, sizeof lines - 1,
                            &form, array.at, 1024, &length));
    (void)expected;
    must(code == TFMSET_DONE || (code == TFMSET_OUT_OF_MEMORY && length == 77),
         "records is complete, or reports a failed allocation of a line with a skipped character");
    must(code != TFMSET_DONE || has_text(array.at, length, " u20AC c"), "the character is skipped");
    unmap(&array);
    return code == TFMSET_OUT_OF_MEMORY;
}

static int font_reports_failure(const struct expected *expected)
{
    struct tfmset_about about;
    (void)expected;
    return CALLED(font, (font.bytes, font.length, options.size, &about)) == TFMSET_OUT_OF_MEMORY;
}

static int check_reports_failure(const struct expected *expected)
{
    struct tfmset_fault fault;
    (void)expected;
    return CALLED(check, (font.bytes, font.length, &fault)) == TFMSET_OUT_OF_MEMORY;
}

/* A function that reports a list about the font, and changes nothing if an allocation fails. */
#define LIST_REPORTS_FAILURE(name, type, more) \
    static int name##_reports_failure(const struct expected *expected) \
    { \
        static type list[256]; \
        size_t count = 77; \
        uint32_t code = CALLED(name, (font.bytes, font.length, more list, 256, &count)); \
        (void)expected; \
        must(code != TFMSET_OUT_OF_MEMORY || count == 77, #name " changes nothing, or has a result"); \
        return code == TFMSET_OUT_OF_MEMORY; \
    }
#define SIZE options.size,
#define WHICH TFMSET_CODING_SCHEME,
LIST_REPORTS_FAILURE(characters, struct tfmset_character, SIZE)
LIST_REPORTS_FAILURE(parameters, int32_t, SIZE)
LIST_REPORTS_FAILURE(pairs, struct tfmset_pair, SIZE)
LIST_REPORTS_FAILURE(header_text, uint8_t, WHICH)

/* The text of a font that is cut. */
static int fault_text_reports_failure(const struct expected *expected)
{
    uint8_t list[64];
    size_t count = 77;
    uint32_t code = CALLED(fault_text, (font.bytes, 23, list, sizeof list, &count));
    (void)expected;
    must(code == TFMSET_OUT_OF_MEMORY ? count == 77 : has_text(list, count, "1 truncated, 24 bytes needed"),
         "fault_text changes nothing, or has a text");
    return code == TFMSET_OUT_OF_MEMORY;
}

static int refusal_text_reports_failure(const struct expected *expected)
{
    struct tfmset_line line = {0, 0, 0, 7, 0, TFMSET_MISSING, 65};
    uint8_t list[64];
    size_t count = 77;
    uint32_t code = CALLED(refusal_text, (&line, list, sizeof list, &count));
    (void)expected;
    must(code == TFMSET_OUT_OF_MEMORY ? count == 77 : count == 12 && has_text(list, count, "missing 7 65"),
         "refusal_text changes nothing, or has a text");
    return code == TFMSET_OUT_OF_MEMORY;
}

static void check_memory(const struct expected *expected)
{
    static int (*const calls[])(const struct expected *) = {
        set_reports_failure, widths_reports_failure, records_reports_failure, encoded_records_reports_failure,
        uncoded_reports_failure, font_reports_failure, check_reports_failure, characters_reports_failure,
        parameters_reports_failure, pairs_reports_failure, header_text_reports_failure, fault_text_reports_failure,
        refusal_text_reports_failure, spans_reports_failure, span_items_reports_failure, prepared_spans_reports_failure,
        prepare_reports_failure};
    const uint8_t *accented = (const uint8_t *)"\303\244a";
    const char *const encodings[] = {"t1", vector};
    struct tfmset_encoded encoded;
    uint32_t points = 0;
    uint8_t codes[3];
    size_t call;
    granted = 0;
    must(CALLED(size, ((const uint8_t *)"12pt", 4, &points)) == TFMSET_DONE && points == 786432, "a size is read");
    for (call = 0; call < 2; call++)
        must(CALLED(encode, ((const uint8_t *)encodings[call], strlen(encodings[call]), accented, 3, codes, 3, NULL, 0,
                             NULL, 0, &encoded)) == TFMSET_DONE
             && encoded.count == 2 && codes[0] == 228 && codes[1] == 'a', "a text is encoded without memory");
    for (call = 0; call < sizeof calls / sizeof *calls; call++) {
        for (all_fail = 0; all_fail < 2; all_fail++) {
            long turn, reported;
            for (turn = 0;; turn++) {
                failures = 0;
                granted = turn;
                reported = calls[call](expected);
                granted = -1;
                if (failures == 0)
                    break;
                must(reported, "a failed allocation is reported");
            }
            must(reported == 0, "a call without a failed allocation succeeds");
            fprintf(stderr, "%ld%c", turn, call + all_fail == sizeof calls / sizeof *calls ? '\n' : ' ');
        }
    }
}

/* Prints records in format 2, put together from the lines and items. */
static void print_records(const struct set *set)
{
    const struct tfmset_line *lines = (const struct tfmset_line *)set->lines.at;
    const struct tfmset_item *items = (const struct tfmset_item *)set->items.at, *item;
    size_t i;
    for (i = 0; i < set->counts.lines; i++) {
        const struct tfmset_line *line = &lines[i];
        printf("1:%zu ", i + 1);
        if (line->refusal == TFMSET_MISSING)
            printf("refused missing %zu %u", line->place, (unsigned)line->code);
        else if (line->refusal == TFMSET_TOO_LONG)
            printf("refused too-long %zu", line->place);
        else if (line->refusal == TFMSET_TOO_MANY_STEPS)
            printf("refused steps %u", (unsigned)options.limit);
        else
            printf("set %lld steps %u", (long long)line->width, (unsigned)line->steps);
        for (item = items + line->first; item < items + line->first + line->count; item++) {
            if (item->kind == TFMSET_CHARACTER)
                printf(" c%u=%ld", (unsigned)item->code, (long)item->width);
            else if (item->kind == TFMSET_SKIPPED)
                printf(" m%u", (unsigned)item->code);
            else
                printf(" %c%ld", item->kind == TFMSET_KERN ? 'k' : 's', (long)item->width);
        }
        putchar('\n');
    }
}

int main(int count, char **arguments)
{
    struct set whole, spans;
    struct output records[2];
    struct expected expected;
    if (count < 6)
        return 2;
    font = file_of(arguments[1]);
    options.size = (uint32_t)strtoul(arguments[2], NULL, 10);
    options.limit = (uint32_t)strtoul(arguments[3], NULL, 10);
    options.policy = (uint32_t)strtoul(arguments[4], NULL, 10);
    text = file_of(arguments[5]);
    make_vector();

    whole = whole_set();
    spans = whole_spans();
    records[0] = whole_records(1);
    records[1] = whole_records(2);
    expected.whole = &whole;
    expected.spans = &spans;
    expected.records = records;
    check_lengths(&whole, records);
    if (count > 6) {
        check_memory(&expected);
        check_threads(&expected);
    }
    print_records(&whole);
    fwrite(records[0].bytes.at, 1, records[0].length, stdout);
    fwrite(records[1].bytes.at, 1, records[1].length, stdout);
    return failed;
}
