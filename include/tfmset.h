/* SPDX-License-Identifier: MIT OR Apache-2.0 */
/* tfmset.h: the C interface of tfmset, which sets lines of text with TeX Font Metric (TFM) files.
 *
 * Example:
 *
 *     struct tfmset_character characters[256];
 *     size_t count;
 *     if (tfmset_characters(font, font_length, 0, characters, 256, &count) == TFMSET_DONE)
 *         printf("%ld\n", (long)characters['a'].width);
 *
 * Font: `font` points to the contents of a TFM file. tfmset_spans and tfmset_span_items also take a table
 * that tfmset_prepare wrote. The bytes may be arbitrary: TFMSET_FONT_REFUSED reports an invalid TFM file, but
 * not every change of a table. Each call reads a TFM file again. The library keeps nothing between two calls:
 * there is no handle, and nothing has to be freed.
 *
 * Size: `size` is from 1 to 134,217,727 scaled points, or 0 for the design size of the font. All dimensions
 * are in scaled points, of which 65,536 are one point.
 *
 * Arrays: the argument after an array is its length. A length above the number of elements in memory is
 * undefined behaviour.
 *
 * Lists: a function whose last argument is `count` writes a list to an array. After TFMSET_DONE the list is
 * at the front of the array, and `*count` is its length. After TFMSET_NO_ROOM `*count` is the length that is
 * needed, and the array is unchanged, except that of tfmset_records, whose contents are unspecified.
 *
 * Pointers: each pointer that is followed by a length may be null if the length is 0. No other pointer may be
 * null. Each pointer must be aligned for its type. Memory that a function writes to must not overlap any
 * other memory that is passed to it. Memory that is only read may overlap, and several calls may share it.
 *
 * Memory: functions free all that they allocate (with malloc and realloc) before they return. tfmset_version,
 * tfmset_size and tfmset_encode allocate nothing. Calls don't check the stack; in tests 64 KB were enough.
 *
 * Threads: any thread may call any function at any time. Don't call the library from a signal handler, or in
 * the child process after a fork of a process that has several threads.
 *
 * Time: the lig/kern program of a font, which makes ligatures and kerns, may never end. It is therefore run
 * for a limited number of steps. A step is one kern, one ligature operation or, without either, one move to
 * the next character or boundary. struct tfmset_options has limits. Choose small ones for fonts of strangers.
 *
 * Text: the bytes of a line are codes of the font, and byte 32 is a space. tfmset_encode turns a text in
 * UTF-8 into codes. tfmset_records also takes a text in UTF-8.
 *
 * Return value: each function except tfmset_version returns one of the six TFMSET_ codes below. */
#ifndef TFMSET_H
#define TFMSET_H

#include <stddef.h>
#include <stdint.h>

#if defined(SIZE_MAX) && SIZE_MAX != 18446744073709551615u
#error "libtfmset needs a 64-bit size_t"
#endif

#ifdef __cplusplus
extern "C" {
#endif

/* The call succeeded. */
#define TFMSET_DONE 0u
/* The font is refused; tfmset_check and tfmset_fault_text report its first error. */
#define TFMSET_FONT_REFUSED 1u
/* An allocation failed. The contents of the arrays of tfmset_set, tfmset_widths, tfmset_records, tfmset_spans
 * and tfmset_span_items are unspecified. Nothing else has changed. */
#define TFMSET_OUT_OF_MEMORY 2u
/* An array is too short. The last argument contains the lengths that are needed. */
#define TFMSET_NO_ROOM 3u
/* A number is out of its range, a text isn't a size, `encoding` is neither a name nor an encoding vector, or
 * the option `size` is neither 0 nor that of the font of the table. Nothing has changed. */
#define TFMSET_OUT_OF_RANGE 4u
/* tfmset_encode: the text isn't UTF-8. */
#define TFMSET_NOT_UTF8 5u

/* Returns the version of the library: 1,000,000 * X + 1,000 * Y + Z for version X.Y.Z. TFMSET_VERSION is the
 * version of this header. */
#define TFMSET_VERSION 2000u
uint32_t tfmset_version(void);

/* Reads a size from a text, which needs no zero byte at its end. The text is a number with a unit, such as
 * "12pt", "10.95pt" or "4mm", or a whole number of scaled points, such as "655360". The units are pt, in, pc,
 * cm, mm, bp, dd, cc and sp, in lower case. The fraction follows a point or a comma. The size is rounded as
 * TeX rounds a dimension. With sp the digits after the point are ignored, as in TeX. Signs and spaces aren't
 * allowed, except that a number without a unit may begin with a plus sign. Returns TFMSET_DONE, or
 * TFMSET_OUT_OF_RANGE if the text isn't a size from 1 to 134,217,727 scaled points. */
uint32_t tfmset_size(const uint8_t *text, size_t text_length, uint32_t *size);

/* An uncoded character: one that an encoding can't represent. `offset` is the offset in the text at which it
 * begins, and `character` is its number in Unicode. */
struct tfmset_uncoded {
    size_t offset;
    uint32_t character;
};

/* The result of tfmset_encode, which is unchanged after TFMSET_OUT_OF_RANGE. */
struct tfmset_encoded {
    /* The numbers of codes and of uncoded characters. After TFMSET_NOT_UTF8: 0. */
    size_t count, uncoded;
    /* The offset of the first byte that isn't part of a character; 0 if the text is UTF-8. */
    size_t offset;
};

/* Turns a text in UTF-8 into the codes of a font. `encoding` is one of these, without a zero byte at its end:
 *
 * - the name of the font's encoding, or the same in capitals: "ot1" (cmr10), "t1" (ecrm1000), "ly1", "latin1"
 * - "bytes": the text may be any bytes, which are the codes
 * - an encoding vector of dvips: the contents of a file .enc, which each call reads again
 *
 * Most characters have one code, and some have two or three. An uncoded character is one that isn't in the
 * encoding, or that LaTeX takes from another font or puts together from an accent and a letter. It is left
 * out and reported. Line feeds are kept. A soft hyphen is left out without a report, and so is a byte order
 * mark at the front of the text.
 *
 * The function writes the codes to `codes`, and the uncoded characters to `uncoded`, in the order of the
 * text. offsets[i] is the offset in the text of the character that codes[i] comes from. If offsets_length is
 * 0, no offsets are written. Each array is long enough if it is as long as the text. Returns
 *
 * TFMSET_DONE: the elements are at the front of the arrays. The other elements are unchanged.
 * TFMSET_NO_ROOM: an array is too short. `codes` and `offsets` need encoded->count elements, and `uncoded`
 *     needs encoded->uncoded. The contents of the arrays are unspecified.
 * TFMSET_OUT_OF_RANGE: `encoding` is neither a name nor a vector. Nothing has changed.
 * TFMSET_NOT_UTF8: the text isn't UTF-8. The arrays are unchanged. */
uint32_t tfmset_encode(const uint8_t *encoding, size_t encoding_length, const uint8_t *text,
                       size_t text_length, uint8_t *codes, size_t codes_length, size_t *offsets,
                       size_t offsets_length, struct tfmset_uncoded *uncoded, size_t uncoded_length,
                       struct tfmset_encoded *encoded);

/* The first error of a font. docs/ERRORS.md in the sources describes each error, with an example. */
struct tfmset_fault {
    /* `number` is that of the rule that the font breaks. `place` and `named` are 0 unless listed here:
     *     1    the file is too short for the twelve counts; `place`: the number of bytes needed
     *     2    a count is out of range; `named`: the count
     *     3    the character range is invalid
     *     4    the header is too short
     *     5    a table that needs an entry is empty; `named`: the table
     *     6    there are more than 256 extensible recipes
     *     7    the first count, lf, isn't the sum of the lengths of the parts of the file
     *     8    the file has fewer bytes than its first count requires; `place`: the number needed
     *     9    the design size is negative, or is below one point
     *     10   an index of a character is beyond the end of its table; `place`: the code; `named`: the table
     *     11   the address of a character's instructions is beyond the last instruction; `place`: the code
     *     12   entry 0 of a table isn't zero; `named`: the table
     *     13   a table entry is too large; `place`: its index, from 0 (in table 9 from 1); `named`: the table
     *     14   an instruction refers to something that doesn't exist; `place`: its address, from 0; `named`,
     *          what is wrong: 0 restart (an indirect start), 1 next character, 2 ligature, 3 kern, 4 skip
     * Counts: 0 lf, 1 lh, 2 bc, 3 ec, 4 nw, 5 nh, 6 nd, 7 ni, 8 nl, 9 nk, 10 ne, 11 np. Tables: 0 header,
     * 1 char_info, 2 width, 3 height, 4 depth, 5 italic, 6 lig_kern, 7 kern, 8 exten, 9 param. */
    size_t place;
    uint32_t number, named;
};

/* Checks a font. Returns TFMSET_DONE if the font is accepted. If it returns TFMSET_FONT_REFUSED, `fault` has
 * the first error of the font. Otherwise `fault` is unchanged. */
uint32_t tfmset_check(const uint8_t *font, size_t font_length, struct tfmset_fault *fault);

/* Reports the first error of a font in words, such as "10 character 98, table width", as the program prints
 * it. The text has no zero byte at its end. Returns TFMSET_DONE for a refused font, too. For an accepted font
 * the text is empty. */
uint32_t tfmset_fault_text(const uint8_t *font, size_t font_length, uint8_t *text, size_t text_length,
                           size_t *count);

/* General facts about a font. */
struct tfmset_about {
    /* The numbers of parameters, of kerns, and of instructions in the lig/kern program. */
    size_t parameters, kerns, instructions;
    /* `size` is the size that the font is read at, and `check_sum` is as in the file. `right_boundary` is the
     * code of the right boundary character, or 256 for none. `left_boundary` is 1 if the left boundary has
     * instructions, otherwise 0. */
    uint32_t design_size, size, check_sum, right_boundary, left_boundary;
};

/* Fills `about`. After every code except TFMSET_DONE it is unchanged. */
uint32_t tfmset_font(const uint8_t *font, size_t font_length, uint32_t size, struct tfmset_about *about);

/* The dimensions and the tag of the character with a code. */
struct tfmset_character {
    /* 1 if the font has the character. Otherwise 0, and all other fields are 0. */
    uint32_t exists;
    /* `italic` is the italic correction. */
    int32_t width, height, depth, italic;
    /* 0: no tag. 1: lig/kern instructions. 2: a next larger character. 3: an extensible recipe. */
    uint32_t tag;
    /* Tag 1: the address of an instruction in the lig/kern program. If this is an indirect start
     * (docs/LIGATURES.md in the sources), the program of the character begins at another one. Tag 2: the code
     * of the next larger character. Tag 3: the number of the recipe, from 0. Otherwise 0. */
    uint32_t remainder;
    /* Tag 3: the codes of the pieces of the recipe; the first three are 0 if missing. Otherwise 0. */
    uint8_t top, middle, bottom, repeated;
};

/* Reports the character with each of the 256 codes, in order. A font may have a character with code 32,
 * although a byte with the value 32 in a line is a space. */
uint32_t tfmset_characters(const uint8_t *font, size_t font_length, uint32_t size,
                           struct tfmset_character *characters, size_t characters_length, size_t *count);

/* Reports all parameters of a font, from number 1 at index 0: slant, space, stretch, shrink, x_height, quad,
 * extra_space, and further ones. A font may have fewer. The slant is a ratio in units of 2^-20. The second
 * parameter is the width of a space in a line. */
uint32_t tfmset_parameters(const uint8_t *font, size_t font_length, uint32_t size, int32_t *parameters,
                           size_t parameters_length, size_t *count);

/* The value of `left` in a pair for the left boundary, and of `right` for the right boundary. */
#define TFMSET_BOUNDARY 256u
/* Two neighbours, and what the font's lig/kern program does between them. */
struct tfmset_pair {
    /* Codes from 0 to 255, or TFMSET_BOUNDARY. */
    uint32_t left, right;
    /* 1: a kern. 2: a ligature operation. */
    uint32_t action;
    /* Action 1: the kern. Otherwise 0. */
    int32_t kern;
    /* Action 2: `code` is the character that is inserted. `keep_left` and `keep_right` are 1 if the left and
     * the right neighbour stay. `pass` is the number of elements, 0 to 2, that are passed over after the
     * operation (docs/LIGATURES.md in the sources has a table). Otherwise all are 0. */
    uint32_t code, keep_left, keep_right, pass;
};

/* Reports all pairs of neighbours that have an action. A neighbour is a character of the font or a boundary.
 * The pairs are sorted by `left`, with the left boundary first, and then by `right`, with the right boundary
 * last. 66,049 elements are always enough. */
uint32_t tfmset_pairs(const uint8_t *font, size_t font_length, uint32_t size, struct tfmset_pair *pairs,
                      size_t pairs_length, size_t *count);

/* Reports a text in the header of a font, without a zero byte at its end. With TFMSET_CODING_SCHEME as
 * `which` it is the coding scheme, at most 39 bytes. With TFMSET_FAMILY it is the family, at most 19 bytes.
 * If the header is too short for it, the text is empty. */
#define TFMSET_CODING_SCHEME 0u
#define TFMSET_FAMILY 1u
uint32_t tfmset_header_text(const uint8_t *font, size_t font_length, uint32_t which, uint8_t *text,
                            size_t text_length, size_t *count);

/* The missing-character policies. A missing character is a byte of a line that is neither a space (32) nor a
 * character of the font. TFMSET_REFUSE refuses the line. TFMSET_SKIP skips the character, and lists it as an
 * item of kind TFMSET_SKIPPED. */
#define TFMSET_REFUSE 0u
#define TFMSET_SKIP 1u
/* The default of the option `limit`, and its largest value. */
#define TFMSET_DEFAULT_LIMIT 1048576u
#define TFMSET_MOST_STEPS 16777216u
/* The options of a call that sets lines or spans. A struct of zeros has the defaults. */
struct tfmset_options {
    /* Once the lines of a call have taken this many steps together, each further line is refused with
     * TFMSET_TOO_MANY_STEPS. A line that takes more than `limit` steps counts as `limit` steps. A call
     * therefore takes at most `call_limit` plus `limit` steps. 0 stands for the default, 2^64 - 1. */
    uint64_t call_limit;
    /* `size` is that of the font. `limit` is the largest number of steps of a line; 0 is the default. */
    uint32_t size, limit;
    /* `policy` is TFMSET_REFUSE or TFMSET_SKIP. `crlf` is 1 if one carriage return (13) before a line feed
     * belongs to the line ending, and 0 if it is a byte of the line. */
    uint32_t policy, crlf;
};

/* The kinds of items. A ligature is a TFMSET_CHARACTER. */
#define TFMSET_CHARACTER 0u
#define TFMSET_KERN 1u
#define TFMSET_SPACE 2u
#define TFMSET_SKIPPED 3u
/* An item of a line. `code` is 0 for a kern and for a space. `width` is 0 for a skipped character. */
struct tfmset_item {
    uint32_t kind, code;
    int32_t width;
};

/* The values of `refusal` in a line. TFMSET_SET: the line is set. */
#define TFMSET_SET 0u
/* The line has a missing character, and the policy is TFMSET_REFUSE. */
#define TFMSET_MISSING 1u
/* The line has more than 65,535 bytes. This is reported even if it has a missing character, too. */
#define TFMSET_TOO_LONG 2u
/* The line takes more than `limit` steps, or the call has taken `call_limit` steps. */
#define TFMSET_TOO_MANY_STEPS 3u
/* The span ends after the end of the text. */
#define TFMSET_OUTSIDE 4u
/* The result of a line. Check `refusal` before using `width`: a refused line has width 0 and no items. */
struct tfmset_line {
    /* The sum of the widths of the items. */
    int64_t width;
    /* The line's items are `count` elements of the array `items`, from index `first`. */
    size_t first, count;
    /* TFMSET_MISSING: the offset in the line of the first missing character, from 0. TFMSET_TOO_LONG: the
     * number of bytes of the line. Otherwise 0. */
    size_t place;
    /* TFMSET_SET: the number of steps that the line took. TFMSET_TOO_MANY_STEPS: `limit`, or 0 if the call
     * has taken `call_limit` steps. Otherwise 0. */
    uint32_t steps;
    /* `refusal` is one of the numbers above. `code` is that of a missing character, otherwise 0. */
    uint32_t refusal, code;
};

/* The numbers of lines in a text and of items in all lines. 2^64 - 1 also stands for larger numbers. */
struct tfmset_counts {
    size_t lines, items;
};

/* Sets the lines of a text. A line ends before a line feed (10). The bytes after the last line feed are one
 * more line, if there are any. A refused line doesn't make the call fail. After TFMSET_DONE the lines and
 * items are at the front of the arrays, in order, and `counts` has their numbers. Other elements are
 * unchanged. After TFMSET_NO_ROOM `counts` has the lengths that are needed, and the contents of both arrays
 * are unspecified. After any other code `counts` is unchanged. */
uint32_t tfmset_set(const uint8_t *font, size_t font_length, const struct tfmset_options *options,
                    const uint8_t *text, size_t text_length, struct tfmset_line *lines, size_t lines_length,
                    struct tfmset_item *items, size_t items_length, struct tfmset_counts *counts);

/* Sets the lines of a text as tfmset_set does, without an array of items. All numbers in `lines` and `counts`
 * are those of tfmset_set. Only `lines` has to be long enough: the number of line feeds in the text plus 1 is
 * always enough. */
uint32_t tfmset_widths(const uint8_t *font, size_t font_length, const struct tfmset_options *options,
                       const uint8_t *text, size_t text_length, struct tfmset_line *lines,
                       size_t lines_length, struct tfmset_counts *counts);

/* The record format that the command line calls `json`. */
#define TFMSET_JSON 3u
/* The format of records, and the numbers in them. */
struct tfmset_form {
    /* A record begins with `source` and the number of its line; `first` is the number of the first line. */
    uint64_t source, first;
    /* The record format: 1, 2, or TFMSET_JSON. */
    uint32_t version;
};

/* Sets the lines of a text as tfmset_set does, and writes their records (docs/OUTPUT.md in the sources). It
 * writes neither end lines nor the line `records 2` of the program. After TFMSET_NO_ROOM the contents of
 * `records` are unspecified. Returns TFMSET_OUT_OF_RANGE also if `form->first` plus `text_length` is 2^64 or
 * more.
 *
 * If `encoding` is empty or "bytes", the bytes of the text are codes. Otherwise the text is UTF-8, and
 * `encoding` is a name or a vector, as for tfmset_encode. Lengths and offsets in the records then count bytes
 * of the line in UTF-8. A line that isn't UTF-8 is refused. With the policy TFMSET_REFUSE a line with an
 * uncoded character is refused. With TFMSET_SKIP its record lists the character as skipped. */
uint32_t tfmset_records(const uint8_t *font, size_t font_length, const struct tfmset_options *options,
                        const uint8_t *encoding, size_t encoding_length, const uint8_t *text,
                        size_t text_length, const struct tfmset_form *form, uint8_t *records,
                        size_t records_length, size_t *count);

/* Reports why a line or a span is refused, in the words of a record, such as "missing 7 65", without a zero
 * byte at its end. The text is empty if the line is set. */
uint32_t tfmset_refusal_text(const struct tfmset_line *line, uint8_t *text, size_t text_length,
                             size_t *count);

/* Writes the table of a font at a size. With it, tfmset_spans and tfmset_span_items set spans without reading
 * the font again. The table has 2,084 bytes, and four for each instruction and each kern. It contains no
 * pointers: it may be copied, stored, mapped, and shared by threads and processes. */
uint32_t tfmset_prepare(const uint8_t *font, size_t font_length, uint32_t size, uint8_t *table,
                        size_t table_length, size_t *count);

/* The edges of a span. TFMSET_LEFT_EDGE: the left boundary of the font precedes the span. TFMSET_RIGHT_EDGE:
 * the right boundary follows it. */
#define TFMSET_LEFT_EDGE 1u
#define TFMSET_RIGHT_EDGE 2u
/* The value of `hyphen` for a span without a hyphen. */
#define TFMSET_NO_HYPHEN 256u
/* A part of a text that is set as one run, such as a word: `length` bytes from the offset `offset`. Each byte
 * is a character code, even 10 and 32. `edges` is the sum of the edges; a whole word has both. `hyphen` is a
 * code that is set after the bytes, before the right boundary, or TFMSET_NO_HYPHEN. */
struct tfmset_span {
    size_t offset, length;
    uint32_t edges, hyphen;
};

/* Sets spans of a text. `font` is a TFM file, or a table that tfmset_prepare of this version wrote. A table
 * that was changed is either refused, or gives arbitrary results; it is never unsafe to use. lines[i] is the
 * result of spans[i], with the fields of a line in tfmset_widths. `counts` has the numbers of spans and of
 * their items. After TFMSET_NO_ROOM the contents of `lines` are unspecified. Spans differ from lines:
 *
 * - A span with a missing character is always refused. `place` is the offset of the character in the text or,
 *   if the font lacks the hyphen's code, the offset of the end of the span.
 * - A span that ends after the end of the text is refused with TFMSET_OUTSIDE, even if there are other
 *   reasons, unless the call has taken `call_limit` steps.
 * - TFMSET_OUT_OF_RANGE is also returned if `policy` or `crlf` isn't 0, if `edges` or `hyphen` of a span is
 *   out of range, or if `size` is neither 0 nor the size at which the font of a table was read. */
uint32_t tfmset_spans(const uint8_t *font, size_t font_length, const struct tfmset_options *options,
                      const uint8_t *text, size_t text_length, const struct tfmset_span *spans,
                      size_t spans_length, struct tfmset_line *lines, size_t lines_length,
                      struct tfmset_counts *counts);

/* An item of a span, and the bytes of the text that it comes from: `length` bytes from the offset `offset`.
 * `kind` is TFMSET_CHARACTER or TFMSET_KERN. A character of the text comes from its own byte, and a ligature
 * from the bytes of the characters that it replaces. The length is 0 for a kern, for the hyphen, and for a
 * ligature that replaces no character of the text. Each byte of a span belongs to exactly one item. */
struct tfmset_placed {
    size_t offset, length;
    uint32_t kind, code;
    int32_t width;
};

/* Sets spans as tfmset_spans does, and returns their items, as tfmset_set returns those of lines. */
uint32_t tfmset_span_items(const uint8_t *font, size_t font_length, const struct tfmset_options *options,
                           const uint8_t *text, size_t text_length, const struct tfmset_span *spans,
                           size_t spans_length, struct tfmset_line *lines, size_t lines_length,
                           struct tfmset_placed *items, size_t items_length, struct tfmset_counts *counts);

/* The library was compiled for these sizes of structs, and for these offsets of their last fields. */
#if defined(__cplusplus) && __cplusplus >= 201103L
#define TFMSET_ASSERT(name, fact) static_assert(fact, "the layout of a struct isn't that of libtfmset")
#elif defined(__STDC_VERSION__) && __STDC_VERSION__ >= 201112L
#define TFMSET_ASSERT(name, fact) _Static_assert(fact, "the layout of a struct isn't that of libtfmset")
#else
#define TFMSET_ASSERT(name, fact) extern char name##_layout[(fact) ? 1 : -1]
#endif
#define TFMSET_LAYOUT(name, size, last, offset) \
    TFMSET_ASSERT(name, sizeof(struct name) == (size) && offsetof(struct name, last) == (offset))
TFMSET_LAYOUT(tfmset_uncoded, 16, character, 8);
TFMSET_LAYOUT(tfmset_encoded, 24, offset, 16);
TFMSET_LAYOUT(tfmset_fault, 16, named, 12);
TFMSET_LAYOUT(tfmset_about, 48, left_boundary, 40);
TFMSET_LAYOUT(tfmset_character, 32, repeated, 31);
TFMSET_LAYOUT(tfmset_pair, 32, pass, 28);
TFMSET_LAYOUT(tfmset_options, 24, crlf, 20);
TFMSET_LAYOUT(tfmset_item, 12, width, 8);
TFMSET_LAYOUT(tfmset_line, 48, code, 40);
TFMSET_LAYOUT(tfmset_counts, 16, items, 8);
TFMSET_LAYOUT(tfmset_form, 24, version, 16);
TFMSET_LAYOUT(tfmset_span, 24, hyphen, 20);
TFMSET_LAYOUT(tfmset_placed, 32, width, 24);
#undef TFMSET_LAYOUT
#undef TFMSET_ASSERT

#ifdef __cplusplus
}
#endif

#endif
