/*
 * Sagivelume: the proved chart store for hive scales, called from C. Link libsagivelume.a.
 *
 * A series of n hours, 1 to 16,384, holds in each hour a reading, -1,000,000 to 1,000,000 grams, or a gap, 2,000,003.
 * Its table has P coefficients and P/2 codes, where P is the smallest power of two that is at least n and at least 2.
 * Its record has 7 + 3P + P/2 bytes.
 *
 * In a table, coefficients 0 and 1 are the lowest and the highest reading, coefficients 2i and 2i + 1 the details of
 * node i, and code k is that of hours 2k and 2k + 1. RECORD.md says what details and codes mean.
 *
 * Every call ends with an answer, whatever the numbers and whatever the buffers hold. A buffer passes as a pointer and
 * then its length in elements; a longer one than needed is taken, and what lies beyond changes no answer and stays as
 * it was. Only the bytes of a record to be read or opened must be the record and no more. The caller sees to what C
 * cannot check: that the pointer is that of so many live elements and aligned, and that a buffer to be written overlaps
 * no other of the call. Where the length is 0 the pointer is not followed and may be null. No call keeps a pointer,
 * allocates, or touches anything else, so that calls on different buffers may run at once.
 *
 * Of every call but places, record_bytes, level and join, which refuse nothing, the answer begins with a refusal's
 * number and its place, both 0 where the call is taken. A refused call writes nothing, and the other fields of its
 * answer are 0. Where a call has several causes, the first in the order given with it is told. SAGIVELUME_REFUSALS
 * lists them.
 *
 * Turning back, writing and reading examine every node, so that what they take is the table of a series. Columns and
 * the day change examine the nodes on their way alone: of a table that no series has they may answer all the same.
 */
#ifndef SAGIVELUME_H
#define SAGIVELUME_H

#include <stddef.h>
#include <stdint.h>

/* The version of this header and its library; as a number it is 10000 * major + 100 * minor + patch. */
#define SAGIVELUME_VERSION "0.2.0"
#define SAGIVELUME_VERSION_NUMBER 200

#define SAGIVELUME_LARGEST_HOURS 16384
#define SAGIVELUME_LARGEST_READING 1000000
#define SAGIVELUME_GAP 2000003
#define SAGIVELUME_MOST_COLUMNS 4096

/* Buffers of so many coefficients, codes and bytes serve every n. */
#define SAGIVELUME_MOST_COEFFICIENTS 16384
#define SAGIVELUME_MOST_CODES 8192
#define SAGIVELUME_MOST_RECORD_BYTES 57351

/* The refusals: word, number and cause of each, for a macro of one's own, as in c/draw.c. The place told with a refusal
 * is the first such hour for 2 and 14; the number of the first such node for 4, 0 for coefficients 0 and 1; the line
 * for 12, which is the printer's and no call's; and 0 for all others. */
#define SAGIVELUME_REFUSALS(REFUSAL) \
    REFUSAL(SAGIVELUME_BAD_HOURS, 1, "n is 0 or over 16,384") \
    REFUSAL(SAGIVELUME_BAD_READING, 2, "an hour holds neither a reading nor a gap") \
    REFUSAL(SAGIVELUME_SHORT_BUFFER, 3, "a buffer is shorter than needed") \
    REFUSAL(SAGIVELUME_UNSOUND, 4, "a node that is examined fits no series of n hours") \
    REFUSAL(SAGIVELUME_BAD_WINDOW, 5, "not a < b <= n, or the day begins at hour n or later") \
    REFUSAL(SAGIVELUME_BAD_COLUMN, 6, "w is 0 or over 4,096, or the column is not below w") \
    REFUSAL(SAGIVELUME_TOO_DEEP, 7, "the depth is over l, where P is 2 to the power l") \
    REFUSAL(SAGIVELUME_CUT_SHORT, 8, "the bytes end before the record, or the coefficient, does") \
    REFUSAL(SAGIVELUME_BAD_VERSION, 9, "the record's version is not 1") \
    REFUSAL(SAGIVELUME_BAD_LENGTH, 10, "the record's length field is not that of its n") \
    REFUSAL(SAGIVELUME_BYTES_AFTER, 11, "bytes follow the record") \
    REFUSAL(SAGIVELUME_BAD_LINE, 12, "a line of the text is bad") \
    REFUSAL(SAGIVELUME_BAD_PLACE, 13, "the place asked for is not below the number of places") \
    REFUSAL(SAGIVELUME_BAD_FLAG, 14, "a flag is neither 0 nor 1") \
    REFUSAL(SAGIVELUME_BAD_START, 15, "the start differs from the first recorded count modulo 65,536")

#define SAGIVELUME_NUMBERED(word, number, cause) word = number,
enum sagivelume_refusal { SAGIVELUME_REFUSALS(SAGIVELUME_NUMBERED) SAGIVELUME_TAKEN = 0 };
#undef SAGIVELUME_NUMBERED

#ifdef __cplusplus
extern "C" {
#endif

/* Taken, or refused. */
struct sagivelume_told {
    size_t number;
    size_t place;
};

/* Places of the lent coefficients: `length` of them from place `start` on. */
struct sagivelume_stretch {
    size_t start;
    size_t length;
};

/* The bytes of the record that was written. */
struct sagivelume_told_bytes {
    size_t number;
    size_t place;
    size_t bytes;
};

/* The hours of the series whose record was read, n. */
struct sagivelume_told_hours {
    size_t number;
    size_t place;
    size_t hours;
};

/* The hours of a record's series, n, and how many coefficients it has, P. */
struct sagivelume_told_record {
    size_t number;
    size_t place;
    size_t hours;
    size_t places;
};

/* A coefficient of a record. */
struct sagivelume_told_coefficient {
    size_t number;
    size_t place;
    int32_t coefficient;
};

/* The hours of a column: from `from` up to, not including, `upto`. */
struct sagivelume_told_column {
    size_t number;
    size_t place;
    size_t from;
    size_t upto;
};

/* A column stopped at a depth: its outer and its inner range, and how many nodes were visited. The outer range spans
 * the nodes at which the visit stopped that share an hour with the column, the inner those of them that lie within it.
 * So, in the table of a series, every reading of the column is in the outer range, and the inner lies between its
 * lowest and its highest: the outer is what the column may hold, the inner what it holds for certain. A deeper stop
 * never widens the outer and never narrows the inner; at depth l they are the same. Low and high of a range that is
 * absent, since none of its nodes has a reading, are both 2,000,003. */
struct sagivelume_told_ranges {
    size_t number;
    size_t place;
    int32_t outer_low;
    int32_t outer_high;
    int32_t inner_low;
    int32_t inner_high;
    size_t count;
};

/* The readings of some hours: `found` is 1 if there is one, else 0 with 0 in the other fields. First and last reading,
 * each with its hour of the series, and the lowest and the highest. */
struct sagivelume_told_answer {
    size_t found;
    size_t first_hour;
    size_t last_hour;
    int32_t first;
    int32_t last;
    int32_t low;
    int32_t high;
};

/* A finished column: its answer, and how many nodes were visited and walked down. */
struct sagivelume_told_finished {
    size_t number;
    size_t place;
    struct sagivelume_told_answer answer;
    size_t count;
};

/* The change of a day in grams: `found` is 1 if the day has a reading, else 0 with 0 grams. */
struct sagivelume_told_change {
    size_t number;
    size_t place;
    size_t found;
    int32_t grams;
};

/* How many coefficients the table of n hours has, P; it has half as many codes. 0 where n is 0 or over 16,384. */
size_t sagivelume_places(
    size_t n);

/* How many bytes the record of n hours has, 7 + 3P + P/2. 0 where n is 0 or over 16,384. */
size_t sagivelume_record_bytes(
    size_t n);

/* Makes the table of the first n readings. Reads n readings, writes P coefficients and P/2 codes. Refusals 1, 3, 2. */
struct sagivelume_told sagivelume_make(
    size_t n,
    const int32_t *readings, size_t readings_length,
    int32_t *coefficients, size_t coefficients_length,
    uint8_t *codes, size_t codes_length);

/* Turns a table back into the hours of the series that has it. Reads P coefficients and P/2 codes, writes n hours.
 * Refusals 1, 3, 4. */
struct sagivelume_told sagivelume_turn_back(
    size_t n,
    const int32_t *coefficients, size_t coefficients_length,
    const uint8_t *codes, size_t codes_length,
    int32_t *hours, size_t hours_length);

/* Rebuilds the series of an old scale's log. In each hour it has a count, the weight modulo 65,536, and a flag, 1 if
 * the hour was recorded and 0 if not; the count of an hour that was not is not looked at. `start` is the weight at the
 * first recorded hour, below zero too; if there is none, it is not looked at. From a recorded hour to the next the
 * weight changes by the later count minus the earlier, taken modulo 65,536 as -32,768 to 32,767; every other hour
 * becomes a gap. Reads n counts and n flags, writes n hours. Refusals 1, 3, 14, 15, 2: here 2 is an hour whose rebuilt
 * weight, or the start itself, is no reading. */
struct sagivelume_told sagivelume_rebuild(
    size_t n,
    const uint16_t *counts, size_t counts_length,
    const uint8_t *flags, size_t flags_length,
    int32_t start,
    int32_t *hours, size_t hours_length);

/* Tells where the details of level j stand, j from 0 to l - 2: those of nodes 2^j to 2^(j+1) - 1, low detail and high
 * detail of each in turn. Needs P coefficients, of which none is read. No refusal: start and length are 0 for any other
 * j, and for the causes of 1 and 3. */
struct sagivelume_stretch sagivelume_level(
    size_t n,
    size_t j,
    const int32_t *coefficients, size_t coefficients_length);

/* Writes the record of a table. Reads P coefficients and P/2 codes, writes 7 + 3P + P/2 bytes and answers how many.
 * Refusals 1, 3, 4. */
struct sagivelume_told_bytes sagivelume_write_record(
    size_t n,
    const int32_t *coefficients, size_t coefficients_length,
    const uint8_t *codes, size_t codes_length,
    uint8_t *bytes, size_t bytes_length);

/* Reads a record, which is all of the bytes, into a table and answers n. Writes P coefficients and P/2 codes. Refusals
 * 8, 9, 1, 10, 8, 11, 3, 4. */
struct sagivelume_told_hours sagivelume_read_record(
    const uint8_t *bytes, size_t bytes_length,
    int32_t *coefficients, size_t coefficients_length,
    uint8_t *codes, size_t codes_length);

/* Opens a record, which is all of the bytes, without reading its table, and answers n and P. Refusals 8, 9, 1, 10, 8,
 * 11. */
struct sagivelume_told_record sagivelume_open_record(
    const uint8_t *bytes, size_t bytes_length);

/* Asks a record for the coefficient at a place. It trusts `places`, which is to be P as opening answered it for these
 * bytes: neither that number nor the record is checked again. With another number no byte beyond the lent ones is read,
 * but what is answered is not the record's. Refusals 13, 8. */
struct sagivelume_told_coefficient sagivelume_ask(
    const uint8_t *bytes, size_t bytes_length,
    size_t places,
    size_t place);

/* Tells the hours of one column of the window [a, b) that is drawn in w columns. Where w is over b - a, some columns
 * have no hour: `from` is `upto`, ranges are absent, `found` is 0, the count is 0, and no node is examined. Refusals 1,
 * 5, 6. */
struct sagivelume_told_column sagivelume_edges(
    size_t n,
    size_t a,
    size_t b,
    size_t w,
    size_t column);

/* Answers that column from the nodes down to a depth, 0 to l. Reads P coefficients and P/2 codes. Refusals 1, 3, 5, 6,
 * 7, 4. */
struct sagivelume_told_ranges sagivelume_stopped(
    size_t n,
    const int32_t *coefficients, size_t coefficients_length,
    const uint8_t *codes, size_t codes_length,
    size_t a,
    size_t b,
    size_t w,
    size_t column,
    size_t depth);

/* Answers that column, from the table of a series as a look through its hours would. Reads P coefficients and P/2
 * codes. Refusals 1, 3, 5, 6, 4. */
struct sagivelume_told_finished sagivelume_finished(
    size_t n,
    const int32_t *coefficients, size_t coefficients_length,
    const uint8_t *codes, size_t codes_length,
    size_t a,
    size_t b,
    size_t w,
    size_t column);

/* Joins the answer of some hours with the answer of the hours after them. No refusal: `found` other than 0 is taken as
 * 1, and where it is 0 the other fields are not looked at. */
struct sagivelume_told_answer sagivelume_join(
    struct sagivelume_told_answer left,
    struct sagivelume_told_answer right);

/* Answers the change of a day: its last reading minus the latest reading before that day, of whatever day; with none
 * earlier, minus its own first. So the changes of all days add up to the series' last reading minus its first. Day d
 * has the hours 24d to 24d + 23, cut at n. Reads P coefficients and P/2 codes. Refusals 1, 3, 5, 4, the last first of
 * the day's hours and then, if it has a reading, of those before it. */
struct sagivelume_told_change sagivelume_day_change(
    size_t n,
    const int32_t *coefficients, size_t coefficients_length,
    const uint8_t *codes, size_t codes_length,
    size_t day);

#ifdef __cplusplus
}
#endif

#endif
